// Made by tools/plain_rust.py from crates/slh_lanes/src/single_long_block.rt.
//! SHA-512's compression of one block, two rounds at a time (FIPS 180-4, section 6.4.2), as the SHA instructions of
//! processors take it.

use crate::slh_lanes::constants::K_512;
use crate::slh_lanes::instructions::{LongState, LongWord, Pair, long_state_of, next_pair, two_rounds, words_of_long};
use crate::slh_lanes::rounds::Compression;
use crate::slh_lanes::single_block::Instructions;

impl Compression<LongWord> for Instructions {
    #[inline(always)]
    fn compress(state: &mut [LongWord; 8], block: &[LongWord; 16]) {
        let from = long_state_of(state);
        let mut w = *block;
        let mut v = first_rounds(from, block);
        for turn in 1..5usize {
            v = four_pair_steps(&mut w, v, turn, 0);
            v = four_pair_steps(&mut w, v, turn, 8);
        }
        *state = words_of_long(LongState {
            ab: sum(from.ab, v.ab),
            cd: sum(from.cd, v.cd),
            ef: sum(from.ef, v.ef),
            gh: sum(from.gh, v.gh),
        });
    }
}

/// The sums of the words of two pairs.
#[inline(always)]
fn sum(x: Pair, y: Pair) -> Pair {
    x + y
}

/// Two words one after another, in a ring of sixteen.
#[inline(always)]
fn pair(words: &[LongWord; 16], k: usize) -> Pair {
    Pair::from_array([words[k % 16].to_array()[0], words[(k + 1) % 16].to_array()[0]])
}

/// Rounds `t` and `t + 1`, with their words.
#[inline(always)]
fn pair_rounds(v: LongState, words: Pair, t: usize) -> LongState {
    two_rounds(v, sum(words, Pair::from_array([K_512[t], K_512[t + 1]])))
}

/// Rounds `t` and `t + 1` of the first sixteen, whose words are the block's.
#[inline(always)]
fn first_pair(v: LongState, block: &[LongWord; 16], t: usize) -> LongState {
    pair_rounds(v, pair(block, t), t)
}

/// The working variables after the first sixteen rounds of a block.
#[inline(always)]
fn first_rounds(from: LongState, block: &[LongWord; 16]) -> LongState {
    let v = first_pair(from, block, 0);
    let v = first_pair(v, block, 2);
    let v = first_pair(v, block, 4);
    let v = first_pair(v, block, 6);
    let v = first_pair(v, block, 8);
    let v = first_pair(v, block, 10);
    let v = first_pair(v, block, 12);
    first_pair(v, block, 14)
}

/// The next two words of the schedule, from a ring of the last sixteen, of which the first stands at `place`.
#[inline(always)]
fn next_words(w: &[LongWord; 16], place: usize) -> Pair {
    next_pair(pair(w, place), pair(w, place + 2), pair(w, place + 9), pair(w, place + 14))
}

/// Rounds `16 * turn + place` and the next, with their words, which are put into the ring.
#[inline(always)]
fn pair_step(w: &mut [LongWord; 16], v: LongState, turn: usize, place: usize) -> LongState {
    let next = next_words(w, place);
    let [p, q] = next.to_array();
    w[place] = LongWord::splat(p);
    w[place + 1] = LongWord::splat(q);
    pair_rounds(v, next, 16 * turn + place)
}

/// Rounds `16 * turn + place` and the next seven.
#[inline(always)]
fn four_pair_steps(w: &mut [LongWord; 16], v: LongState, turn: usize, place: usize) -> LongState {
    let v = pair_step(w, v, turn, place);
    let v = pair_step(w, v, turn, place + 2);
    let v = pair_step(w, v, turn, place + 4);
    pair_step(w, v, turn, place + 6)
}
