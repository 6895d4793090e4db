// Made by tools/plain_rust.py from crates/slh_lanes/src/single_block.rt.
//! SHA-256's compression of one block, four rounds at a time (FIPS 180-4, section 6.2.2), as the SHA instructions of
//! processors take it.

use crate::slh_lanes::constants::K_256;
use crate::slh_lanes::instructions::{Quad, State, Word, four_rounds, next_words, state_of, words_of};
use crate::slh_lanes::rounds::{ChainCompression, Compression};

/// Compressions of single blocks by the SHA instructions of the processor.
pub(crate) struct Instructions;

impl Compression<Word> for Instructions {
    #[inline(always)]
    fn compress(state: &mut [Word; 8], block: &[Word; 16]) {
        let begun = begun_of(state_of(state), quad(block, 0));
        compress_quads(state, begun, block);
    }
}

impl ChainCompression<Word> for Instructions {
    #[inline(always)]
    fn begin(state: &[Word; 8], p: Word, q: Word, r: Word, s: Word, _t: Word) -> [Word; 8] {
        words_of(begun_of(
            state_of(state),
            Quad::from_array([p.to_array()[0], q.to_array()[0], r.to_array()[0], s.to_array()[0]]),
        ))
    }

    #[inline(always)]
    fn compress_begun(state: &mut [Word; 8], begun: &[Word; 8], block: &[Word; 16]) {
        compress_quads(state, state_of(begun), block);
    }
}

/// The sums of the words of two quads.
#[inline(always)]
fn sum(x: Quad, y: Quad) -> Quad {
    x + y
}

/// Four words of a block.
#[inline(always)]
fn quad(block: &[Word; 16], t: usize) -> Quad {
    Quad::from_array([
        block[t].to_array()[0],
        block[t + 1].to_array()[0],
        block[t + 2].to_array()[0],
        block[t + 3].to_array()[0],
    ])
}

/// Rounds `t` to `t + 3`, with their words.
#[inline(always)]
fn quad_rounds(v: State, w: Quad, t: usize) -> State {
    let k = Quad::from_array([K_256[t], K_256[t + 1], K_256[t + 2], K_256[t + 3]]);
    four_rounds(v, sum(w, k))
}

/// The working variables after the first four rounds of a block.
#[inline(always)]
fn begun_of(state: State, w0: Quad) -> State {
    quad_rounds(state, w0, 0)
}

/// The working variables after all rounds of a block, from those after the first four.
#[inline(always)]
fn rest_of_rounds(begun: State, w0: Quad, w1: Quad, w2: Quad, w3: Quad) -> State {
    let mut v = quad_rounds(begun, w1, 4);
    v = quad_rounds(v, w2, 8);
    v = quad_rounds(v, w3, 12);
    let mut x0 = w0;
    let mut x1 = w1;
    let mut x2 = w2;
    let mut x3 = w3;
    for turn in 0..3usize {
        let t = 16 * turn;
        x0 = next_words(x0, x1, x2, x3);
        v = quad_rounds(v, x0, t + 16);
        x1 = next_words(x1, x2, x3, x0);
        v = quad_rounds(v, x1, t + 20);
        x2 = next_words(x2, x3, x0, x1);
        v = quad_rounds(v, x2, t + 24);
        x3 = next_words(x3, x0, x1, x2);
        v = quad_rounds(v, x3, t + 28);
    }
    v
}

/// A compression from the working variables after the first four rounds.
#[inline(always)]
fn compress_quads(state: &mut [Word; 8], begun: State, block: &[Word; 16]) {
    let from = state_of(state);
    let v = rest_of_rounds(begun, quad(block, 0), quad(block, 4), quad(block, 8), quad(block, 12));
    *state = words_of(State { abcd: sum(from.abcd, v.abcd), efgh: sum(from.efgh, v.efgh) });
}
