// Made by tools/plain_rust.py from crates/slh_lanes/src/instructions.rt.
//! The functions that a processor's SHA instructions compute: four rounds and four words of the schedule of SHA-256
//! (FIPS 180-4, section 6.2.2), and two of each of SHA-512 (section 6.4.2). Rules of `tools/` exchange their bodies for
//! the instructions, in the module that LLVM compiles.

use crate::slh_lanes::lanes::Lanes;
use crate::slh_lanes::rounds::round;
use crate::vectors::*;

/// One word.
pub(crate) type Word = Simd<u32, 1>;

/// Four words.
pub(crate) type Quad = u32x4;

/// The working variables, or a hash value.
#[derive(Clone, Copy)]
pub(crate) struct State {
    pub(crate) abcd: Quad,
    pub(crate) efgh: Quad,
}

/// The state of eight words.
#[inline(always)]
pub(crate) fn state_of(words: &[Word; 8]) -> State {
    let [a, b, c, d, e, f, g, h] = *words;
    State {
        abcd: Quad::from_array([a.to_array()[0], b.to_array()[0], c.to_array()[0], d.to_array()[0]]),
        efgh: Quad::from_array([e.to_array()[0], f.to_array()[0], g.to_array()[0], h.to_array()[0]]),
    }
}

/// The eight words of a state.
#[inline(always)]
pub(crate) fn words_of(state: State) -> [Word; 8] {
    let [a, b, c, d] = state.abcd.to_array();
    let [e, f, g, h] = state.efgh.to_array();
    [
        Word::splat(a),
        Word::splat(b),
        Word::splat(c),
        Word::splat(d),
        Word::splat(e),
        Word::splat(f),
        Word::splat(g),
        Word::splat(h),
    ]
}

/// A round with the sum of its constant and its word.
#[inline(always)]
fn sum_round(v: [Word; 8], x: u32) -> [Word; 8] {
    round(v, Word::splat(0), Word::splat(x))
}

/// Four rounds, each with the sum of its constant and its word.
#[inline(always)]
pub(crate) fn four_rounds(v: State, x: Quad) -> State {
    let [x0, x1, x2, x3] = x.to_array();
    let v1 = sum_round(words_of(v), x0);
    let v2 = sum_round(v1, x1);
    let v3 = sum_round(v2, x2);
    state_of(&sum_round(v3, x3))
}

/// A word of the schedule from those 2, 7, 15 and 16 before it.
#[inline(always)]
fn word_after(p: u32, q: u32, r: u32, s: u32) -> u32 {
    let two = Word::sum(Word::splat(p).small_sigma1(), Word::splat(q));
    let three = Word::sum(two, Word::splat(r).small_sigma0());
    Word::sum(three, Word::splat(s)).to_array()[0]
}

/// The four words of the schedule after sixteen.
#[inline(always)]
pub(crate) fn next_words(w0: Quad, w1: Quad, w2: Quad, w3: Quad) -> Quad {
    let [a, b, c, d] = w0.to_array();
    let [e, _, _, _] = w1.to_array();
    let [_, i, j, k] = w2.to_array();
    let [l, _, m, n] = w3.to_array();
    let x0 = word_after(m, i, b, a);
    let x1 = word_after(n, j, c, b);
    let x2 = word_after(x0, k, d, c);
    let x3 = word_after(x1, l, e, d);
    Quad::from_array([x0, x1, x2, x3])
}

/// One word of 64 bits.
pub(crate) type LongWord = Simd<u64, 1>;

/// Two words of 64 bits.
pub(crate) type Pair = u64x2;

/// SHA-512's working variables, or its hash value.
#[derive(Clone, Copy)]
pub(crate) struct LongState {
    pub(crate) ab: Pair,
    pub(crate) cd: Pair,
    pub(crate) ef: Pair,
    pub(crate) gh: Pair,
}

/// The state of eight words.
#[inline(always)]
pub(crate) fn long_state_of(words: &[LongWord; 8]) -> LongState {
    let [a, b, c, d, e, f, g, h] = *words;
    LongState {
        ab: Pair::from_array([a.to_array()[0], b.to_array()[0]]),
        cd: Pair::from_array([c.to_array()[0], d.to_array()[0]]),
        ef: Pair::from_array([e.to_array()[0], f.to_array()[0]]),
        gh: Pair::from_array([g.to_array()[0], h.to_array()[0]]),
    }
}

/// The eight words of a state.
#[inline(always)]
pub(crate) fn words_of_long(state: LongState) -> [LongWord; 8] {
    let [a, b] = state.ab.to_array();
    let [c, d] = state.cd.to_array();
    let [e, f] = state.ef.to_array();
    let [g, h] = state.gh.to_array();
    [
        LongWord::splat(a),
        LongWord::splat(b),
        LongWord::splat(c),
        LongWord::splat(d),
        LongWord::splat(e),
        LongWord::splat(f),
        LongWord::splat(g),
        LongWord::splat(h),
    ]
}

/// A round of SHA-512 with the sum of its constant and its word.
#[inline(always)]
fn long_sum_round(v: [LongWord; 8], x: u64) -> [LongWord; 8] {
    round(v, LongWord::splat(0), LongWord::splat(x))
}

/// Two rounds of SHA-512, each with the sum of its constant and its word.
#[inline(always)]
pub(crate) fn two_rounds(v: LongState, x: Pair) -> LongState {
    let [x0, x1] = x.to_array();
    let v1 = long_sum_round(words_of_long(v), x0);
    long_state_of(&long_sum_round(v1, x1))
}

/// A word of SHA-512's schedule from those 2, 7, 15 and 16 before it.
#[inline(always)]
fn long_word_after(p: u64, q: u64, r: u64, s: u64) -> u64 {
    let two = LongWord::sum(LongWord::splat(p).small_sigma1(), LongWord::splat(q));
    let three = LongWord::sum(two, LongWord::splat(r).small_sigma0());
    LongWord::sum(three, LongWord::splat(s)).to_array()[0]
}

/// The two words of SHA-512's schedule after sixteen, of which the pairs begin with words 0, 2, 9 and 14.
#[inline(always)]
pub(crate) fn next_pair(w0: Pair, w2: Pair, w9: Pair, w14: Pair) -> Pair {
    let [a, b] = w0.to_array();
    let [c, _] = w2.to_array();
    let [j, k] = w9.to_array();
    let [o, p] = w14.to_array();
    Pair::from_array([long_word_after(o, j, b, a), long_word_after(p, k, c, b)])
}
