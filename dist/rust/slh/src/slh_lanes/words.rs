// Made by tools/plain_rust.py from crates/slh_lanes/src/words.rt.
//! Vectors of eight words of 32 bits, one in each lane (ours).

use crate::vectors::*;

/// The number of messages that are hashed at once, one in each lane: a group.
pub const GROUP: usize = 8;

/// The words of 32 bits of a group, one in each lane.
pub type Words = u32x8;

/// A vector in a struct: the borrow checker covers no struct with an array of bare vectors.
#[derive(Clone, Copy)]
pub(crate) struct Vector {
    pub(crate) words: Words,
}

#[inline(always)]
pub(crate) fn add(x: Words, y: Words) -> Words {
    x + y
}

/// The numbers from `first` on, one in each lane.
pub fn consecutive(first: u32) -> Words {
    add(Words::splat(first), Words::from_array([0, 1, 2, 3, 4, 5, 6, 7]))
}

/// Half of each word, without the rest.
#[inline(always)]
pub fn half(x: Words) -> Words {
    x >> 1
}

/// 1 for each odd word, and 0 for each even one.
#[inline(always)]
pub fn parity(x: Words) -> Words {
    x & Words::splat(1)
}

// The vector with another word in lane `j`.
#[inline(always)]
pub(crate) fn with_lane(words: Words, j: usize, word: u32) -> Words {
    // No word is written to memory: a load of all would wait for it.
    let lanes = consecutive(0);
    let own = Words::splat(j as u32);
    let from_own = pick(own, lanes, words, Words::splat(word));
    pick(lanes, own, words, from_own)
}

/// Puts words into lane `j` of as many vectors.
pub(crate) fn put_words(vectors: &mut [Words], j: usize, words: &[u32]) {
    for k in 0..words.len() {
        vectors[k] = with_lane(vectors[k], j, words[k]);
    }
}

// The first, the third and so on of the sixteen words of two vectors.
#[inline(always)]
pub(crate) fn evens(x: Words, y: Words) -> Words {
    let [a, _, b, _, c, _, d, _] = x.to_array();
    let [e, _, f, _, g, _, h, _] = y.to_array();
    Words::from_array([a, b, c, d, e, f, g, h])
}

// The second, the fourth and so on of the sixteen words of two vectors.
#[inline(always)]
pub(crate) fn odds(x: Words, y: Words) -> Words {
    let [_, a, _, b, _, c, _, d] = x.to_array();
    let [_, e, _, f, _, g, _, h] = y.to_array();
    Words::from_array([a, b, c, d, e, f, g, h])
}

// In each lane the word of `x` if that of `a` is below that of `b`, else the word of `y`.
#[inline(always)]
pub(crate) fn pick(a: Words, b: Words, x: Words, y: Words) -> Words {
    a.simd_lt(b).select(x, y)
}
