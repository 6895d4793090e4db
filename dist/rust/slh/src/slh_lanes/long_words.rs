// Made by tools/plain_rust.py from crates/slh_lanes/src/long_words.rt.
//! Vectors of eight words of 64 bits, one in each lane (ours).

use crate::slh_lanes::short_lanes::ShortLanes;
use crate::slh_lanes::words::{GROUP, Words};
use crate::vectors::*;

/// Eight words of 64 bits, one in each lane.
pub(crate) type LongWords = u64x8;

/// A vector in a struct, as `Vector` is.
#[derive(Clone, Copy)]
pub(crate) struct LongVector {
    pub(crate) words: LongWords,
}

// Each word of `p` above that of `q`.
#[inline(always)]
pub(crate) fn long_word(p: Words, q: Words) -> LongWords {
    (p.cast::<u64>() << 32) + q.cast::<u64>()
}

// The low half of each word of `p`, the word of `q`, and the high half of that of `r`.
#[inline(always)]
pub(crate) fn long_word_of_halves(p: Words, q: Words, r: Words) -> LongWords {
    long_word(p.halves(q), q.halves(r))
}

// The high 32 bits of each word.
#[inline(always)]
pub(crate) fn high_words(x: LongWords) -> Words {
    (x >> 32).cast::<u32>()
}

// The low 32 bits of each word.
#[inline(always)]
pub(crate) fn low_words(x: LongWords) -> Words {
    ((x << 32) >> 32).cast::<u32>()
}

/// The vector with another word in lane `j`.
fn with_lane(words: LongWords, j: usize, word: u64) -> LongWords {
    let mut lanes = words.to_array();
    lanes[j] = word;
    LongWords::from_array(lanes)
}

/// Puts words into lane `j` of as many vectors.
pub(crate) fn put_words(vectors: &mut [LongWords], j: usize, words: &[u64]) {
    for k in 0..words.len() {
        vectors[k] = with_lane(vectors[k], j, words[k]);
    }
}
