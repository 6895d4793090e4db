// Made by tools/plain_rust.py from crates/slh_lanes/src/short_lanes.rt.
//! Words of 32 bits side by side, in as many lanes as a type has: halves of words, and the facts of the type (ours).

use crate::slh_lanes::lanes::Lanes;
use crate::vectors::*;

/// Lanes of 32 bits, whose compression is SHA-256's.
pub(crate) trait ShortLanes: Lanes {
    /// One word in all lanes.
    fn splat(word: u32) -> Self;

    /// The low half of each word above the high half of the next one's.
    fn halves(self, next: Self) -> Self;

    /// The high half of each word.
    fn high(self) -> Self;

    /// The low half of each word, in the place of the high one.
    fn low(self) -> Self;

    /// In each lane the word of `x` if that of `a` is below that of `b`, else the word of `y`.
    fn pick(a: Self, b: Self, x: Self, y: Self) -> Self;

    /// Each word with this number more, modulo 2^32.
    fn more(self, number: u32) -> Self;

    /// The largest word of all lanes.
    fn most(self) -> u32;

    /// The smallest word of all lanes.
    fn least(self) -> u32;

    /// The fact of the type about its lanes. It runs no code.
    fn tell_short(self);
}

impl<const N: usize, L: Level> ShortLanes for Simd<u32, N, L> {
    #[inline(always)]
    fn splat(word: u32) -> Self {
        splat_lanes(word)
    }

    #[inline(always)]
    fn halves(self, next: Self) -> Self {
        halves_of_lanes(self, next)
    }

    #[inline(always)]
    fn high(self) -> Self {
        high_of_lanes(self)
    }

    #[inline(always)]
    fn low(self) -> Self {
        low_of_lanes(self)
    }

    #[inline(always)]
    fn pick(a: Self, b: Self, x: Self, y: Self) -> Self {
        pick_lanes(a, b, x, y)
    }

    #[inline(always)]
    fn more(self, number: u32) -> Self {
        more_in_lanes(self, number)
    }

    #[inline(always)]
    fn most(self) -> u32 {
        most_of_lanes(self)
    }

    #[inline(always)]
    fn least(self) -> u32 {
        least_of_lanes(self)
    }

    #[inline(always)]
    fn tell_short(self) {}
}

#[inline(always)]
fn splat_lanes<const N: usize, L: Level>(word: u32) -> Simd<u32, N, L> {
    Simd::splat(word)
}

#[inline(always)]
fn halves_of_lanes<const N: usize, L: Level>(p: Simd<u32, N, L>, q: Simd<u32, N, L>) -> Simd<u32, N, L> {
    (p << 16) + (q >> 16)
}

#[inline(always)]
fn high_of_lanes<const N: usize, L: Level>(p: Simd<u32, N, L>) -> Simd<u32, N, L> {
    p >> 16
}

#[inline(always)]
fn low_of_lanes<const N: usize, L: Level>(p: Simd<u32, N, L>) -> Simd<u32, N, L> {
    p << 16
}

#[inline(always)]
fn pick_lanes<const N: usize, L: Level>(
    a: Simd<u32, N, L>,
    b: Simd<u32, N, L>,
    x: Simd<u32, N, L>,
    y: Simd<u32, N, L>,
) -> Simd<u32, N, L> {
    a.simd_lt(b).select(x, y)
}

#[inline(always)]
fn more_in_lanes<const N: usize, L: Level>(words: Simd<u32, N, L>, number: u32) -> Simd<u32, N, L> {
    words + Simd::splat(number)
}

#[inline(always)]
fn most_of_lanes<const N: usize, L: Level>(words: Simd<u32, N, L>) -> u32 {
    let each = words.to_array();
    let mut most = 0;
    for j in 0..N {
        most = most.max(each[j]);
    }
    most
}

#[inline(always)]
fn least_of_lanes<const N: usize, L: Level>(words: Simd<u32, N, L>) -> u32 {
    let each = words.to_array();
    let mut least = u32::MAX;
    for j in 0..N {
        least = least.min(each[j]);
    }
    least
}

// The fact of the type about each vector of a list. This runs no code.
#[inline(always)]
pub(crate) fn tell_all<W: ShortLanes>(vectors: &[W]) {
    for k in 0..vectors.len() {
        vectors[k].tell_short();
    }
}
