// Made by tools/plain_rust.py from crates/slh_lanes/src/part.rt.
//! Parts of a group: some of its lanes, one after another (ours).

use crate::slh_lanes::lanes::Lanes;
use crate::vectors::*;

/// Lanes that are a part of a group.
pub(crate) trait Part<G: Lanes>: Lanes {
    /// The lanes from `first` on.
    fn part(group: G, first: usize) -> Self;

    /// The group with these lanes from `first` on.
    fn put(self, group: G, first: usize) -> G;
}

impl<const N: usize, const M: usize, L: Level> Part<Simd<u32, M>> for Simd<u32, N, L> {
    #[inline(always)]
    fn part(group: Simd<u32, M>, first: usize) -> Self {
        short_part(group, first)
    }

    #[inline(always)]
    fn put(self, group: Simd<u32, M>, first: usize) -> Simd<u32, M> {
        with_short_part(group, first, self)
    }
}

impl<const N: usize, const M: usize, L: Level> Part<Simd<u64, M>> for Simd<u64, N, L> {
    #[inline(always)]
    fn part(group: Simd<u64, M>, first: usize) -> Self {
        long_part(group, first)
    }

    #[inline(always)]
    fn put(self, group: Simd<u64, M>, first: usize) -> Simd<u64, M> {
        with_long_part(group, first, self)
    }
}

#[inline(always)]
fn short_part<const N: usize, const M: usize, L: Level>(group: Simd<u32, M>, first: usize) -> Simd<u32, N, L> {
    let words = group.to_array();
    let mut part = [0; N];
    for j in 0..N {
        part[j] = words[first + j];
    }
    Simd::from_array(part)
}

#[inline(always)]
fn with_short_part<const N: usize, const M: usize, L: Level>(
    group: Simd<u32, M>,
    first: usize,
    part: Simd<u32, N, L>,
) -> Simd<u32, M> {
    let own = part.to_array();
    let mut words = group.to_array();
    for j in 0..N {
        words[first + j] = own[j];
    }
    Simd::from_array(words)
}

#[inline(always)]
fn long_part<const N: usize, const M: usize, L: Level>(group: Simd<u64, M>, first: usize) -> Simd<u64, N, L> {
    let words = group.to_array();
    let mut part = [0; N];
    for j in 0..N {
        part[j] = words[first + j];
    }
    Simd::from_array(part)
}

#[inline(always)]
fn with_long_part<const N: usize, const M: usize, L: Level>(
    group: Simd<u64, M>,
    first: usize,
    part: Simd<u64, N, L>,
) -> Simd<u64, M> {
    let own = part.to_array();
    let mut words = group.to_array();
    for j in 0..N {
        words[first + j] = own[j];
    }
    Simd::from_array(words)
}

// The lanes from `first` on of as many vectors.
#[inline(always)]
pub(crate) fn part_of_six<G: Lanes, W: Part<G>>(vectors: &[G; 6], first: usize) -> [W; 6] {
    let [a, b, c, d, e, f] = *vectors;
    [W::part(a, first), W::part(b, first), W::part(c, first), W::part(d, first), W::part(e, first), W::part(f, first)]
}

#[inline(always)]
pub(crate) fn part_of_eight<G: Lanes, W: Part<G>>(vectors: &[G; 8], first: usize) -> [W; 8] {
    let [a, b, c, d, e, f, g, h] = *vectors;
    [
        W::part(a, first),
        W::part(b, first),
        W::part(c, first),
        W::part(d, first),
        W::part(e, first),
        W::part(f, first),
        W::part(g, first),
        W::part(h, first),
    ]
}

#[inline(always)]
pub(crate) fn part_of_sixteen<G: Lanes, W: Part<G>>(vectors: &[G; 16], first: usize) -> [W; 16] {
    let [a, b, c, d, e, f, g, h, i, j, k, l, m, n, o, p] = *vectors;
    [
        W::part(a, first),
        W::part(b, first),
        W::part(c, first),
        W::part(d, first),
        W::part(e, first),
        W::part(f, first),
        W::part(g, first),
        W::part(h, first),
        W::part(i, first),
        W::part(j, first),
        W::part(k, first),
        W::part(l, first),
        W::part(m, first),
        W::part(n, first),
        W::part(o, first),
        W::part(p, first),
    ]
}

// The vectors with these lanes from `first` on.
#[inline(always)]
pub(crate) fn with_six<G: Lanes, W: Part<G>>(vectors: &[G; 6], own: &[W; 6], first: usize) -> [G; 6] {
    [
        own[0].put(vectors[0], first),
        own[1].put(vectors[1], first),
        own[2].put(vectors[2], first),
        own[3].put(vectors[3], first),
        own[4].put(vectors[4], first),
        own[5].put(vectors[5], first),
    ]
}

#[inline(always)]
pub(crate) fn with_eight<G: Lanes, W: Part<G>>(vectors: &[G; 8], own: &[W; 8], first: usize) -> [G; 8] {
    [
        own[0].put(vectors[0], first),
        own[1].put(vectors[1], first),
        own[2].put(vectors[2], first),
        own[3].put(vectors[3], first),
        own[4].put(vectors[4], first),
        own[5].put(vectors[5], first),
        own[6].put(vectors[6], first),
        own[7].put(vectors[7], first),
    ]
}
