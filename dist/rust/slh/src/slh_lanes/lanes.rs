// Made by tools/plain_rust.py from crates/slh_lanes/src/lanes.rt.
//! Words of 32 or 64 bits side by side, one in each lane, and SHA-2's functions on them (FIPS 180-4, sections 4.1 and
//! 4.2).

use crate::slh_lanes::constants::{K_256, K_512};
use crate::vectors::*;

/// Words of one width side by side, one in each lane, with the functions of SHA-256 or SHA-512.
pub trait Lanes: Copy {
    /// The number of turns.
    fn turns() -> usize;

    /// The constant of a round in all lanes.
    fn constant(t: usize) -> Self;

    /// The fact of the type about its lanes. It runs no code.
    fn tell(self);

    /// The sum modulo 2 to the width.
    fn sum(self, other: Self) -> Self;

    /// The bits of which one of the two is 1.
    fn xor(self, other: Self) -> Self;

    /// The bits of which both are 1.
    fn and(self, other: Self) -> Self;

    /// Σ0.
    fn big_sigma0(self) -> Self;

    /// Σ1.
    fn big_sigma1(self) -> Self;

    /// σ0.
    fn small_sigma0(self) -> Self;

    /// σ1.
    fn small_sigma1(self) -> Self;
}

#[inline(always)]
fn rotate_short<const N: usize, L: Level>(x: Simd<u32, N, L>, bits: u32) -> Simd<u32, N, L> {
    (x >> bits) | (x << (32 - bits))
}

#[inline(always)]
fn rotate_long<const N: usize, L: Level>(x: Simd<u64, N, L>, bits: u64) -> Simd<u64, N, L> {
    (x >> bits) | (x << (64 - bits))
}

#[inline(always)]
fn right_short<const N: usize, L: Level>(x: Simd<u32, N, L>, bits: u32) -> Simd<u32, N, L> {
    x >> bits
}

#[inline(always)]
fn right_long<const N: usize, L: Level>(x: Simd<u64, N, L>, bits: u64) -> Simd<u64, N, L> {
    x >> bits
}

impl<const N: usize, L: Level> Lanes for Simd<u32, N, L> {
    #[inline(always)]
    fn turns() -> usize {
        4
    }

    #[inline(always)]
    fn constant(t: usize) -> Self {
        Simd::splat(K_256[t])
    }

    #[inline(always)]
    fn small_sigma0(self) -> Self {
        rotate_short(self, 7).xor(rotate_short(self, 18)).xor(right_short(self, 3))
    }

    #[inline(always)]
    fn small_sigma1(self) -> Self {
        rotate_short(self, 17).xor(rotate_short(self, 19)).xor(right_short(self, 10))
    }

    #[inline(always)]
    fn tell(self) {}

    #[inline(always)]
    fn sum(self, other: Self) -> Self {
        self + other
    }

    #[inline(always)]
    fn xor(self, other: Self) -> Self {
        self ^ other
    }

    #[inline(always)]
    fn and(self, other: Self) -> Self {
        self & other
    }

    #[inline(always)]
    fn big_sigma0(self) -> Self {
        rotate_short(self, 2).xor(rotate_short(self, 13)).xor(rotate_short(self, 22))
    }

    #[inline(always)]
    fn big_sigma1(self) -> Self {
        rotate_short(self, 6).xor(rotate_short(self, 11)).xor(rotate_short(self, 25))
    }
}

impl<const N: usize, L: Level> Lanes for Simd<u64, N, L> {
    #[inline(always)]
    fn turns() -> usize {
        5
    }

    #[inline(always)]
    fn constant(t: usize) -> Self {
        Simd::splat(K_512[t])
    }

    #[inline(always)]
    fn small_sigma0(self) -> Self {
        rotate_long(self, 1).xor(rotate_long(self, 8)).xor(right_long(self, 7))
    }

    #[inline(always)]
    fn small_sigma1(self) -> Self {
        rotate_long(self, 19).xor(rotate_long(self, 61)).xor(right_long(self, 6))
    }

    #[inline(always)]
    fn tell(self) {}

    #[inline(always)]
    fn sum(self, other: Self) -> Self {
        self + other
    }

    #[inline(always)]
    fn xor(self, other: Self) -> Self {
        self ^ other
    }

    #[inline(always)]
    fn and(self, other: Self) -> Self {
        self & other
    }

    #[inline(always)]
    fn big_sigma0(self) -> Self {
        rotate_long(self, 28).xor(rotate_long(self, 34)).xor(rotate_long(self, 39))
    }

    #[inline(always)]
    fn big_sigma1(self) -> Self {
        rotate_long(self, 14).xor(rotate_long(self, 18)).xor(rotate_long(self, 41))
    }
}
