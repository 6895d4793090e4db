// Made by tools/plain_rust.py from crates/slh_lanes/src/seeded_lanes.rt.
//! F, PRF and H of eight addresses under one PK.seed (FIPS 205, section 11.2), and steps of eight chains (section 5).

use crate::slh_lanes::block::{BLOCK_LEN, hash_after, second_block, splat_all};
use crate::slh_lanes::bytes::load_all_long;
use crate::slh_lanes::chains::{run, run_part, run_singles};
use crate::slh_lanes::eight_blocks::{compress, compress_long};
use crate::slh_lanes::joined::{TwoWords, join_adrs, join_nodes, join_words, split_nodes};
use crate::slh_lanes::lane_adrs::LaneAdrs;
use crate::slh_lanes::lane_nodes::{LaneNodes, node_lanes, two_short};
use crate::slh_lanes::long_block::{
    first_lane, initial, second_block as second_long_block, splat_all as splat_all_long, truncated,
};
use crate::slh_lanes::long_words::LongWords;
use crate::slh_lanes::rounds::{self, Rounds};
use crate::slh_lanes::single_block::Instructions;
use crate::slh_lanes::words::{GROUP, Words};
use crate::slh_params::ParamSet;
use crate::slh_width::{Width, build_widths};
use crate::vectors::*;

/// F, PRF and H of eight addresses under one PK.seed of n bytes, after the first block, which PK.seed and zeros fill. They
/// are SHA-256 in eight lanes. H is SHA-512 if n is 24 or 32.
///
/// It is made once within a call that hashes often. Contracts see the set and PK.seed.
#[derive(Clone, Copy)]
pub struct SeededLanes<'a> {
    pub set: ParamSet,
    pub pk_seed: &'a [u8],
    pub(crate) short: [u32; 8],
    /// SHA-512's hash value. It is not read if n is 16.
    pub(crate) long: [u64; 8],
}

impl<'a> SeededLanes<'a> {
    /// The lanes under this PK.seed, if it has n bytes.
    pub fn new(set: ParamSet, pk_seed: &'a [u8]) -> Option<Self> {
        let n = set.n();
        if pk_seed.len() != n {
            return None;
        }
        let short = short_state(pk_seed);
        let long = if n == 16 { [0; 8] } else { long_state(pk_seed) };
        Some(SeededLanes { set, pk_seed, short, long })
    }

    /// F (FIPS 205, section 11.2) in each lane of a batch: its value of n bytes becomes the hash at its address.
    pub fn f<const G: usize>(&self, adrs: &[LaneAdrs; G], x: &mut [LaneNodes; G]) {
        self.digests(adrs, x, self.set.n());
    }

    /// PRF (section 11.2), which is F of SK.seed, in each lane of a batch: the secret at its address, from SK.seed of n
    /// bytes.
    pub fn prf<const G: usize>(&self, sk_seed: &[u8], adrs: &[LaneAdrs; G]) -> [LaneNodes; G] {
        let mut secrets = [node_lanes(sk_seed); G];
        self.f(adrs, &mut secrets);
        secrets
    }

    /// H (section 11.2) in each lane of a batch: the left node of n bytes becomes the hash of both nodes at its address.
    /// If n is 24 or 32, one group is hashed after the other, by SHA-512.
    pub fn h<const G: usize>(&self, adrs: &[LaneAdrs; G], left: &mut [LaneNodes; G], right: &[LaneNodes; G]) {
        let n = self.set.n();
        if n == 16 {
            for g in 0..G {
                left[g] = two_short(&left[g], &right[g]);
            }
            self.digests(adrs, left, 32);
        } else {
            for g in 0..G {
                let state = splat_all_long(&self.long);
                left[g] = long_digests(state, n, &adrs[g], &left[g], &right[g]);
            }
        }
    }

    /// Runs the chains of a batch on from their values after `from` steps, each by `count` steps (section 5,
    /// Algorithm 5).
    pub fn chains<const G: usize>(&self, adrs: &[LaneAdrs; G], x: &mut [LaneNodes; G], from: u32, count: u32) {
        let from = [Words::splat(from); G];
        let counts = [Words::splat(count); G];
        self.chains_each(adrs, x, &from, &counts);
    }

    /// Runs eight chains on, each from its first step by its number of steps.
    fn eight_chains(&self, adrs: &LaneAdrs, x: &LaneNodes, from: Words, counts: Words) -> LaneNodes {
        let n = self.set.n();
        let short = &self.short;
        match build_widths().short {
            Width::One => run_singles::<Rounds>(short, n, adrs, x, from, counts),
            Width::Instructions => run_singles::<Instructions>(short, n, adrs, x, from, counts),
            Width::Four => {
                let low = run_part::<u32x4, Rounds>(short, n, adrs, x, 0, from, counts);
                run_part::<u32x4, Rounds>(short, n, adrs, &low, 4, from, counts)
            }
            Width::Eight | Width::Sixteen => crate::levels::run(short, n, adrs, x, from, counts),
        }
    }

    /// Runs the chains of a batch on. Each lane has its own first step and its own number of steps. A lane that has ended
    /// keeps its value.
    pub fn chains_each<const G: usize>(
        &self,
        adrs: &[LaneAdrs; G],
        x: &mut [LaneNodes; G],
        from: &[Words; G],
        counts: &[Words; G],
    ) {
        if is_joined(G) {
            let joined = join_adrs(adrs);
            let nodes = join_nodes(x);
            let ends =
                crate::levels::run(&self.short, self.set.n(), &joined, &nodes, join_words(from), join_words(counts));
            split_nodes(&ends, x);
        } else {
            for g in 0..G {
                x[g] = self.eight_chains(&adrs[g], &x[g], from[g], counts[g]);
            }
        }
    }

    /// In each lane of a batch the first n bytes of the digest of PK.seed, zeros, the address and the value of `len`
    /// bytes.
    fn digests<const G: usize>(&self, adrs: &[LaneAdrs; G], x: &mut [LaneNodes; G], len: usize) {
        if is_joined(G) {
            self.digests_of_two(adrs, x, len);
        } else {
            for g in 0..G {
                x[g] = short_digests(splat_all(&self.short), len, &adrs[g], &x[g]);
            }
        }
    }

    /// The digests that `digests` gives of two groups, in sixteen lanes.
    fn digests_of_two<const G: usize>(&self, adrs: &[LaneAdrs; G], x: &mut [LaneNodes; G], len: usize) {
        let mut state = splat_all(&self.short);
        let joined = join_adrs(adrs);
        let nodes = join_nodes(x);
        crate::levels::compress(&mut state, &second_block(len, &joined, &nodes));
        split_nodes(&state, x);
    }
}

/// Whether so many groups are hashed at once in sixteen lanes.
#[inline(always)]
fn is_joined(groups: usize) -> bool {
    groups == 2 && matches!(build_widths().short, Width::Sixteen)
}

/// SHA-256's hash value after its first block, which PK.seed of n bytes and zeros fill.
fn short_state(pk_seed: &[u8]) -> [u32; 8] {
    let mut block = [0; BLOCK_LEN];
    block[..pk_seed.len()].copy_from_slice(pk_seed);
    hash_after(&block)
}

/// SHA-512's hash value after its first block, which PK.seed of n bytes and zeros fill.
fn long_state(pk_seed: &[u8]) -> [u64; 8] {
    let mut bytes = [0; 128];
    bytes[..pk_seed.len()].copy_from_slice(pk_seed);
    let mut block = [LongWords::splat(0); 16];
    load_all_long(&mut block, &bytes);
    let mut state = initial();
    compress_long(&mut state, &block);
    first_lane(&state)
}

/// In each lane the digest by SHA-256 of an address and a value of `len` bytes, after the hash value of PK.seed's block.
#[inline(always)]
pub(crate) fn short_digests(mut state: [Words; 8], len: usize, adrs: &LaneAdrs, x: &LaneNodes) -> LaneNodes {
    compress(&mut state, &second_block(len, adrs, x));
    state
}

/// H of two nodes of n bytes in each lane, of 24 or 32: the first bytes of SHA-512's digests, after the hash value of
/// PK.seed's block.
pub(crate) fn long_digests(
    mut state: [LongWords; 8],
    n: usize,
    adrs: &LaneAdrs,
    left: &LaneNodes,
    right: &LaneNodes,
) -> LaneNodes {
    compress_long(&mut state, &second_long_block(n, adrs, left, right));
    truncated(&state)
}
