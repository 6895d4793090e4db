// Made by tools/plain_rust.py from crates/slh_lanes/src/lane_seeds.rt.
//! The midstates of eight PK.seeds, one in each lane, and H under them (FIPS 205, section 11.2).

use crate::slh_lanes::block::splat_all;
use crate::slh_lanes::lane_adrs::LaneAdrs;
use crate::slh_lanes::lane_nodes::{LaneNodes, two_short};
use crate::slh_lanes::long_block::splat_all as splat_all_long;
use crate::slh_lanes::long_stream::{bare as bare_long, wrapped as wrapped_long};
use crate::slh_lanes::long_words::{LongVector, put_words as put_long_words};
use crate::slh_lanes::seeded_lanes::{SeededLanes, long_digests, short_digests};
use crate::slh_lanes::short_stream::{bare, wrapped};
use crate::slh_lanes::words::{GROUP, Vector, put_words};
use crate::slh_params::ParamSet;

/// Eight PK.seeds of n bytes under one set, one in each lane: the hash values after the first block, which PK.seed and
/// zeros fill.
///
/// Contracts see it by the relation `HasSeedAt`.
#[derive(Clone, Copy)]
pub struct LaneSeeds {
    pub set: ParamSet,
    pub(crate) short: [Vector; 8],
    /// SHA-512's hash values. They are not read if n is 16.
    pub(crate) long: [LongVector; 8],
}

impl LaneSeeds {
    /// One PK.seed in all lanes.
    #[inline(always)]
    pub fn splat(seed: &SeededLanes) -> Self {
        LaneSeeds {
            set: seed.set,
            short: wrapped(&splat_all(&seed.short)),
            long: wrapped_long(&splat_all_long(&seed.long)),
        }
    }

    /// Puts a PK.seed under the same set into lane `j`.
    pub fn set_lane(&mut self, j: usize, seed: &SeededLanes) {
        let mut short = bare(&self.short);
        let mut long = bare_long(&self.long);
        put_words(&mut short, j, &seed.short);
        put_long_words(&mut long, j, &seed.long);
        self.short = wrapped(&short);
        self.long = wrapped_long(&long);
    }

    /// H (FIPS 205, section 11.2) of two nodes of n bytes in each lane: the hash of both at its address, under its
    /// PK.seed.
    pub fn h(&self, adrs: &LaneAdrs, left: &LaneNodes, right: &LaneNodes) -> LaneNodes {
        let n = self.set.n();
        if n == 16 {
            short_digests(bare(&self.short), 32, adrs, &two_short(left, right))
        } else {
            long_digests(bare_long(&self.long), n, adrs, left, right)
        }
    }
}
