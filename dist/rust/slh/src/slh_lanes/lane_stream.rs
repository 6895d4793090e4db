// Made by tools/plain_rust.py from crates/slh_lanes/src/lane_stream.rt.
//! T of eight messages, one in each lane, under one PK.seed (FIPS 205, section 11.2).

use crate::slh_lanes::lane_adrs::LaneAdrs;
use crate::slh_lanes::lane_nodes::LaneNodes;
use crate::slh_lanes::lane_seeds::LaneSeeds;
use crate::slh_lanes::long_block::truncated;
use crate::slh_lanes::long_stream::{LongStream, bare as bare_long};
use crate::slh_lanes::seeded_lanes::SeededLanes;
use crate::slh_lanes::short_stream::{ShortStream, bare};
use crate::slh_lanes::words::GROUP;
use crate::slh_params::ParamSet;

/// The hash function of T in eight lanes: SHA-256 if n is 16, else SHA-512.
#[derive(Clone, Copy)]
pub(crate) enum CategoryStream {
    Short(ShortStream),
    Long(LongStream),
}

/// T_l (FIPS 205, section 11.2) in eight lanes, over nodes that come one after another, l of them in the end.
///
/// Contracts see it by the relation `HasAbsorbedAt`.
#[derive(Clone, Copy)]
pub struct LaneStream {
    pub(crate) set: ParamSet,
    pub(crate) stream: CategoryStream,
}

impl LaneStream {
    /// T at the address in each lane, before any node.
    pub fn new(lanes: &SeededLanes, adrs: &LaneAdrs) -> Self {
        LaneStream::under(&LaneSeeds::splat(lanes), adrs)
    }

    /// T at the address in each lane, under the lane's PK.seed, before any node.
    #[inline(always)]
    pub fn under(seeds: &LaneSeeds, adrs: &LaneAdrs) -> Self {
        let set = seeds.set;
        let stream = if set.n() == 16 {
            CategoryStream::Short(ShortStream::new(&bare(&seeds.short), adrs))
        } else {
            CategoryStream::Long(LongStream::new(&bare_long(&seeds.long), adrs))
        };
        LaneStream { set, stream }
    }

    /// The parameter set.
    pub fn set(&self) -> ParamSet {
        self.set
    }

    /// Adds the node of n bytes in each lane.
    pub fn absorb(&mut self, nodes: &LaneNodes) {
        let count = self.set.n() / 4;
        match &mut self.stream {
            CategoryStream::Short(stream) => stream.absorb(nodes, count),
            CategoryStream::Long(stream) => stream.absorb(nodes, count),
        }
    }

    /// T of the nodes absorbed, in their order, in each lane. For 2^28 bytes or more nothing is promised.
    pub fn finish(self) -> LaneNodes {
        match self.stream {
            CategoryStream::Short(stream) => stream.finish(),
            CategoryStream::Long(stream) => truncated(&stream.finish()),
        }
    }
}
