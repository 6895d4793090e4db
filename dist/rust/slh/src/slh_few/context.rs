// Made by tools/plain_rust.py from crates/slh_few/src/context.rt.
//! The midstates of PK.seed: each hash function begins with a block that PK.seed fills (FIPS 205, section 11.2).

use crate::slh_few::nodes::node_at;
use crate::slh_few::place::Seeds;
use crate::slh_hash::{SeededHash, SeededTreeHash, TStream};
use crate::slh_lanes::{SeededLanes, Width, build_widths};
use crate::slh_params::{Adrs, Node, ParamSet};

/// A parameter set and a PK.seed with its midstates. These are of SHA-256 for F and PRF, of the category's hash
/// function for H and T, and of both in SIMD lanes.
///
/// Each public call makes one and lends it to the functions below. Contracts see only the set and PK.seed.
pub struct HashContext<'a> {
    pub set: ParamSet,
    pub pk_seed: &'a [u8],
    seeded: SeededHash,
    joins: SeededTreeHash,
    lanes: Option<SeededLanes<'a>>,
}

impl<'a> HashContext<'a> {
    /// The midstates of this PK.seed of n bytes.
    pub fn new(set: ParamSet, pk_seed: &'a [u8]) -> Self {
        let lanes = match build_widths().short {
            Width::One => None,
            Width::Four | Width::Eight | Width::Sixteen | Width::Instructions => Some(lanes_under(set, pk_seed)),
        };
        HashContext::with_lanes(set, pk_seed, lanes)
    }

    /// The midstates of this PK.seed, of which these are in SIMD lanes.
    fn with_lanes(set: ParamSet, pk_seed: &'a [u8], lanes: Option<SeededLanes<'a>>) -> Self {
        HashContext {
            set,
            pk_seed,
            seeded: SeededHash::new(set, pk_seed),
            joins: SeededTreeHash::new(set, pk_seed),
            lanes,
        }
    }

    /// F (FIPS 205, section 11.2): the hash of a node of n bytes at an address.
    pub(crate) fn f(&self, adrs: &Adrs, x: &Node) -> Node {
        self.seeded.f(adrs, x)
    }

    /// H: the hash of two nodes of n bytes at an address.
    pub(crate) fn h(&self, adrs: &Adrs, left: &Node, right: &Node) -> Node {
        self.joins.h(adrs, left, right)
    }

    /// T at an address, before any node.
    pub(crate) fn t_stream(&self, adrs: &Adrs) -> TStream {
        self.joins.stream(adrs)
    }

    /// T: the hash of `count` nodes of n bytes each, put end to end, at an address.
    pub(crate) fn t(&self, adrs: &Adrs, nodes: &[u8], count: usize) -> Node {
        let n = self.set.n();
        let mut stream = self.t_stream(adrs);
        for c in 0..count {
            stream.absorb(&node_at(nodes, n, c));
        }
        stream.finish()
    }

    /// The midstates in SIMD lanes. `None` if the build has one lane.
    pub(crate) fn lanes(&self) -> Option<&SeededLanes<'a>> {
        match build_widths().short {
            Width::One => None,
            Width::Four | Width::Eight | Width::Sixteen | Width::Instructions => self.lanes.as_ref(),
        }
    }
}

/// The midstates of this PK.seed of n bytes in SIMD lanes.
fn lanes_under(set: ParamSet, pk_seed: &[u8]) -> SeededLanes {
    let Some(lanes) = SeededLanes::new(set, pk_seed) else { unreachable!() };
    lanes
}

/// A key's SK.seed with the midstates of its PK.seed, for signing.
///
/// Each public call makes one and lends it to the functions below. Contracts see only the set and the seeds.
pub struct SigningContext<'a> {
    pub public: HashContext<'a>,
    pub sk_seed: &'a [u8],
}

impl<'a> SigningContext<'a> {
    /// The midstates of these seeds.
    pub fn new(seeds: &Seeds<'a>) -> Self {
        let lanes = lanes_under(seeds.set, seeds.pk_seed);
        SigningContext {
            public: HashContext::with_lanes(seeds.set, seeds.pk_seed, Some(lanes)),
            sk_seed: seeds.sk_seed,
        }
    }

    /// PRF: the secret at an address.
    pub(crate) fn prf(&self, adrs: &Adrs) -> Node {
        self.public.seeded.prf(self.sk_seed, adrs)
    }

    /// The midstates in SIMD lanes, which signing has in each build.
    pub(crate) fn lanes(&self) -> &SeededLanes<'a> {
        let Some(lanes) = &self.public.lanes else { unreachable!() };
        lanes
    }
}
