// Made by tools/plain_rust.py from crates/slh_hash/src/t_stream.rt.
//! T and H under one PK.seed (FIPS 205, section 11.2).

use crate::slh_hash::category_hasher::CategoryHasher;
use crate::slh_hash::tweakable::zeros;
use crate::slh_params::{Adrs, Node, ParamSet};

/// H and T_l under one PK.seed: the hash function of the category after its first block, which PK.seed and
/// zeros fill.
///
/// It is made once within a call that joins many nodes, so that each hash begins after that block. Contracts
/// see it by the relation `IsSeededTree`.
pub struct SeededTreeHash {
    set: ParamSet,
    hasher: CategoryHasher,
}

impl SeededTreeHash {
    /// The state under this PK.seed of n bytes.
    pub fn new(set: ParamSet, pk_seed: &[u8]) -> Self {
        let mut hasher = CategoryHasher::new(set);
        hasher.update(pk_seed);
        hasher.update(zeros(block_len(set) - set.n()));
        SeededTreeHash { set, hasher }
    }

    /// T_l (FIPS 205, section 11.2) at an address, before any node.
    pub fn stream(&self, adrs: &Adrs) -> TStream {
        let mut hasher = self.hasher.copy();
        hasher.update(adrs.compressed());
        TStream { set: self.set, hasher }
    }

    /// H (section 11.2): the hash of two nodes of n bytes at an address.
    pub fn h(&self, adrs: &Adrs, left: &Node, right: &Node) -> Node {
        let mut stream = self.stream(adrs);
        stream.absorb(left);
        stream.absorb(right);
        stream.finish()
    }
}

/// The length of a block of the category's hash function in bytes.
fn block_len(set: ParamSet) -> usize {
    if set.n() == 16 { 64 } else { 128 }
}

/// T_l (FIPS 205, section 11.2) over nodes that come one after another, l of them in the end.
///
/// Contracts see it by the relation `HasAbsorbed`.
pub struct TStream {
    set: ParamSet,
    hasher: CategoryHasher,
}

impl TStream {
    /// The stream at an address under PK.seed of n bytes, before any node.
    pub fn new(set: ParamSet, pk_seed: &[u8], adrs: &Adrs) -> Self {
        SeededTreeHash::new(set, pk_seed).stream(adrs)
    }

    /// Adds a node of n bytes.
    pub fn absorb(&mut self, node: &Node) {
        self.hasher.update(node.as_slice());
    }

    /// T of the nodes absorbed, in their order.
    pub fn finish(self) -> Node {
        let TStream { set, hasher } = self;
        hasher.finish(set.n())
    }
}
