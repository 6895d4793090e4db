// Made by tools/plain_rust.py from crates/slh_tree/src/cover.rt.
//! Nodes at their places, and covers of a range of leaves (ours).

use arrayvec::ArrayVec;
use crate::slh_params::Node;

/// The node of height `z` at index `i`.
#[derive(Default)]
pub struct Placed {
    pub z: u32,
    pub i: u32,
    pub node: Node,
}

/// The nodes that cover the leaves from `lo` to before `hi`. Their leaves, end to end, are these, and no left child is
/// followed by its right sibling.
pub struct Cover {
    pub lo: u32,
    pub hi: u32,
    pub nodes: ArrayVec<Placed, 32>,
}

impl Placed {
    /// The first leaf below the node.
    pub(crate) fn first_leaf(&self) -> u32 {
        self.i << self.z
    }

    /// The leaf after the last one below the node.
    pub(crate) fn past_leaf(&self) -> u32 {
        (self.i + 1) << self.z
    }
}

/// The law that a cover can as well be read from its last node: each node ends at the beginning of the next. It does
/// nothing: the law is its contract.
pub fn covers_read_from_the_end() {}

/// The law that a range of a tree's leaves has one cover. It does nothing: the law is its contract.
pub fn covers_are_unique() {}
