// Made by tools/plain_rust.py from crates/slh_tree/src/tree.rt.
//! The traits of Merkle trees (FIPS 205, sections 6.1 and 8.2): joining two nodes, and making a leaf.

use arrayvec::ArrayVec;
use crate::slh_params::Node;

/// The most leaves that a tree is asked for at once.
pub const MOST_LEAVES: usize = 8;

/// Leaves of a tree in their order.
pub type Leaves = ArrayVec<Node, MOST_LEAVES>;

/// A Merkle tree of height 1 to 14, whose nodes all have one length of at most 32 bytes, and which joins nodes. A climb
/// needs no more.
///
/// The node of height `z` at index `i` is over the leaves from `i * 2^z` to `(i + 1) * 2^z - 1`. The XMSS trees and the
/// FORS trees are such trees (FIPS 205, Sections 6 and 8).
pub trait Climbs {
    /// The number of levels above the leaves.
    fn height(&self) -> u32;

    /// The node of height `z` at index `i`, from its left and its right child.
    fn join(&self, z: u32, i: u32, l: &Node, r: &Node) -> Node;
}

/// A Merkle tree that can also make its leaves.
pub trait Tree: Climbs {
    /// The leaf at index `i`.
    fn leaf(&self, i: u32) -> Node;

    /// The leaves from `first` on, as many as `count`. A tree that makes several leaves at once has another body.
    fn leaves(&self, first: u32, count: u32) -> Leaves {
        // For the prover: a tree has a height of at most 14.
        let _highest = self.height();
        let mut leaves = Leaves::new();
        for j in 0..count {
            leaves.push(self.leaf(first + j));
        }
        leaves
    }
}
