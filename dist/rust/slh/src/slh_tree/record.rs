// Made by tools/plain_rust.py from crates/slh_tree/src/record.rt.
//! A partial authentication path: the nodes of one leaf's path that are known so far (ours).

use crate::slh_tree::cover::Placed;
use crate::slh_params::{Node, copy_of};

/// The nodes of the authentication path of one leaf that are known so far.
pub struct PathRec {
    height: u32,
    leaf: u32,
    nodes: [Option<Node>; 14],
}

impl PathRec {
    /// A record of the path of leaf `idx` in a tree of this height, which knows nothing yet.
    pub fn for_leaf(height: u32, idx: u32) -> PathRec {
        PathRec {
            height,
            leaf: idx,
            nodes: [None, None, None, None, None, None, None, None, None, None, None, None, None, None],
        }
    }

    /// The height of the tree.
    fn height(&self) -> u32 {
        self.height
    }

    /// The leaf whose path it is.
    pub fn leaf(&self) -> u32 {
        self.leaf
    }

    /// Stores the node if it is one of the path's, below the tree's height.
    pub fn note(&mut self, placed: &Placed) {
        if placed.z < self.height && placed.i == (self.leaf >> placed.z) ^ 1 {
            self.keep(placed.z, &placed.node);
        }
    }

    /// Stores the path's node of height `level`.
    fn keep(&mut self, level: u32, node: &Node) {
        self.nodes[level as usize] = Some(copy_of(node));
    }

    /// The path's node of height `j`, if it is known.
    pub fn at(&self, j: u32) -> Option<&Node> {
        self.nodes.get(j as usize)?.as_ref()
    }

    /// Takes over what `other`, a record of the same leaf, knows.
    pub fn merge(&mut self, other: &PathRec) {
        for level in 0..self.height() {
            if let Some(node) = other.at(level) {
                self.keep(level, node);
            }
        }
    }
}
