// Made by tools/plain_rust.py from crates/slh_few/src/fors_blocks.rt.
//! The leaves of a FORS tree below one node: the nodes beside its path in lanes from height 3 on (FIPS 205, section
//! 8.2).

use crate::slh_few::fors_tree::ForsNodes;
use arrayvec::ArrayVec;
use crate::slh_params::Node;
use crate::slh_tree::{Cover, PathRec, Placed, Tree, parent};

/// The least and the most height of a node over eight leaves or more in any set.
const LEAST_HEIGHT: u32 = 3;

const MOST_HEIGHT: u32 = 14;

/// The height of the node, if there is one, whose leaves are those from `lo` to `hi`, and are eight or more.
pub(crate) fn block_height(lo: u32, hi: u32) -> Option<u32> {
    let z = (hi - lo).trailing_zeros();
    if z < LEAST_HEIGHT || MOST_HEIGHT < z {
        return None;
    }
    let i = lo >> z;
    if i << z == lo && (i + 1) << z == hi { Some(z) } else { None }
}

impl<'c, 'a> ForsNodes<'c, 'a> {
    /// The node of height `z` over the record's leaf. The record gains the nodes of its path below that height.
    fn node_over_own_leaf(&self, z: u32, rec: &mut PathRec) -> Node {
        let leaf = rec.leaf();
        let mut node = self.leaf(leaf);
        for height in 0..z {
            let i = (leaf >> height) ^ 1;
            let sibling = Placed { z: height, i, node: self.node(height, i) };
            rec.note(&sibling);
            node = parent(self, leaf, height, &node, &sibling.node);
        }
        node
    }

    /// The node of height `z` at index `i`. The record gains the nodes of its path that are in it.
    fn noted_node(&self, z: u32, i: u32, rec: &mut PathRec) -> Placed {
        let node = if rec.leaf() >> z == i { self.node_over_own_leaf(z, rec) } else { self.node(z, i) };
        let placed = Placed { z, i, node };
        rec.note(&placed);
        placed
    }

    /// The cover that `hash_range` of `slh_tree` returns for the leaves from `lo` to `hi`, which are those below a node
    /// of height `z`.
    pub(crate) fn hash_block(&self, z: u32, lo: u32, hi: u32, rec: &mut PathRec) -> Cover {
        let mut nodes = ArrayVec::new();
        nodes.push(self.noted_node(z, lo >> z, rec));
        Cover { lo, hi, nodes }
    }
}
