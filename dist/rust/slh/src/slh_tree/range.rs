// Made by tools/plain_rust.py from crates/slh_tree/src/range.rt.
//! The cover of a range of leaves, a node, and the root (FIPS 205, Algorithms 9 and 15).

use crate::slh_tree::cover::{Cover, Placed};
use crate::slh_tree::leaf_group::LeafGroup;
use crate::slh_tree::record::PathRec;
use crate::slh_tree::stack::Stack;
use crate::slh_tree::tree::Tree;
use crate::slh_params::{Node, copy_of};

/// The cover of the leaves from `lo` to before `hi`. It has at most twice as many nodes as the tree has levels above
/// the leaves. The leaves below one node give only that node. The record gains exactly those nodes of its path whose
/// leaves are all in the range.
pub fn hash_range<T: Tree>(tree: &T, lo: u32, hi: u32, rec: &mut PathRec) -> Cover {
    // For the prover: a tree has a height of at most 14.
    let _highest = tree.height();
    let mut stack = Stack::new();
    let mut group = LeafGroup::none();
    for i in lo..hi {
        let leaf = Placed { z: 0, i, node: group.leaf(tree, i, hi) };
        rec.note(&leaf);
        stack.push(tree, leaf, rec);
    }
    stack.into_cover()
}

/// The node of height `z` at index `i`, from the leaves below it: xmss_node of an XMSS tree, fors_node of a FORS tree
/// (FIPS 205, Algorithms 9 and 15).
pub fn node<T: Tree>(tree: &T, z: u32, i: u32) -> Node {
    let height = tree.height();
    // No path is wanted, but `hash_range` takes a record of one.
    let mut rec = PathRec::for_leaf(height, 0);
    let size = 1 << z;
    let first = i * size;
    let cover = hash_range(tree, first, first + size, &mut rec);
    copy_of(&cover.nodes[0].node)
}

/// The root of the tree: the node of the tree's height.
pub fn root<T: Tree>(tree: &T) -> Node {
    node(tree, tree.height(), 0)
}
