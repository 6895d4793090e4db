// Made by tools/plain_rust.py from crates/slh_few/src/heights.rt.
//! The nodes of a tree height by height, from all its leaves (FIPS 205, Algorithm 9): each replace those below them.

use crate::slh_few::nodes::{chunk_at, node_at, put_chunk};
use crate::slh_params::Node;
use crate::slh_tree::{Climbs, Leaves, MOST_LEAVES};

/// A tree that makes several nodes of one height at once.
pub trait BatchParents: Climbs {
    /// The nodes of height `z` from index `first` on, as many as `count`, from the nodes of the height below, end to
    /// end, each of `n` bytes.
    fn parents(&self, z: u32, first: u32, count: u32, n: usize, below: &[u8]) -> Leaves;
}

/// The nodes that `parents` gives, joined one after another.
pub(crate) fn parents_in_turn<T: Climbs>(tree: &T, z: u32, first: u32, count: u32, n: usize, below: &[u8]) -> Leaves {
    // For the prover: a tree has a height of at most 14.
    let _highest = tree.height();
    let mut nodes = Leaves::new();
    for j in 0..count {
        let i = first + j;
        let left = node_at(below, n, 2 * i as usize);
        let right = node_at(below, n, 2 * i as usize + 1);
        nodes.push(tree.join(z, i, &left, &right));
    }
    nodes
}

/// Puts nodes of height `z` from index `first` on, as many as `count`, at their places. Those of the height below, from
/// the first one that these need on, still stand end to end.
fn put_parents<T: BatchParents>(tree: &T, z: u32, first: u32, count: u32, n: usize, nodes: &mut [u8]) {
    let parents = tree.parents(z, first, count, n, nodes);
    for j in 0..count as usize {
        put_chunk(nodes, n, first as usize + j, &parents[j]);
    }
}

/// Puts all nodes of height `z` in place of the first of those of the height below, which stand end to end.
fn put_height<T: BatchParents>(tree: &T, z: u32, n: usize, nodes: &mut [u8]) {
    let group = MOST_LEAVES as u32;
    let count: u32 = 1 << (tree.height() - z);
    for turn in 0..count.div_ceil(group) {
        let first = group * turn;
        put_parents(tree, z, first, (count - first).min(group), n, nodes);
    }
}

/// Writes the path of leaf `idx`, as `path` of `slh_tree` does, and returns the root. The leaves of the tree are end to
/// end in `nodes`, each of `n` bytes. `nodes` is scratch: it holds nodes above them afterwards.
pub fn path_from_leaves<T: BatchParents>(tree: &T, idx: u32, n: usize, nodes: &mut [u8], out: &mut [u8]) -> Node {
    for z in 0..tree.height() {
        let sibling = (idx >> z) ^ 1;
        put_chunk(out, n, z as usize, chunk_at(nodes, n, sibling as usize));
        put_height(tree, z + 1, n, nodes);
    }
    node_at(nodes, n, 0)
}
