// Made by tools/plain_rust.py from crates/slh_tree/src/paths.rt.
//! The authentication path of a leaf, and the root from a leaf and its path (FIPS 205, sections 6.2, 6.3, 8.3, 8.4).

use crate::slh_tree::range::node;
use crate::slh_tree::tree::{Climbs, Tree};
use crate::slh_params::{Node, copy_of, node_of, put_node};

/// Writes the authentication path of leaf `idx` into `out` (FIPS 205, AUTH of Algorithms 10 and 16). For each height
/// below the tree's, it has the sibling of the node over the leaf, end to end.
///
/// Each sibling is made from the leaves below it, so that `2^height - 1` leaves are computed, and never leaf `idx`
/// itself.
pub fn path<T: Tree>(tree: &T, idx: u32, out: &mut [u8]) {
    for level in 0..tree.height() {
        let sibling = node(tree, level, (idx >> level) ^ 1);
        put_node(out, level as usize * sibling.len(), &sibling);
    }
}

/// The parent of the node of height `level` over leaf `idx`, from that node and its sibling.
pub fn parent<T: Climbs>(tree: &T, idx: u32, level: u32, node: &Node, sibling: &Node) -> Node {
    let index = idx >> level;
    if index % 2 == 0 {
        tree.join(level + 1, index / 2, node, sibling)
    } else {
        tree.join(level + 1, index / 2, sibling, node)
    }
}

/// The root from `leaf` at index `idx` and the path `auth` (FIPS 205, the loops of Algorithms 11 and 17). The path is
/// as long as the tree's paths are.
///
/// It only joins nodes, and makes no leaf. From a leaf of the tree and its path it gives the tree's root.
pub fn climb<T: Climbs>(tree: &T, idx: u32, leaf: &Node, auth: &[u8]) -> Node {
    let width = leaf.len();
    let mut node = copy_of(leaf);
    for level in 0..tree.height() {
        let start = level as usize * width;
        let sibling = node_of(&auth[start..start + width]);
        node = parent(tree, idx, level, &node, &sibling);
    }
    node
}
