// Made by tools/plain_rust.py from crates/slh_tree/src/gathering.rt.
//! A whole tree from the covers of its ranges (ours).

use crate::slh_tree::cover::{Cover, Placed};
use crate::slh_tree::record::PathRec;
use crate::slh_tree::stack::Stack;
use crate::slh_tree::tree::Climbs;
use crate::slh_params::{Node, copy_of};

/// A copy of the node at its place.
fn copy_placed(placed: &Placed) -> Placed {
    Placed { z: placed.z, i: placed.i, node: copy_of(&placed.node) }
}

/// Adds the nodes of the next cover. The record gains those nodes of its path that end in the range and begin before
/// it.
fn push_cover<T: Climbs>(stack: &mut Stack, tree: &T, cover: &Cover, rec: &mut PathRec) {
    let nodes = cover.nodes.as_slice();
    for placed in nodes {
        stack.push(tree, copy_placed(placed), rec);
    }
}

/// The one node of a cover of the whole tree.
fn only_node<T: Climbs>(tree: &T, cover: &Cover) -> Node {
    copy_of(&cover.nodes[0].node)
}

/// The root of the tree from covers that, put end to end, span it. The record gains exactly those nodes of its path
/// whose leaves are not all in one cover's range. So once the record also has what `hash_range` noted over each range,
/// it knows the whole path.
pub fn gather<T: Climbs>(tree: &T, covers: &[Cover], rec: &mut PathRec) -> Node {
    // For the prover: a tree has a height of at most 14.
    let _highest = tree.height();
    let mut stack = Stack::new();
    for cover in covers {
        push_cover(&mut stack, tree, cover, rec);
    }
    only_node(tree, &stack.into_cover())
}
