// Made by tools/plain_rust.py from crates/slh_tree/src/leaf_group.rt.
//! Several leaves of a range at once (ours).

use crate::slh_tree::tree::{Leaves, MOST_LEAVES, Tree};
use crate::slh_params::{Node, copy_of};

/// Leaves of a tree, one after another.
pub(crate) struct LeafGroup {
    first: u32,
    nodes: Leaves,
}

impl LeafGroup {
    /// No leaves.
    pub(crate) fn none() -> LeafGroup {
        LeafGroup { first: 0, nodes: Leaves::new() }
    }

    /// Leaf `i`. If the group does not have it, the group becomes that leaf and the next ones, up to `MOST_LEAVES` and
    /// below `hi`.
    pub(crate) fn leaf<T: Tree>(&mut self, tree: &T, i: u32, hi: u32) -> Node {
        let held = self.nodes.len() as u32;
        if i < self.first || held <= i - self.first {
            self.first = i;
            self.nodes = tree.leaves(i, (hi - i).min(MOST_LEAVES as u32));
        }
        copy_of(&self.nodes[(i - self.first) as usize])
    }
}
