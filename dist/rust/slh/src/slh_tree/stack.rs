// Made by tools/plain_rust.py from crates/slh_tree/src/stack.rt.
//! The stack of nodes that are not joined yet (ours): treehash over a range of leaves.

use crate::slh_tree::cover::{Cover, Placed};
use crate::slh_tree::record::PathRec;
use crate::slh_tree::tree::Climbs;
use arrayvec::ArrayVec;

/// The nodes of a cover that grows to the right.
pub struct Stack {
    nodes: ArrayVec<Placed, 32>,
}

/// The parent of two siblings, both nodes of the tree.
fn join_siblings<T: Climbs>(tree: &T, left: &Placed, right: &Placed) -> Placed {
    // For the prover: a tree has a height of at most 14.
    let _highest = tree.height();
    let z = left.z + 1;
    let i = left.i / 2;
    Placed { z, i, node: tree.join(z, i, &left.node, &right.node) }
}

impl Stack {
    /// A stack of no nodes.
    pub fn new() -> Stack {
        Stack { nodes: ArrayVec::new() }
    }

    /// Takes the last node off if it is the left sibling of `right`.
    fn take_left(&mut self, right: &Placed) -> Option<Placed> {
        let last = self.nodes.last()?;
        if right.i % 2 == 1 && last.z == right.z && last.i == right.i - 1 { self.nodes.pop() } else { None }
    }

    /// Adds the tree's node `placed`, whose leaves begin at the end of those of the last node. While the last two nodes
    /// are siblings, they are joined, and each node that arises is noted in the record; `placed` itself is not.
    pub fn push<T: Climbs>(&mut self, tree: &T, placed: Placed, rec: &mut PathRec) {
        // For the prover: a tree has a height of at most 14.
        let _highest = tree.height();
        let mut top = placed;
        while let Some(left) = self.take_left(&top) {
            top = join_siblings(tree, &left, &top);
            rec.note(&top);
        }
        self.nodes.push(top);
    }

    /// The nodes as a cover of their leaves. Something was pushed.
    pub fn into_cover(self) -> Cover {
        let Stack { nodes } = self;
        let lo = nodes[0].first_leaf();
        let hi = nodes[nodes.len() - 1].past_leaf();
        Cover { lo, hi, nodes }
    }
}
