// Made by tools/plain_rust.py from crates/slh_jobs/src/upper_tree.rt.
//! The part of a tree above its ranges, whose nodes are given (ours).

use crate::slh_jobs::answer_bytes::TreeRanges;
use crate::slh_few::{BatchParents, HashContext, XmssJoins, path_from_leaves};
use crate::slh_params::{Node, node_of};
use crate::slh_tree::{Climbs, Leaves};

/// At least the length of the upper part of a path: 8 nodes of 32 bytes.
const MOST_UPPER_LEN: usize = 8 * 32;

/// The nodes of an XMSS tree above its leaves: tree `tree` of layer `layer`.
pub(crate) fn xmss_joins<'c, 'a>(context: &'c HashContext<'a>, layer: u8, tree: u64) -> XmssJoins<'c, 'a> {
    XmssJoins { context, layer, tree }
}

/// A tree above its ranges, whose nodes are those of their answers. It is cut at least once.
struct UpperTree<'t, 'a, T: Climbs> {
    tree: &'t T,
    ranges: &'t TreeRanges<'a>,
}

impl<'t, 'a, T: Climbs> Climbs for UpperTree<'t, 'a, T> {
    fn height(&self) -> u32 {
        self.ranges.given.shape.levels
    }

    fn join(&self, z: u32, i: u32, l: &Node, r: &Node) -> Node {
        self.tree.join(self.ranges.given.shape.below() + z, i, l, r)
    }
}

impl<'t, 'a, T: BatchParents> BatchParents for UpperTree<'t, 'a, T> {
    fn parents(&self, z: u32, first: u32, count: u32, n: usize, below: &[u8]) -> Leaves {
        let lowest = self.ranges.given.shape.below();
        self.tree.parents(lowest + z, first, count, n, below)
    }
}

/// Writes the path of range `range` in the tree above the ranges, and returns the root that the ranges give. The nodes
/// of each height take the place of those below them, at last of the copies.
fn put_upper<T: BatchParents>(tree: &T, ranges: &TreeRanges, range: u32, copies: &mut [u8], out: &mut [u8]) -> Node {
    if ranges.given.shape.levels == 0 {
        return node_of(copies);
    }
    let n = ranges.given.shape.n;
    path_from_leaves(&UpperTree { tree, ranges }, range, n, copies, out)
}

/// The root that the ranges of a tree give, n bytes, from the copies of their nodes.
pub(crate) fn top_root<T: BatchParents>(tree: &T, ranges: &TreeRanges, copies: &mut [u8]) -> Node {
    // No path is wanted, but `put_upper` writes one.
    let mut path = [0; MOST_UPPER_LEN];
    let len = ranges.given.shape.levels as usize * ranges.given.shape.n;
    put_upper(tree, ranges, 0, copies, &mut path[..len])
}

/// Writes the path of leaf `leaf` of a tree: from its range's answer, and then from the copies of the nodes of the
/// ranges. Returns the root that the ranges give.
pub(crate) fn put_auth<T: BatchParents>(
    tree: &T,
    ranges: &TreeRanges,
    leaf: u32,
    copies: &mut [u8],
    out: &mut [u8],
) -> Node {
    let range = leaf >> ranges.given.shape.below();
    let (lower, upper) = out.split_at_mut(ranges.given.shape.path_len());
    lower.copy_from_slice(ranges.given.path((ranges.first + range) as usize));
    put_upper(tree, ranges, range, copies, upper)
}
