// Made by tools/plain_rust.py from crates/slh_subtrees/src/gathered_tree.rt.
//! One tree from its ranges (ours).

use crate::slh_params::Node;
use crate::slh_tree::{Climbs, Cover, PathRec, gather};

/// The root of a tree and the authentication path of its signing leaf.
pub struct GatheredTree {
    /// The root, of n bytes.
    pub root: Node,
    /// The path, of which each node below the tree's height is known.
    pub path: PathRec,
}

/// The root of the tree and the path of `leaf`. They come from covers that, end to end, span the tree, and from a
/// record for each cover. A record has the nodes of the path whose leaves are in its range.
pub(crate) fn gathered<T: Climbs>(tree: &T, leaf: u32, covers: &[Cover], records: &[PathRec]) -> GatheredTree {
    let mut path = PathRec::for_leaf(tree.height(), leaf);
    for record in records {
        path.merge(record);
    }
    let root = gather(tree, covers, &mut path);
    GatheredTree { root, path }
}
