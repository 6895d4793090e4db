// Made by tools/plain_rust.py from crates/slh_subtrees/src/hashed_range.rt.
//! The cover of a range of leaves, and its nodes of the signing leaf's path (ours).

use crate::slh_tree::{Cover, PathRec};

/// The cover of a range of a tree's leaves, and those nodes of the signing leaf's path whose leaves are in the range.
pub struct HashedRange {
    /// The cover.
    pub cover: Cover,
    /// The nodes of the path.
    pub path: PathRec,
}
