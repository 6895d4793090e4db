// Made by tools/plain_rust.py from crates/slh_subtrees/src/range.rt.
//! A job: a range of leaves of one tree (ours).

use crate::slh_params::ParamSet;

/// One of the trees of a signature.
#[derive(Clone, Copy, PartialEq, Eq, Debug)]
pub enum JobTree {
    /// The XMSS tree of this layer, 0 at the bottom.
    Xmss(u8),
    /// The FORS tree of this number, counted from 0.
    Fors(u32),
}

impl JobTree {
    /// The height of the tree: h' or a.
    pub fn height(self, set: ParamSet) -> u32 {
        match self {
            JobTree::Xmss(_) => set.hp(),
            JobTree::Fors(_) => set.a(),
        }
    }
}

/// The leaves from `lo` to before `hi` of one tree: the work of one job.
#[derive(Clone, Copy, PartialEq, Eq, Debug)]
pub struct JobRange {
    /// The tree.
    pub tree: JobTree,
    /// The first leaf.
    pub lo: u32,
    /// The leaf after the last one.
    pub hi: u32,
}
