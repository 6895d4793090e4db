// Made by tools/plain_rust.py from crates/slh_subtrees/src/fault.rt.
//! The reason why trees are not cut as asked for (ours).

use thiserror::Error;

/// A kind of tree.
#[derive(Clone, Copy, PartialEq, Eq, Debug)]
pub enum CutTree {
    /// The XMSS trees.
    Xmss,
    /// The FORS trees.
    Fors,
}

/// Why trees are not cut as asked for.
#[derive(Clone, Copy, PartialEq, Eq, Debug, Error)]
pub enum CutFault {
    /// The levels or the points of one kind of tree are invalid.
    #[error("the levels or cut points are invalid")]
    BadCutting {
        /// The kind of tree. XMSS is checked first.
        tree: CutTree,
        /// The levels that were asked for, or the index of the first point that is invalid.
        place: u32,
    },
}

impl CutFault {
    /// The number of the refusal.
    pub fn number(&self) -> u8 {
        match self {
            CutFault::BadCutting { .. } => 4,
        }
    }

    /// The name of the refusal.
    pub fn name(&self) -> &'static str {
        match self {
            CutFault::BadCutting { .. } => "BadCutting",
        }
    }
}
