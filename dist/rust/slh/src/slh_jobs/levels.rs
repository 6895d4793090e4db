// Made by tools/plain_rust.py from crates/slh_jobs/src/levels.rt.
//! The levels by which the trees of a signature are cut (ours).

use crate::slh_params::ParamSet;
use crate::slh_subtrees::MOST_LEVELS;

/// How the trees of a signature are cut into jobs: each XMSS tree into 2^xmss ranges of its leaves, and each FORS tree
/// into 2^fors.
#[derive(Clone, Copy)]
pub struct Levels {
    /// The parameter set.
    pub set: ParamSet,
    /// The levels of the XMSS trees.
    pub xmss: u32,
    /// The levels of the FORS trees.
    pub fors: u32,
}

impl Levels {
    /// The trees of the set, cut by these levels. `None` if a level is above the height of its trees (h' and a of FIPS
    /// 205, section 11, Table 2) or above 8.
    pub fn new(set: ParamSet, xmss: u32, fors: u32) -> Option<Levels> {
        if xmss > set.hp() || xmss > MOST_LEVELS {
            return None;
        }
        if fors > set.a() || fors > MOST_LEVELS {
            return None;
        }
        Some(Levels { set, xmss, fors })
    }
}
