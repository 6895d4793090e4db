// Made by tools/plain_rust.py from crates/slh_subtrees/src/cutting.rt.
//! The cutting of all trees of a parameter set (ours).

use crate::slh_subtrees::cuts::{CutPoints, Cuts, leaf_count, points_of};
use crate::slh_subtrees::fault::{CutFault, CutTree};
use crate::slh_subtrees::range::{JobRange, JobTree};
use crate::slh_params::ParamSet;

/// How the trees of a parameter set are cut into ranges of leaves: all XMSS trees in one way, and all FORS trees in one
/// way. Contracts see the set and, for either kind, the cut points: the first leaves of all ranges but the first.
pub struct Cutting {
    set: ParamSet,
    xmss: CutPoints,
    fors: CutPoints,
}

impl Cutting {
    /// The trees of the set, cut as asked for. Refused if the levels or the points of the XMSS trees, or else of the
    /// FORS trees, are invalid.
    pub fn new(set: ParamSet, xmss: Cuts<'_>, fors: Cuts<'_>) -> Result<Cutting, CutFault> {
        let xmss = points_of(CutTree::Xmss, set.hp(), xmss)?;
        let fors = points_of(CutTree::Fors, set.a(), fors)?;
        Ok(Cutting { set, xmss, fors })
    }

    /// The parameter set.
    pub fn set(&self) -> ParamSet {
        self.set
    }

    /// The number of ranges of each XMSS tree, at most 256. They have some leaves each and lie end to end, from leaf 0
    /// to the last one.
    pub fn xmss_ranges(&self) -> u32 {
        self.xmss.len() as u32 + 1
    }

    /// The number of ranges of each FORS tree, at most 256. They have some leaves each and lie end to end, from leaf 0
    /// to the last one.
    pub fn fors_ranges(&self) -> u32 {
        self.fors.len() as u32 + 1
    }

    /// The number of the tree's first signing job. Its other ranges have the numbers after it.
    pub fn first_job(&self, tree: JobTree) -> u32 {
        match tree {
            JobTree::Xmss(layer) => u32::from(layer) * self.xmss_ranges(),
            JobTree::Fors(number) => self.set.d() * self.xmss_ranges() + number * self.fors_ranges(),
        }
    }

    /// The range `r` of the tree as a job.
    pub(crate) fn job_in(&self, tree: JobTree, r: u32) -> JobRange {
        let points = self.points(tree);
        JobRange {
            tree,
            lo: range_start(points, r as usize),
            hi: range_end(points, tree.height(self.set()), r as usize),
        }
    }

    /// The points at which the tree is cut.
    fn points(&self, tree: JobTree) -> &[u32] {
        match tree {
            JobTree::Xmss(_) => self.xmss.as_slice(),
            JobTree::Fors(_) => self.fors.as_slice(),
        }
    }
}

/// The first leaf of the range `r` of a tree that is cut at these points.
fn range_start(points: &[u32], r: usize) -> u32 {
    if r == 0 { 0 } else { points[r - 1] }
}

/// The leaf after the last one of that range.
fn range_end(points: &[u32], height: u32, r: usize) -> u32 {
    if r == points.len() { leaf_count(height) } else { points[r] }
}
