// Made by tools/plain_rust.py from crates/slh_subtrees/src/jobs.rt.
//! The numbers of the ranges as jobs (ours).

use crate::slh_subtrees::cutting::Cutting;
use crate::slh_subtrees::range::{JobRange, JobTree};
use crate::slh_params::ParamSet;

/// At least the jobs of all trees of one kind in any set: 65 trees of 256 ranges.
pub const MOST_JOBS_OF_A_KIND: u32 = 65 * 256;

/// The number of jobs of a signature: the ranges of its d XMSS trees and of its k FORS trees.
pub fn sign_jobs(cutting: &Cutting) -> u32 {
    let set = cutting.set();
    ranges_of(set.d(), cutting.xmss_ranges()) + ranges_of(set.k(), cutting.fors_ranges())
}

/// The number of jobs of key generation: the ranges of one XMSS tree.
pub fn keygen_jobs(cutting: &Cutting) -> u32 {
    cutting.xmss_ranges()
}

/// The signing job of this number: first come the ranges of the XMSS trees, from layer 0 on, and then those of the FORS
/// trees.
pub fn job(cutting: &Cutting, number: u32) -> JobRange {
    let set = cutting.set();
    let each = cutting.xmss_ranges();
    let xmss_jobs = ranges_of(set.d(), each);
    if number < xmss_jobs {
        cutting.job_in(JobTree::Xmss((number / each) as u8), number % each)
    } else {
        let rest = number - xmss_jobs;
        let each = cutting.fors_ranges();
        cutting.job_in(JobTree::Fors(rest / each), rest % each)
    }
}

/// The top layer, whose tree's root is in the public key.
pub fn top_layer(set: ParamSet) -> u8 {
    set.d() as u8 - 1
}

/// The key generation job of this number: that range of the XMSS tree of the top layer. The signing job of the same
/// number has the same leaves of the tree of layer 0.
pub fn keygen_job(cutting: &Cutting, number: u32) -> JobRange {
    cutting.job_in(JobTree::Xmss(top_layer(cutting.set())), number)
}

/// The ranges of this many trees, each of which is cut into `ranges`.
pub fn ranges_of(trees: u32, ranges: u32) -> u32 {
    trees * ranges
}
