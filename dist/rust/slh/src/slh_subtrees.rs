// Made by tools/plain_rust.py from crates/slh_subtrees/src/lib.rt.
//! The trees of one signature (FIPS 205, sections 6 to 8): their division into leaf ranges, which are jobs, and the
//! signature from the answers of all jobs.
//!
//! A `Cutting` has the cut points of all XMSS trees and those of all FORS trees of a parameter set. The jobs of a
//! signature are the ranges of its d XMSS trees, layer 0 first, and then of its k FORS trees. The jobs of key
//! generation are the ranges of the XMSS tree of the top layer.
//!
//! A job answers the cover of its range, and the nodes of the signing leaf's path that are inside the range. If the
//! range has the signing leaf of an XMSS tree, the answer also has checkpoints of that leaf's chains, from which the
//! key signs later. A caller that has all answers in memory, as `slh_par`, implements `Answers`; `put_fors` and
//! `put_layers` then write the signature. `slh_jobs` gets answers as bytes, so it checks them and writes the signature
//! itself. The same definitions state both results. No call takes memory or starts anything, and only `Cutting::new`
//! refuses.

mod answers;
mod cuts;
mod cutting;
mod fault;
mod gathered_tree;
mod hashed_range;
mod jobs;
mod range;
mod signing_trees;

pub use answers::{Answers, MOST_ROOTS_LEN, put_fors, put_layers, roots_len};
pub use cuts::{Cuts, MOST_LEVELS, levels_cut_evenly};
pub use cutting::Cutting;
pub use fault::{CutFault, CutTree};
pub use gathered_tree::GatheredTree;
pub use hashed_range::HashedRange;
pub use jobs::{MOST_JOBS_OF_A_KIND, job, keygen_job, keygen_jobs, ranges_of, sign_jobs, top_layer};
pub use range::{JobRange, JobTree};
pub use signing_trees::SigningTrees;
