// Made by tools/plain_rust.py from crates/slh_few/src/lanes.rt.
//! SIMD batching over `slh_lanes`: the chains of one key, eight keys, nodes of FORS trees, recomputed FORS roots, and
//! the T and H of eight hypertree signatures.
//!
//! The files outside of this folder have the algorithms of FIPS 205, and call the functions that this file names.
mod chain_queue;
mod chains;
mod chains_with_checkpoints;
mod fors_climbs;
mod fors_nodes;
mod hypertrees;
mod key_chains;
mod keys;
mod running_chains;

pub(crate) use chain_queue::run_values;
pub(crate) use chains::{ChainNumbers, MOST_DIGITS, run_secrets_in_lanes};
pub(crate) use chains_with_checkpoints::run_with_checkpoints;
pub(crate) use fors_climbs::put_first_roots;
pub(crate) use hypertrees::put_roots_in_lanes;
pub(crate) use key_chains::{LaneCheckpoints, Nothing};
pub(crate) use keys::{eight_keys, first_of_eight, lane_among_eight, sign_giving_leaf};
