// Made by tools/plain_rust.py from crates/slh_few/src/lanes/chains_with_checkpoints.rt.
//! The chains of a WOTS+ key eight at a time, one in each lane, with their checkpoints (FIPS 205, Algorithm 6).

use crate::slh_few::key_checkpoints::{checkpoint_count, put_checkpoint, spacing};
use crate::slh_few::lanes::chains::{put_lanes, run_alike, secret_lanes};
use crate::slh_few::place::Place;
use crate::slh_lanes::{GROUP, LaneNodes, SeededLanes, consecutive, lane_node};
use crate::slh_params::ParamSet;

/// Writes checkpoint `j` of the chains from `c` on, from the first `used` lanes.
fn put_lane_checkpoints(set: ParamSet, checkpoints: &mut [u8], c: usize, j: usize, nodes: &LaneNodes, used: usize) {
    for i in 0..used {
        put_checkpoint(set, checkpoints, c + i, j, &lane_node(nodes, i, set.n()));
    }
}

/// Writes the checkpoints of the chains from `c` on, as many as `used`, and returns the ends of these chains.
fn run_group_with_checkpoints(
    lanes: &SeededLanes,
    sk_seed: &[u8],
    at: Place,
    c: usize,
    used: usize,
    checkpoints: &mut [u8],
) -> LaneNodes {
    let every = spacing(lanes.set);
    let last = checkpoint_count(lanes.set) - 1;
    let group = consecutive(c as u32).to_array();
    let mut nodes = secret_lanes(lanes, sk_seed, at, &group);
    for j in 0..last {
        put_lane_checkpoints(lanes.set, checkpoints, c, j as usize, &nodes, used);
        nodes = run_alike(lanes, at, &group, &nodes, j * every, every);
    }
    put_lane_checkpoints(lanes.set, checkpoints, c, last as usize, &nodes, used);
    run_alike(lanes, at, &group, &nodes, last * every, every - 1)
}

/// Runs all chains of the key at a place from their secrets to their ends, and writes the ends. Into `checkpoints` it
/// writes the checkpoints of the chains, `key_checkpoints_len` bytes.
pub(crate) fn run_with_checkpoints(
    lanes: &SeededLanes,
    sk_seed: &[u8],
    at: Place,
    checkpoints: &mut [u8],
    ends: &mut [u8],
) {
    let n = lanes.set.n();
    let count = lanes.set.len();
    for group in 0..count.div_ceil(GROUP) {
        let c = GROUP * group;
        let used = (count - c).min(GROUP);
        let nodes = run_group_with_checkpoints(lanes, sk_seed, at, c, used, checkpoints);
        put_lanes(ends, n, &consecutive(c as u32).to_array(), &nodes, used);
    }
}
