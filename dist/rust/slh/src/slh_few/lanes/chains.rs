// Made by tools/plain_rust.py from crates/slh_few/src/lanes/chains.rt.
//! The chains of a WOTS+ key eight at a time, one in each lane (FIPS 205, section 5).

use crate::slh_few::lanes::chain_queue::by_steps;
use crate::slh_few::lanes::running_chains::numbers_of;
use crate::slh_few::nodes::{chunk_at, put_chunk};
use crate::slh_few::place::Place;
use crate::slh_few::wots::{MOST_STEPS, wots_adrs};
use crate::slh_lanes::{
    GROUP, LaneAdrs, LaneNodes, SeededLanes, Words, adrs_lanes, lane_node, node_lanes, set_chains, set_lane,
};
use crate::slh_params::AdrsType;

/// At least as many numbers as a key has chains in any set, 133, and whole groups.
pub(crate) const MOST_DIGITS: usize = 17 * GROUP;

/// A number for each chain of a key, with others after them up to a whole group of eight.
pub(crate) type ChainNumbers = [u32; MOST_DIGITS];

/// The numbers of eight chains, one for each lane.
pub(crate) type ChainGroup = [u32; GROUP];

/// The eight numbers from place `first` on.
pub(crate) fn group_at(order: &ChainNumbers, first: usize) -> ChainGroup {
    [
        order[first],
        order[first + 1],
        order[first + 2],
        order[first + 3],
        order[first + 4],
        order[first + 5],
        order[first + 6],
        order[first + 7],
    ]
}

/// The addresses of the group's chains.
fn chain_adrs(at: Place, kind: AdrsType, group: &ChainGroup) -> LaneAdrs {
    let mut adrs = adrs_lanes(&wots_adrs(at, kind, 0, 0));
    set_chains(&mut adrs, Words::from_array(*group));
    adrs
}

/// The secrets of the group's chains.
pub(crate) fn secret_lanes(lanes: &SeededLanes, sk_seed: &[u8], at: Place, group: &ChainGroup) -> LaneNodes {
    let [secrets] = lanes.prf(sk_seed, &[chain_adrs(at, AdrsType::WotsPrf, group)]);
    secrets
}

/// Continues the chains of a group. Each lane has a first step and a number of steps.
pub(crate) fn run_lanes(
    lanes: &SeededLanes,
    at: Place,
    group: &ChainGroup,
    x: &LaneNodes,
    from: Words,
    counts: Words,
) -> LaneNodes {
    let adrs = [chain_adrs(at, AdrsType::WotsHash, group)];
    let mut values = [*x];
    lanes.chains_each(&adrs, &mut values, &[from], &[counts]);
    let [ends] = values;
    ends
}

/// Continues the chains of a group, all from one step and by one number of steps.
pub(crate) fn run_alike(
    lanes: &SeededLanes,
    at: Place,
    group: &ChainGroup,
    x: &LaneNodes,
    from: u32,
    count: u32,
) -> LaneNodes {
    let counts = Words::splat(count);
    run_lanes(lanes, at, group, x, Words::splat(from), counts)
}

/// Writes the values of n bytes in the first `used` lanes as the chunks of `out` that have the chains' numbers.
pub(crate) fn put_lanes(out: &mut [u8], n: usize, group: &ChainGroup, nodes: &LaneNodes, used: usize) {
    for j in 0..used {
        put_chunk(out, n, group[j] as usize, &lane_node(nodes, j, n));
    }
}

/// The chunks of n bytes that have the chains' numbers.
pub(crate) fn lanes_at(values: &[u8], n: usize, group: &ChainGroup) -> LaneNodes {
    let mut nodes = node_lanes(&[]);
    for j in 0..GROUP {
        set_lane(&mut nodes, j, chunk_at(values, n, group[j] as usize));
    }
    nodes
}

/// Writes the value of each chain of a key after its number of steps from its secret, eight chains at a time.
pub(crate) fn run_secrets_in_lanes(
    lanes: &SeededLanes,
    sk_seed: &[u8],
    at: Place,
    counts: &ChainNumbers,
    out: &mut [u8],
) {
    let n = lanes.set.n();
    let count = lanes.set.len();
    let order = by_steps(counts, count);
    for turn in 0..count.div_ceil(GROUP) {
        let group = group_at(&order, GROUP * turn);
        let secrets = secret_lanes(lanes, sk_seed, at, &group);
        let steps = numbers_of(counts, &group);
        let nodes = run_lanes(lanes, at, &group, &secrets, Words::splat(0), steps);
        put_lanes(out, n, &group, &nodes, (count - GROUP * turn).min(GROUP));
    }
}
