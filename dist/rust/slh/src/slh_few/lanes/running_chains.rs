// Made by tools/plain_rust.py from crates/slh_few/src/lanes/running_chains.rt.
//! The WOTS+ chains that run in the lanes of a batch, each at its own step: a lane whose chain has ended takes another
//! (ours).

use crate::slh_few::lanes::chains::{ChainGroup, ChainNumbers, MOST_DIGITS};
use crate::slh_few::nodes::{chunk_at, put_chunk};
use crate::slh_few::place::Place;
use crate::slh_few::wots::{MOST_STEPS, wots_adrs};
use crate::slh_lanes::{
    GROUP, LaneAdrs, LaneNodes, SeededLanes, Words, adrs_lanes, lane_node, node_lanes, pick_nodes, set_chains,
};
use crate::slh_params::AdrsType;
use crate::vectors::*;

/// The chains that run in the lanes of a group: their numbers, the steps that they are at, and how many each has left.
#[derive(Clone, Copy)]
pub(crate) struct RunningChains {
    pub(crate) numbers: Words,
    pub(crate) steps: Words,
    pub(crate) left: Words,
}

/// The numbers of the group's chains.
pub(crate) fn numbers_of(numbers: &ChainNumbers, group: &ChainGroup) -> Words {
    let [a, b, c, d, e, f, g, h] = *group;
    Words::from_array([
        numbers[a as usize],
        numbers[b as usize],
        numbers[c as usize],
        numbers[d as usize],
        numbers[e as usize],
        numbers[f as usize],
        numbers[g as usize],
        numbers[h as usize],
    ])
}

/// The words with another in lane `j`.
fn with_word(words: Words, j: usize, word: u32) -> Words {
    let lanes = Words::from_array([0, 1, 2, 3, 4, 5, 6, 7]);
    let here = lanes.simd_eq(Words::splat(j as u32));
    here.select(Words::splat(word), words)
}

/// The values with another value in lane `j`. No word is stored alone: a load of its vector would wait for that store.
pub(crate) fn with_node(nodes: &LaneNodes, j: usize, value: &[u8]) -> LaneNodes {
    let none = Words::splat(0);
    pick_nodes(none, with_word(none, j, 1), &node_lanes(value), nodes)
}

/// Each word with this number more.
fn more(words: Words, number: u32) -> Words {
    words + Words::splat(number)
}

/// Each word with this number less.
fn less(words: Words, number: u32) -> Words {
    words - Words::splat(number)
}

/// A lane of those whose numbers are the least.
pub(crate) fn least_lane(numbers: Words) -> usize {
    let numbers = numbers.to_array();
    // The least number with that of its lane, in one.
    let mut least = u32::MAX;
    for j in 0..GROUP {
        least = least.min(GROUP as u32 * numbers[j] + j as u32);
    }
    (least % GROUP as u32) as usize
}

impl RunningChains {
    /// The group's chains, each at its own step and with its own number of steps left.
    pub(crate) fn of(group: &ChainGroup, steps: &ChainNumbers, left: &ChainNumbers) -> Self {
        RunningChains {
            numbers: Words::from_array(*group),
            steps: numbers_of(steps, group),
            left: numbers_of(left, group),
        }
    }

    /// Another chain in lane `j`.
    pub(crate) fn put(&mut self, j: usize, number: u32, step: u32, left: u32) {
        self.numbers = with_word(self.numbers, j, number);
        self.steps = with_word(self.steps, j, step);
        self.left = with_word(self.left, j, left);
    }

    /// So many steps are taken, of those that each chain has left.
    pub(crate) fn advance(&mut self, count: u32) {
        self.steps = more(self.steps, count);
        self.left = less(self.left, count);
    }
}

/// The address of a chain of the key in each lane.
pub(crate) fn hash_adrs(at: Place) -> LaneAdrs {
    adrs_lanes(&wots_adrs(at, AdrsType::WotsHash, 0, 0))
}

/// Where in a batch the chain runs that ends first, and the steps to its end.
#[derive(Clone, Copy)]
pub(crate) struct FirstEnd {
    pub(crate) group: usize,
    pub(crate) lane: usize,
    pub(crate) count: u32,
}

/// The chain of a batch that ends first.
fn first_end<const G: usize>(running: &[RunningChains; G]) -> FirstEnd {
    let mut first = FirstEnd { group: 0, lane: 0, count: u32::MAX };
    for g in 0..G {
        let lane = least_lane(running[g].left);
        let count = running[g].left.to_array()[lane];
        if count < first.count {
            first = FirstEnd { group: g, lane, count };
        }
    }
    first
}

/// The steps that each chain of a batch has left.
pub(crate) fn steps_left<const G: usize>(running: &[RunningChains; G]) -> [Words; G] {
    let mut left = [Words::splat(0); G];
    for g in 0..G {
        left[g] = running[g].left;
    }
    left
}

/// Runs the chains of a batch on, each by its own number of steps. `adrs` is the address of a chain of the key in each
/// lane.
pub(crate) fn run_batch<const G: usize>(
    lanes: &SeededLanes,
    adrs: &LaneAdrs,
    running: &[RunningChains; G],
    nodes: &mut [LaneNodes; G],
    counts: &[Words; G],
) {
    let mut own = [*adrs; G];
    let mut from = [Words::splat(0); G];
    for g in 0..G {
        let mut here = *adrs;
        set_chains(&mut here, running[g].numbers);
        own[g] = here;
        from[g] = running[g].steps;
    }
    lanes.chains_each(&own, nodes, &from, counts);
}

/// Takes so many steps of those that each chain of a batch has left.
fn advance_all<const G: usize>(running: &mut [RunningChains; G], count: u32) {
    for g in 0..G {
        running[g].advance(count);
    }
}

/// Runs all chains of a batch on until one has ended, and says which. `adrs` is the address of a chain of the key in
/// each lane.
pub(crate) fn run_to_an_end<const G: usize>(
    lanes: &SeededLanes,
    adrs: &LaneAdrs,
    running: &mut [RunningChains; G],
    nodes: &mut [LaneNodes; G],
) -> FirstEnd {
    let first = first_end(running);
    run_batch(lanes, adrs, running, nodes, &[Words::splat(first.count); G]);
    advance_all(running, first.count);
    first
}

/// Writes the value of a chain that has ended, and puts chain `next` into its lane. That chain starts from the value that
/// stands at its place.
pub(crate) fn take_next<const G: usize>(
    running: &mut [RunningChains; G],
    nodes: &mut [LaneNodes; G],
    end: FirstEnd,
    next: u32,
    from: &ChainNumbers,
    counts: &ChainNumbers,
    n: usize,
    values: &mut [u8],
) {
    let g = end.group;
    let j = end.lane;
    let ended = running[g].numbers.to_array()[j];
    put_chunk(values, n, ended as usize, &lane_node(&nodes[g], j, n));
    nodes[g] = with_node(&nodes[g], j, chunk_at(values, n, next as usize));
    running[g].put(j, next, from[next as usize], counts[next as usize]);
}
