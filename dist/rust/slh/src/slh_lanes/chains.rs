// Made by tools/plain_rust.py from crates/slh_lanes/src/chains.rt.
//! Steps of WOTS+ chains in lanes (FIPS 205, section 5), with the rounds that all steps of a chain have in common
//! computed once.
//!
//! From step to step only the hash number and the value change in the block that F hashes. Its first five words have no
//! part of either, so the first five rounds are the same, or the first four of the SHA instructions. The words of the
//! padding are constants.

use crate::slh_lanes::block::{second_block, splat_all};
use crate::slh_lanes::instructions::Word;
use crate::slh_lanes::lane_adrs::LaneAdrs;
use crate::slh_lanes::lane_nodes::LaneNodes;
use crate::slh_lanes::part::{Part, part_of_eight, part_of_six, with_eight};
use crate::slh_lanes::rounds::ChainCompression;
use crate::slh_lanes::short_lanes::{ShortLanes, tell_all};
use crate::slh_lanes::words::{GROUP, Words};

/// The addresses of step 0.
#[inline(always)]
fn at_step_0<W: ShortLanes>(adrs: &[W; 6]) -> [W; 6] {
    tell_all(adrs);
    let zero = W::splat(0);
    [adrs[0], adrs[1], adrs[2], adrs[3], adrs[4].high().halves(zero), zero.low()]
}

/// The addresses of other steps, each of a number below 2^16: the first five words stay.
#[inline(always)]
fn at_step<W: ShortLanes>(adrs: &[W; 6], numbers: W) -> [W; 6] {
    tell_all(adrs);
    [adrs[0], adrs[1], adrs[2], adrs[3], adrs[4], numbers.low()]
}

/// The next values in the lanes that have a step left, whose number in `counts` is above `step`. The others keep their
/// values. All lanes have `all` steps, so up to there nothing is chosen.
#[inline(always)]
fn take_step<W: ShortLanes>(step: u32, all: u32, counts: W, next: &[W; 8], x: &[W; 8]) -> [W; 8] {
    if step < all {
        return *next;
    }
    let at = W::splat(step);
    [
        W::pick(at, counts, next[0], x[0]),
        W::pick(at, counts, next[1], x[1]),
        W::pick(at, counts, next[2], x[2]),
        W::pick(at, counts, next[3], x[3]),
        W::pick(at, counts, next[4], x[4]),
        W::pick(at, counts, next[5], x[5]),
        W::pick(at, counts, next[6], x[6]),
        W::pick(at, counts, next[7], x[7]),
    ]
}

/// Runs chains on from their values of n bytes (section 5, Algorithm 5). Each lane has its own first step and its own
/// number of steps. `short` is the hash value after PK.seed's block.
#[inline(always)]
fn run_known<W: ShortLanes, C: ChainCompression<W>>(
    short: &[u32; 8],
    n: usize,
    adrs: &[W; 6],
    x: &[W; 8],
    from: W,
    counts: W,
) -> [W; 8] {
    let state = splat_all(short);
    let base = at_step_0(adrs);
    let begun = C::begin(&state, base[0], base[1], base[2], base[3], base[4]);
    let all = counts.least();
    let mut nodes = *x;
    for step in 0..counts.most() {
        let mut next = state;
        let block = second_block(n, &at_step(&base, from.more(step)), &nodes);
        C::compress_begun(&mut next, &begun, &block);
        nodes = take_step(step, all, counts, &next, &nodes);
    }
    nodes
}

/// The same. Each n has a loop of its own, in which it is a constant.
#[inline(always)]
pub(crate) fn run<W: ShortLanes, C: ChainCompression<W>>(
    short: &[u32; 8],
    n: usize,
    adrs: &[W; 6],
    x: &[W; 8],
    from: W,
    counts: W,
) -> [W; 8] {
    if counts.most() == 0 {
        return *x;
    }
    match n {
        16 => run_known::<W, C>(short, 16, adrs, x, from, counts),
        24 => run_known::<W, C>(short, 24, adrs, x, from, counts),
        _ => run_known::<W, C>(short, 32, adrs, x, from, counts),
    }
}

/// Runs the chains in the lanes from `first` on, each from its first step by its number of steps. The other lanes keep
/// their values.
pub(crate) fn run_part<W: ShortLanes + Part<Words>, C: ChainCompression<W>>(
    short: &[u32; 8],
    n: usize,
    adrs: &LaneAdrs,
    x: &LaneNodes,
    first: usize,
    from: Words,
    counts: Words,
) -> LaneNodes {
    let own_adrs = part_of_six::<Words, W>(adrs, first);
    let own = part_of_eight::<Words, W>(x, first);
    let from = W::part(from, first);
    let counts = W::part(counts, first);
    let ends = run::<W, C>(short, n, &own_adrs, &own, from, counts);
    with_eight(x, &ends, first)
}

/// Runs eight chains, one after another.
pub(crate) fn run_singles<C: ChainCompression<Word>>(
    short: &[u32; 8],
    n: usize,
    adrs: &LaneAdrs,
    x: &LaneNodes,
    from: Words,
    counts: Words,
) -> LaneNodes {
    let mut nodes = *x;
    for lane in 0..GROUP {
        nodes = run_part::<Word, C>(short, n, adrs, &nodes, lane, from, counts);
    }
    nodes
}
