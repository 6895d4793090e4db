// Made by tools/plain_rust.py from crates/slh_lanes/src/joined.rt.
//! Two groups of eight lanes as sixteen, of which the first are the lanes of the first group (ours).

use crate::slh_lanes::lane_adrs::LaneAdrs;
use crate::slh_lanes::lane_nodes::LaneNodes;
use crate::slh_lanes::part::{Part, part_of_eight, with_eight, with_six};
use crate::slh_lanes::words::{GROUP, Words};
use crate::vectors::*;

/// The words of two groups.
pub(crate) type TwoWords = u32x16;

/// The addresses of a batch of two groups.
#[inline(always)]
pub(crate) fn join_adrs<const G: usize>(batch: &[LaneAdrs; G]) -> [TwoWords; 6] {
    let first = with_six(&[TwoWords::splat(0); 6], &batch[0], 0);
    with_six(&first, &batch[1], GROUP)
}

/// The values of a batch of two groups.
#[inline(always)]
pub(crate) fn join_nodes<const G: usize>(batch: &[LaneNodes; G]) -> [TwoWords; 8] {
    let first = with_eight(&[TwoWords::splat(0); 8], &batch[0], 0);
    with_eight(&first, &batch[1], GROUP)
}

/// The words of a batch of two groups.
#[inline(always)]
pub(crate) fn join_words<const G: usize>(batch: &[Words; G]) -> TwoWords {
    let first = batch[0].put(TwoWords::splat(0), 0);
    batch[1].put(first, GROUP)
}

/// Writes the values of both groups into a batch of two.
#[inline(always)]
pub(crate) fn split_nodes<const G: usize>(nodes: &[TwoWords; 8], batch: &mut [LaneNodes; G]) {
    batch[0] = part_of_eight(nodes, 0);
    batch[1] = part_of_eight(nodes, GROUP);
}
