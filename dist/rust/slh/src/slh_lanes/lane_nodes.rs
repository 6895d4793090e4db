// Made by tools/plain_rust.py from crates/slh_lanes/src/lane_nodes.rt.
//! Eight nodes of n bytes, one in each lane (ours).

use crate::slh_lanes::bytes::{load_all, load_be, store_lane};
use crate::slh_lanes::words::{GROUP, Words, evens, odds, pick, with_lane};
use crate::slh_params::{Node, node_of};

/// Eight values of n bytes, one in each lane: of eight words the first, as many as n bytes fill.
pub type LaneNodes = [Words; 8];

/// One value in all eight lanes, and zeros behind it.
pub fn node_lanes(value: &[u8]) -> LaneNodes {
    let mut lanes = [Words::splat(0); 8];
    load_all(&mut lanes[..value.len() / 4], value);
    lanes
}

/// Puts a value into lane `j`. The bytes after it stay.
pub fn set_lane(nodes: &mut LaneNodes, j: usize, value: &[u8]) {
    for k in 0..value.len() / 4 {
        nodes[k] = with_lane(nodes[k], j, load_be(value, 4 * k));
    }
}

/// The value of n bytes in lane `j`.
pub fn lane_node(nodes: &LaneNodes, j: usize, n: usize) -> Node {
    let mut bytes = [0; 32];
    store_lane(nodes, j, &mut bytes);
    node_of(&bytes[..n])
}

/// Two values of 16 bytes end to end in each lane.
#[inline(always)]
pub(crate) fn two_short(left: &LaneNodes, right: &LaneNodes) -> LaneNodes {
    [left[0], left[1], left[2], left[3], right[0], right[1], right[2], right[3]]
}

/// The first, the third and so on of the sixteen values in two times eight lanes.
pub fn even_lanes(left: &LaneNodes, right: &LaneNodes) -> LaneNodes {
    [
        evens(left[0], right[0]),
        evens(left[1], right[1]),
        evens(left[2], right[2]),
        evens(left[3], right[3]),
        evens(left[4], right[4]),
        evens(left[5], right[5]),
        evens(left[6], right[6]),
        evens(left[7], right[7]),
    ]
}

/// The second, the fourth and so on of the sixteen values in two times eight lanes.
pub fn odd_lanes(left: &LaneNodes, right: &LaneNodes) -> LaneNodes {
    [
        odds(left[0], right[0]),
        odds(left[1], right[1]),
        odds(left[2], right[2]),
        odds(left[3], right[3]),
        odds(left[4], right[4]),
        odds(left[5], right[5]),
        odds(left[6], right[6]),
        odds(left[7], right[7]),
    ]
}

/// In each lane the value of `x` if the number `a` is below `b`, else the value of `y`.
#[inline(always)]
pub fn pick_nodes(a: Words, b: Words, x: &LaneNodes, y: &LaneNodes) -> LaneNodes {
    [
        pick(a, b, x[0], y[0]),
        pick(a, b, x[1], y[1]),
        pick(a, b, x[2], y[2]),
        pick(a, b, x[3], y[3]),
        pick(a, b, x[4], y[4]),
        pick(a, b, x[5], y[5]),
        pick(a, b, x[6], y[6]),
        pick(a, b, x[7], y[7]),
    ]
}
