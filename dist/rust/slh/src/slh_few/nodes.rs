// Made by tools/plain_rust.py from crates/slh_few/src/nodes.rt.
//! Nodes as byte strings, and as chunks of them (ours).

use crate::slh_lanes::{GROUP, LaneNodes, lane_node};
use crate::slh_params::{Node, node_of};
use crate::slh_tree::Leaves;

/// Chunk number `index` of the bytes, which are chunks of one size.
pub(crate) fn chunk_at(bytes: &[u8], size: usize, index: usize) -> &[u8] {
    let start = index * size;
    &bytes[start..start + size]
}

/// Node number `index` of the bytes, which are nodes of one size.
pub(crate) fn node_at(bytes: &[u8], size: usize, index: usize) -> Node {
    node_of(chunk_at(bytes, size, index))
}

/// Writes chunk number `index` of the bytes, which are chunks of one size.
pub(crate) fn put_chunk(bytes: &mut [u8], size: usize, index: usize, value: &[u8]) {
    let start = index * size;
    bytes[start..start + size].copy_from_slice(value);
}

/// The node's bytes.
pub(crate) fn bytes_of(node: &Node) -> &[u8] {
    let bytes = node.as_slice();
    // For the prover: what a node holds are bytes.
    let _count = bytes.len();
    bytes
}

/// The values of n bytes in the first `count` lanes.
pub(crate) fn first_nodes(nodes: &LaneNodes, n: usize, count: usize) -> Leaves {
    let mut values = Leaves::new();
    for j in 0..count {
        values.push(lane_node(nodes, j, n));
    }
    values
}
