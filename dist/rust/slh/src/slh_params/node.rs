// Made by tools/plain_rust.py from crates/slh_params/src/node.rt.
//! Nodes: hash values of n bytes (FIPS 205, section 2.3).

use arrayvec::ArrayVec;

/// A hash value of n bytes, 16, 24 or 32: a node of a tree, a value of a chain, a secret.
pub type Node = ArrayVec<u8, 32>;

/// The node of these bytes, at most 32.
pub fn node_of(bytes: &[u8]) -> Node {
    let mut node = Node::new();
    let _ = node.try_extend_from_slice(bytes);
    node
}

/// A copy of the node.
pub fn copy_of(node: &Node) -> Node {
    // For the prover: a node has at most 32 bytes.
    let _fits = node.len();
    node_of(node.as_slice())
}

/// Writes the node's bytes into `out` from `start` on, and changes no other byte.
pub fn put_node(out: &mut [u8], start: usize, node: &Node) {
    let end = start + node.len();
    out[start..end].copy_from_slice(node);
}
