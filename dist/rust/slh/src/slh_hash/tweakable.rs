// Made by tools/plain_rust.py from crates/slh_hash/src/tweakable.rt.
//! F, H and PRF of one input each (FIPS 205, section 11.2).

use crate::slh_hash::hash_function::MOST_BLOCK_LEN;
use crate::slh_hash::seeded_hash::SeededHash;
use crate::slh_hash::t_stream::SeededTreeHash;
use crate::slh_params::{Adrs, Node, ParamSet};

const ZEROS: [u8; MOST_BLOCK_LEN] = [0; MOST_BLOCK_LEN];

/// The zeros that fill a block after PK.seed.
pub(crate) fn zeros(count: usize) -> &'static [u8] {
    &ZEROS[..count]
}

/// The first n bytes of a digest.
pub(crate) fn truncated(digest: &[u8], n: usize) -> Node {
    let mut node = Node::new();
    let _ = node.try_extend_from_slice(&digest[..n]);
    node
}

/// F (FIPS 205, section 11.2): the hash of a node of n bytes at an address, under PK.seed of n bytes.
pub fn f(set: ParamSet, pk_seed: &[u8], adrs: &Adrs, x: &Node) -> Node {
    SeededHash::new(set, pk_seed).f(adrs, x)
}

/// PRF (section 11.2): the secret at an address, from PK.seed and SK.seed of n bytes each.
pub fn prf(set: ParamSet, pk_seed: &[u8], sk_seed: &[u8], adrs: &Adrs) -> Node {
    SeededHash::new(set, pk_seed).prf(sk_seed, adrs)
}

/// H (section 11.2): the hash of two nodes of n bytes at an address, under PK.seed of n bytes.
pub fn h(set: ParamSet, pk_seed: &[u8], adrs: &Adrs, left: &Node, right: &Node) -> Node {
    SeededTreeHash::new(set, pk_seed).h(adrs, left, right)
}
