// Made by tools/plain_rust.py from crates/slh_core/src/digest_parts.rt.
//! The parts of a message digest (FIPS 205, section 9.2).

use crate::slh_params::{ParamSet, to_int};

/// The most bytes that a message digest has in any set.
pub const MOST_DIGEST_LEN: usize = 122;

/// The key pair that signs a message digest: a tree of layer 0 and a leaf of it.
#[derive(Clone, Copy)]
pub struct DigestIndices {
    pub idx_tree: u64,
    pub idx_leaf: u32,
}

/// `x` modulo 2 ^ `count`.
fn low_bits(x: u64, count: u32) -> u64 {
    match 1u64.checked_shl(count) {
        Some(bound) => x % bound,
        None => x,
    }
}

/// The key pair that a message digest of m bytes names: what follows its first `md_len` bytes, which FORS
/// signs (FIPS 205, Algorithm 19, lines 7 to 10).
pub fn digest_indices(set: ParamSet, digest: &[u8]) -> DigestIndices {
    let tree_start = set.md_len();
    let leaf_start = tree_start + set.tree_len();
    let tree = to_int(&digest[tree_start..leaf_start]);
    let leaf = to_int(&digest[leaf_start..]);
    DigestIndices { idx_tree: low_bits(tree, set.h() - set.hp()), idx_leaf: low_bits(leaf, set.hp()) as u32 }
}
