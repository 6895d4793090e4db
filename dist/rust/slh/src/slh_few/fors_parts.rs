// Made by tools/plain_rust.py from crates/slh_few/src/fors_parts.rt.
//! The leaves of the FORS trees that a digest asks for (FIPS 205, section 8).

use crate::slh_params::{ParamSet, base_2b};

/// At least the FORS trees of any set.
pub const MOST_TREES: usize = 64;

/// The leaf of each tree that a digest of md_len bytes asks for, with zeros after them (Algorithm 16,
/// line 2).
pub fn fors_indices(set: ParamSet, md: &[u8]) -> [u32; MOST_TREES] {
    let mut indices = [0; MOST_TREES];
    let count = set.k() as usize;
    base_2b(md, set.a(), &mut indices[..count]);
    indices
}
