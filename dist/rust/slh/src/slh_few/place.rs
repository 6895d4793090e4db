// Made by tools/plain_rust.py from crates/slh_few/src/place.rt.
//! The arguments of the public calls: seeds, and the place of a key (FIPS 205, sections 5 to 8).

use crate::slh_params::ParamSet;

/// The seeds that signing needs: SK.seed and PK.seed, of n bytes each.
#[derive(Clone, Copy)]
pub struct Seeds<'a> {
    pub set: ParamSet,
    pub sk_seed: &'a [u8],
    pub pk_seed: &'a [u8],
}

/// The seed that verifying needs: PK.seed, of n bytes.
#[derive(Clone, Copy)]
pub struct Public<'a> {
    pub set: ParamSet,
    pub pk_seed: &'a [u8],
}

/// The place of a WOTS+ key: a layer of the hypertree, a tree of that layer and a leaf of that tree.
#[derive(Clone, Copy)]
pub struct Place {
    pub layer: u8,
    pub tree: u64,
    pub pair: u32,
}
