// Made by tools/plain_rust.py from crates/slh_params/src/param_set.rt.
//! Parameter sets (FIPS 205, section 11): the six of the standard, and free ones.

mod custom;
mod label;
mod names;
mod numbers;

pub use custom::RecordFault;

/// A parameter set of SLH-DSA with SHA-2: six numbers from which all others follow.
///
/// The constants are the sets of the standard (FIPS 205, section 11, Table 2); the letter after the size tells the sets
/// with small signatures from those that sign fast.
#[derive(Clone, Copy, PartialEq, Eq, Debug)]
pub struct ParamSet {
    n: u32,
    lg_w: u32,
    hp: u32,
    d: u32,
    a: u32,
    k: u32,
}

impl ParamSet {
    /// SLH-DSA-SHA2-128s.
    pub const S128s: ParamSet = ParamSet { n: 16, lg_w: 4, hp: 9, d: 7, a: 12, k: 14 };

    /// SLH-DSA-SHA2-128f.
    pub const S128f: ParamSet = ParamSet { n: 16, lg_w: 4, hp: 3, d: 22, a: 6, k: 33 };

    /// SLH-DSA-SHA2-192s.
    pub const S192s: ParamSet = ParamSet { n: 24, lg_w: 4, hp: 9, d: 7, a: 14, k: 17 };

    /// SLH-DSA-SHA2-192f.
    pub const S192f: ParamSet = ParamSet { n: 24, lg_w: 4, hp: 3, d: 22, a: 8, k: 33 };

    /// SLH-DSA-SHA2-256s.
    pub const S256s: ParamSet = ParamSet { n: 32, lg_w: 4, hp: 8, d: 8, a: 14, k: 22 };

    /// SLH-DSA-SHA2-256f.
    pub const S256f: ParamSet = ParamSet { n: 32, lg_w: 4, hp: 4, d: 17, a: 9, k: 35 };

    /// The six sets, in the order of the standard's table.
    pub const ALL: [ParamSet; 6] =
        [ParamSet::S128s, ParamSet::S128f, ParamSet::S192s, ParamSet::S192f, ParamSet::S256s, ParamSet::S256f];
}
