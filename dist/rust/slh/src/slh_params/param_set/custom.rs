// Made by tools/plain_rust.py from crates/slh_params/src/param_set/custom.rt.
//! Parameter sets of any six numbers that are a valid record (FIPS 205, section 11, has six records).

use super::ParamSet;
use thiserror::Error;

/// Why six numbers are no parameter set.
#[derive(Clone, Copy, PartialEq, Eq, Debug, Error)]
pub enum RecordFault {
    /// A member is invalid.
    #[error("the member {member} of the parameter set is invalid")]
    BadRecord {
        /// The first such member, in the order n, lg_w, hp, d, a, k.
        member: &'static str,
    },
}

impl RecordFault {
    /// The number of the refusal.
    pub fn number(&self) -> u8 {
        match self {
            RecordFault::BadRecord { .. } => 5,
        }
    }

    /// The name of the refusal.
    pub fn name(&self) -> &'static str {
        match self {
            RecordFault::BadRecord { .. } => "BadRecord",
        }
    }
}

impl ParamSet {
    /// The set of these numbers: `n` is 16, 24 or 32, `lg_w` 2, 4 or 8, `hp` 1 to 12, `a` 1 to 14 and `k` 1 to 64; `d`
    /// is at least 1, and the trees below the top layer are at most 64 levels high together. Refused with the first
    /// member that is invalid.
    pub fn custom(n: u32, lg_w: u32, hp: u32, d: u32, a: u32, k: u32) -> Result<ParamSet, RecordFault> {
        match first_bad(n, lg_w, hp, d, a, k) {
            None => Ok(ParamSet { n, lg_w, hp, d, a, k }),
            Some(member) => Err(RecordFault::BadRecord { member }),
        }
    }
}

/// The first member that is invalid.
fn first_bad(n: u32, lg_w: u32, hp: u32, d: u32, a: u32, k: u32) -> Option<&'static str> {
    if !n_fits(n) {
        Some("n")
    } else if !lg_w_fits(lg_w) {
        Some("lg_w")
    } else if !fits(hp, 12) {
        Some("hp")
    } else if !d_fits(hp, d) {
        Some("d")
    } else if !fits(a, 14) {
        Some("a")
    } else if !fits(k, 64) {
        Some("k")
    } else {
        None
    }
}

fn n_fits(n: u32) -> bool {
    n == 16 || n == 24 || n == 32
}

fn lg_w_fits(lg_w: u32) -> bool {
    lg_w == 2 || lg_w == 4 || lg_w == 8
}

/// Whether the number is from 1 to `high`.
fn fits(number: u32, high: u32) -> bool {
    1 <= number && number <= high
}

/// Whether there is a layer, and the trees below the top layer have an index of at most 64 bits.
fn d_fits(hp: u32, d: u32) -> bool {
    1 <= d && hp as u64 * (d as u64 - 1) <= 64
}
