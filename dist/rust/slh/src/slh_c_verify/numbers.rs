// Made by tools/plain_rust.py from crates/slh_c_verify/src/numbers.rt.
//! Parameter sets and pre-hash functions by the numbers of the header (ours).

use crate::slh_c_verify::refusal::Refusal;
use crate::slh_core::PreHash;
use crate::slh_params::ParamSet;

/// The pre-hash functions, in the order of their numbers.
const FUNCTIONS: [PreHash; 6] =
    [PreHash::Sha224, PreHash::Sha256, PreHash::Sha384, PreHash::Sha512, PreHash::Sha512_224, PreHash::Sha512_256];

/// The parameter set of a number. Refused if it is not a set's.
pub fn set_of(number: u32) -> Result<ParamSet, Refusal> {
    at_place(&ParamSet::all(), number).ok_or(Refusal::NoSuchSet)
}

/// The pre-hash function of a number. Refused if it is not a function's.
pub fn function_of(number: u32) -> Result<PreHash, Refusal> {
    at_place(&FUNCTIONS, number).ok_or(Refusal::NoSuchFunction)
}

/// The item at a place of a list, counted from 1.
fn at_place<T: Copy>(items: &[T], place: u32) -> Option<T> {
    let index = place.checked_sub(1)?;
    items.get(index as usize).copied()
}
