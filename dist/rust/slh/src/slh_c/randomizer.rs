// Made by tools/plain_rust.py from crates/slh_c/src/randomizer.rt.
//! The randomizer of the bytes that a caller of C passes (FIPS 205, section 9.2).

use crate::slh_c::refusal::Refusal;
use crate::slh_core::Randomizer;
use crate::slh_params::ParamSet;

/// The randomizer of these bytes; no bytes mean the deterministic variant. Refused if they are neither 0 nor n.
pub fn randomizer_of(set: ParamSet, bytes: &[u8]) -> Result<Randomizer<'_>, Refusal> {
    if bytes.is_empty() {
        return Ok(Randomizer::Deterministic);
    }
    if bytes.len() != set.n() {
        return Err(Refusal::BadRandomizerLength);
    }
    Ok(Randomizer::Given(bytes))
}
