// Made by tools/plain_rust.py from crates/slh_c/src/internal_form.rt.
//! Exports of the internal functions, for test vectors (FIPS 205, sections 9.2 and 9.3).

use crate::slh_c::keys::{public_key, secret_key};
use crate::slh_c::numbers::set_of;
use crate::slh_c::randomizer::randomizer_of;
use crate::slh_c::refusal::{DONE, INVALID, or_refuse};
use crate::slh_c::rules::{self, judge};
use crate::slh_core::{sign_internal, verify_internal};

/// Signs M' as it is (FIPS 205, Algorithm 19). The lengths are those of `slh_sign`. Refused, with nothing written,
/// by `sign_internal_rules`: a number that is not a set's, a key, randomizer or output of another length.
pub fn slh_sign_internal(set: u32, sk: &[u8], msg: &[u8], randomizer: &[u8], sig: &mut [u8]) -> u32 {
    let set = or_refuse!(set_of(set));
    let sk = or_refuse!(secret_key(set, sk));
    let randomizer = or_refuse!(randomizer_of(set, randomizer));
    or_refuse!(judge(&[rules::output(set.sig_len(), sig)]));
    sign_internal(&[msg], &sk, randomizer, sig);
    DONE
}

/// Whether the bytes are a valid signature of M' as it is (FIPS 205, Algorithm 20). Invalid if they are not `sig_len`.
/// Refused as `slh_verify` is, by `verify_rules`.
pub fn slh_verify_internal(set: u32, pk: &[u8], msg: &[u8], sig: &[u8]) -> u32 {
    let set = or_refuse!(set_of(set));
    let pk = or_refuse!(public_key(set, pk));
    if verify_internal(&[msg], sig, &pk) { DONE } else { INVALID }
}
