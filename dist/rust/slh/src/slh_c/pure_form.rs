// Made by tools/plain_rust.py from crates/slh_c/src/pure_form.rt.
//! Exports that sign and verify a message (FIPS 205, sections 10.2.1 and 10.3).

use crate::slh_c::keys::{public_key, secret_key};
use crate::slh_c::numbers::set_of;
use crate::slh_c::randomizer::randomizer_of;
use crate::slh_c::refusal::{DONE, INVALID, Refusal, or_refuse};
use crate::slh_c::rules::{self, judge};
use crate::slh_core::{SignFault, sign, verify};

/// Signs a message under a context (FIPS 205, Algorithm 22), writing `sig_len` bytes. `sk` has 4n bytes, the
/// randomizer n, or none in the deterministic variant. Refused, with nothing written, by `sign_rules`: a number that
/// is not a set's, a key, randomizer or output of another length, a context of over 255 bytes.
pub fn slh_sign(set: u32, sk: &[u8], msg: &[u8], ctx: &[u8], randomizer: &[u8], sig: &mut [u8]) -> u32 {
    let set = or_refuse!(set_of(set));
    let sk = or_refuse!(secret_key(set, sk));
    let randomizer = or_refuse!(randomizer_of(set, randomizer));
    or_refuse!(judge(&[rules::output(set.sig_len(), sig)]));
    match sign(msg, ctx, &sk, randomizer, sig) {
        Ok(()) => DONE,
        Err(SignFault::ContextTooLong) => Refusal::ContextTooLong.number(),
    }
}

/// Whether the bytes are a valid signature of a message under a context (FIPS 205, Algorithm 24). `pk` has 2n bytes.
/// Invalid if the context has over 255 bytes or the signature not `sig_len`. Refused by `verify_rules`: a number that
/// is not a set's, a key of another length.
pub fn slh_verify(set: u32, pk: &[u8], msg: &[u8], ctx: &[u8], sig: &[u8]) -> u32 {
    let set = or_refuse!(set_of(set));
    let pk = or_refuse!(public_key(set, pk));
    if verify(msg, ctx, sig, &pk) { DONE } else { INVALID }
}
