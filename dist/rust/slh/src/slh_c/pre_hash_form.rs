// Made by tools/plain_rust.py from crates/slh_c/src/pre_hash_form.rt.
//! Exports that sign and verify a message by its digest (FIPS 205, sections 10.2.2 and 10.3).

use crate::slh_c::keys::{public_key, secret_key};
use crate::slh_c::numbers::{function_of, set_of};
use crate::slh_c::randomizer::randomizer_of;
use crate::slh_c::refusal::{DONE, INVALID, Refusal, or_refuse};
use crate::slh_c::rules::{self, judge};
use crate::slh_core::{MessageDigest, SignFault, hash_sign, hash_sign_digest, hash_verify, hash_verify_digest};

/// Signs a message by its digest under a pre-hash function, and under a context (FIPS 205, Algorithm 23). The lengths
/// are those of `slh_sign`. Refused, with nothing written, by `hash_sign_rules`: as `slh_sign` is, and for a number
/// that is not a function's.
pub fn slh_hash_sign(
    set: u32,
    function: u32,
    sk: &[u8],
    msg: &[u8],
    ctx: &[u8],
    randomizer: &[u8],
    sig: &mut [u8],
) -> u32 {
    let set = or_refuse!(set_of(set));
    let function = or_refuse!(function_of(function));
    let sk = or_refuse!(secret_key(set, sk));
    let randomizer = or_refuse!(randomizer_of(set, randomizer));
    or_refuse!(judge(&[rules::output(set.sig_len(), sig)]));
    match hash_sign(msg, ctx, function, &sk, randomizer, sig) {
        Ok(()) => DONE,
        Err(SignFault::ContextTooLong) => Refusal::ContextTooLong.number(),
    }
}

/// Whether the bytes are a valid signature of a message by its digest under a pre-hash function, and under a
/// context (FIPS 205, Algorithm 25). Invalid as in `slh_verify`. Refused by `hash_verify_rules`: a number that
/// is not a set's or not a function's, a key of another length.
pub fn slh_hash_verify(set: u32, function: u32, pk: &[u8], msg: &[u8], ctx: &[u8], sig: &[u8]) -> u32 {
    let set = or_refuse!(set_of(set));
    let function = or_refuse!(function_of(function));
    let pk = or_refuse!(public_key(set, pk));
    if hash_verify(msg, ctx, function, sig, &pk) { DONE } else { INVALID }
}

/// Signs a message by the digest that the caller has computed (FIPS 205, Algorithm 23 after its pre-hash), of
/// `digest_len` bytes. Refused, with nothing written, by `hash_sign_digest_rules`: as `slh_hash_sign` is, and for a
/// digest of another length.
pub fn slh_hash_sign_digest(
    set: u32,
    function: u32,
    sk: &[u8],
    digest: &[u8],
    ctx: &[u8],
    randomizer: &[u8],
    sig: &mut [u8],
) -> u32 {
    let set = or_refuse!(set_of(set));
    let function = or_refuse!(function_of(function));
    let sk = or_refuse!(secret_key(set, sk));
    let Some(digest) = MessageDigest::from_bytes(function, digest) else {
        return Refusal::BadDigestLength.number();
    };
    let randomizer = or_refuse!(randomizer_of(set, randomizer));
    or_refuse!(judge(&[rules::output(set.sig_len(), sig)]));
    match hash_sign_digest(&digest, ctx, &sk, randomizer, sig) {
        Ok(()) => DONE,
        Err(SignFault::ContextTooLong) => Refusal::ContextTooLong.number(),
    }
}

/// Whether the bytes are a valid signature of a message by the digest that the caller has computed (FIPS 205,
/// Algorithm 25 after its pre-hash). Invalid as in `slh_verify`. Refused by `hash_verify_digest_rules`: as
/// `slh_hash_verify` is, and for a digest of another length.
pub fn slh_hash_verify_digest(set: u32, function: u32, pk: &[u8], digest: &[u8], ctx: &[u8], sig: &[u8]) -> u32 {
    let set = or_refuse!(set_of(set));
    let function = or_refuse!(function_of(function));
    let pk = or_refuse!(public_key(set, pk));
    let Some(digest) = MessageDigest::from_bytes(function, digest) else {
        return Refusal::BadDigestLength.number();
    };
    if hash_verify_digest(&digest, ctx, sig, &pk) { DONE } else { INVALID }
}
