// Made by tools/plain_rust.py from crates/slh_c_verify/src/pre_hash_form.rt.
//! Exports that verify a signature of a message's digest (FIPS 205, section 10.3, Algorithm 25).

use crate::slh_c_verify::keys::public_key;
use crate::slh_c_verify::numbers::{function_of, set_of};
use crate::slh_c_verify::refusal::{DONE, INVALID, Refusal, or_refuse};
use crate::slh_core::{MessageDigest, hash_verify, hash_verify_digest};

/// Whether the bytes are a valid signature of a message by its digest under a pre-hash function, and under a
/// context (FIPS 205, Algorithm 25). Invalid as in `slh_verify`. Refused by `hash_verify_rules`: a number that
/// is not a set's or not a function's, a key of another length.
pub fn slh_hash_verify(set: u32, function: u32, pk: &[u8], msg: &[u8], ctx: &[u8], sig: &[u8]) -> u32 {
    let set = or_refuse!(set_of(set));
    let function = or_refuse!(function_of(function));
    let pk = or_refuse!(public_key(set, pk));
    if hash_verify(msg, ctx, function, sig, &pk) { DONE } else { INVALID }
}

/// Whether the bytes are a valid signature of a message by the digest that the caller has computed (FIPS 205,
/// Algorithm 25 after its pre-hash). Invalid as in `slh_verify`. Refused by `hash_verify_digest_rules`: as
/// `slh_hash_verify` is, and for a digest of another length.
pub fn slh_hash_verify_digest(set: u32, function: u32, pk: &[u8], digest: &[u8], ctx: &[u8], sig: &[u8]) -> u32 {
    let set = or_refuse!(set_of(set));
    let function = or_refuse!(function_of(function));
    let pk = or_refuse!(public_key(set, pk));
    let Some(digest) = MessageDigest::from_bytes(function, digest) else {
        return Refusal::BadDigestLength.number();
    };
    if hash_verify_digest(&digest, ctx, sig, &pk) { DONE } else { INVALID }
}
