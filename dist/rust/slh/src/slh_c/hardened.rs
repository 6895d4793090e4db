// Made by tools/plain_rust.py from crates/slh_c/src/hardened.rt.
//! Exports that verify with a hardened verdict, made of two comparisons (FIPS 205, section 10.3).

use crate::slh_c::keys::public_key;
use crate::slh_c::numbers::{function_of, set_of};
use crate::slh_core::{HARDENED_INVALID, HARDENED_VALID, MessageDigest, hash_verify_digest_hardened, verify_hardened};

/// A law: the verdicts have these numbers, which `slh_verify.h` has.
pub fn verdicts_have_numbers() {}

/// The hardened verdict on a signature of a message under a context. It is `HARDENED_VALID` if and only if `slh_verify`
/// returns `DONE`. Otherwise it is `HARDENED_INVALID`, also if `slh_verify` refuses the arguments.
pub fn slh_verify_hardened(set: u32, pk: &[u8], msg: &[u8], ctx: &[u8], sig: &[u8]) -> u32 {
    let Ok(set) = set_of(set) else {
        return HARDENED_INVALID;
    };
    let Ok(pk) = public_key(set, pk) else {
        return HARDENED_INVALID;
    };
    verify_hardened(msg, ctx, sig, &pk)
}

/// The hardened verdict on a signature of a message, by the digest that the caller has computed. It is `HARDENED_VALID`
/// if and only if `slh_hash_verify_digest` returns `DONE`. Otherwise it is `HARDENED_INVALID`, also if
/// `slh_hash_verify_digest` refuses the arguments.
pub fn slh_hash_verify_digest_hardened(
    set: u32,
    function: u32,
    pk: &[u8],
    digest: &[u8],
    ctx: &[u8],
    sig: &[u8],
) -> u32 {
    let Ok(set) = set_of(set) else {
        return HARDENED_INVALID;
    };
    let Ok(function) = function_of(function) else {
        return HARDENED_INVALID;
    };
    let Ok(pk) = public_key(set, pk) else {
        return HARDENED_INVALID;
    };
    let Some(digest) = MessageDigest::from_bytes(function, digest) else {
        return HARDENED_INVALID;
    };
    hash_verify_digest_hardened(&digest, ctx, sig, &pk)
}
