// Made by tools/plain_rust.py from crates/slh_c/src/hashed_message.rt.
//! Exports that verify in the pure form a message that the caller hashes (FIPS 205, sections 10.3 and 11.2).

use crate::slh_c::keys::public_key;
use crate::slh_c::numbers::set_of;
use crate::slh_c::refusal::{DONE, INVALID, or_refuse};
use crate::slh_c::rules::{self, judge};
use crate::slh_core::{front_len, verify_front, verify_hashed};

/// Writes the front, which the caller hashes before the message (FIPS 205, Algorithm 24 and section 11.2): R, PK.seed,
/// PK.root, 0, the length of the context and the context. `pk` has 2n bytes, `front` 3n + 2 and those of the context.
/// Invalid as in `slh_verify`. Refused by `verify_front_rules`: a number that is not a set's, a key or an output of
/// another length. Nothing is written unless the result is `DONE`.
pub fn slh_verify_front(set: u32, pk: &[u8], ctx: &[u8], sig: &[u8], front: &mut [u8]) -> u32 {
    let set = or_refuse!(set_of(set));
    let pk = or_refuse!(public_key(set, pk));
    or_refuse!(judge(&[rules::output(front_len(set, ctx), front)]));
    if verify_front(ctx, sig, &pk, front) { DONE } else { INVALID }
}

/// The verdict of `slh_verify_hashed`.
fn verdict(set: u32, pk: &[u8], hash: &[u8], sig: &[u8]) -> u32 {
    let set = or_refuse!(set_of(set));
    let pk = or_refuse!(public_key(set, pk));
    or_refuse!(judge(&[rules::inner_hash(set, hash)]));
    if verify_hashed(hash, sig, &pk) { DONE } else { INVALID }
}

/// Whether the bytes are a valid signature of a message by the hash of the front and the message (FIPS 205,
/// Algorithm 24 after this hash). The caller computes it: by SHA-256 if n is 16, else by SHA-512. `pk` has 2n bytes.
/// Invalid if the signature is not `sig_len`. Refused by `verify_hashed_rules`: a number that is not a set's, a key or
/// a hash of another length.
pub fn slh_verify_hashed(set: u32, pk: &[u8], hash: &[u8], sig: &[u8]) -> u32 {
    verdict(set, pk, hash, sig)
}
