// Made by tools/plain_rust.py from crates/slh_c/src/twice.rt.
//! Exports that sign two times, so that a fault of memory or of the processor in one of the runs gives no signature
//! (ours). If a one-time key signs a value that was computed wrongly, it signs the right one another time, and then
//! anyone can forge (SECURITY.md, "Faults"). Both signatures are proved to be equal, so only a machine that fails
//! returns `Fault`.
//!
//! Each run is a call of its own with the caller's arguments, and writes to another half of `scratch`. So a value that
//! is wrong in one run is not read in the other. A wrong bit of an argument is read in both, and is not found.

use crate::slh_c::numbers::{function_of, set_of};
use crate::slh_c::pre_hash_form::{slh_hash_sign, slh_hash_sign_digest};
use crate::slh_c::pure_form::slh_sign;
use crate::slh_c::randomizer::randomizer_of;
use crate::slh_c::refusal::{DONE, Refusal, or_refuse};
use crate::slh_c::rules::{self, judge};
use crate::slh_core::are_same;

/// Exchanges the first signature with the bytes of `sig`, and compares what is in `sig` then with the second signature.
/// If they differ, exchanges them back, so that `sig` is as it was.
fn exchange(first: &mut [u8], second: &[u8], sig: &mut [u8]) -> bool {
    sig.swap_with_slice(first);
    let is_same = are_same(sig, second);
    if !is_same {
        sig.swap_with_slice(first);
    }
    is_same
}

/// Writes the first signature to `sig` if both are done and have the same bytes. They are compared before it is
/// written, and the written bytes are compared again: a bit may also turn on the way. Refused as `Fault`, with `sig` as
/// it was, if the runs are not done, or if a comparison fails.
fn release(are_done: bool, first: &mut [u8], second: &[u8], sig: &mut [u8]) -> u32 {
    if are_done && are_same(first, second) && exchange(first, second, sig) { DONE } else { Refusal::Fault.number() }
}

/// Signs a message as `slh_sign` does, two times, and compares: the bytes are those of `slh_sign`. `scratch` has room
/// for two signatures, and is zeros after the call is done. Refused, with nothing written, by `sign_twice_rules`: as
/// `slh_sign` is, and for a scratch of another length.
pub fn slh_sign_twice(
    set: u32,
    sk: &[u8],
    msg: &[u8],
    ctx: &[u8],
    randomizer: &[u8],
    scratch: &mut [u8],
    sig: &mut [u8],
) -> u32 {
    let of = or_refuse!(set_of(set));
    or_refuse!(judge(&[rules::secret(of, sk)]));
    or_refuse!(randomizer_of(of, randomizer));
    or_refuse!(judge(&[
        rules::output(2 * of.sig_len(), scratch),
        rules::output(of.sig_len(), sig),
        rules::context(ctx),
    ]));
    let (first, second) = scratch.split_at_mut(of.sig_len());
    let are_done = slh_sign(set, sk, msg, ctx, randomizer, first) == DONE
        && slh_sign(set, sk, msg, ctx, randomizer, second) == DONE;
    let answer = release(are_done, first, second, sig);
    scratch.fill(0);
    answer
}

/// Signs a message by its digest as `slh_hash_sign` does, two times, and compares: the bytes are those of
/// `slh_hash_sign`. `scratch` is as in `slh_sign_twice`. Refused, with nothing written, by `hash_sign_twice_rules`: as
/// `slh_hash_sign` is, and for a scratch of another length.
pub fn slh_hash_sign_twice(
    set: u32,
    function: u32,
    sk: &[u8],
    msg: &[u8],
    ctx: &[u8],
    randomizer: &[u8],
    scratch: &mut [u8],
    sig: &mut [u8],
) -> u32 {
    let of = or_refuse!(set_of(set));
    or_refuse!(function_of(function));
    or_refuse!(judge(&[rules::secret(of, sk)]));
    or_refuse!(randomizer_of(of, randomizer));
    or_refuse!(judge(&[
        rules::output(2 * of.sig_len(), scratch),
        rules::output(of.sig_len(), sig),
        rules::context(ctx),
    ]));
    let (first, second) = scratch.split_at_mut(of.sig_len());
    let are_done = slh_hash_sign(set, function, sk, msg, ctx, randomizer, first) == DONE
        && slh_hash_sign(set, function, sk, msg, ctx, randomizer, second) == DONE;
    let answer = release(are_done, first, second, sig);
    scratch.fill(0);
    answer
}

/// Signs a digest as `slh_hash_sign_digest` does, two times, and compares: the bytes are those of
/// `slh_hash_sign_digest`. `scratch` is as in `slh_sign_twice`. Refused, with nothing written, by
/// `hash_sign_digest_twice_rules`: as `slh_hash_sign_digest` is, and for a scratch of another length.
pub fn slh_hash_sign_digest_twice(
    set: u32,
    function: u32,
    sk: &[u8],
    digest: &[u8],
    ctx: &[u8],
    randomizer: &[u8],
    scratch: &mut [u8],
    sig: &mut [u8],
) -> u32 {
    let of = or_refuse!(set_of(set));
    let by = or_refuse!(function_of(function));
    or_refuse!(judge(&[rules::secret(of, sk)]));
    or_refuse!(judge(&[rules::digest(by, digest)]));
    or_refuse!(randomizer_of(of, randomizer));
    or_refuse!(judge(&[
        rules::output(2 * of.sig_len(), scratch),
        rules::output(of.sig_len(), sig),
        rules::context(ctx),
    ]));
    let (first, second) = scratch.split_at_mut(of.sig_len());
    let are_done = slh_hash_sign_digest(set, function, sk, digest, ctx, randomizer, first) == DONE
        && slh_hash_sign_digest(set, function, sk, digest, ctx, randomizer, second) == DONE;
    let answer = release(are_done, first, second, sig);
    scratch.fill(0);
    answer
}
