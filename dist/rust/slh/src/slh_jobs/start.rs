// Made by tools/plain_rust.py from crates/slh_jobs/src/start.rt.
//! The start of a signature: R, the digest of the message, and their tag (FIPS 205, Algorithm 19, lines 2 to 5).

use crate::slh_jobs::tag::start_tag;
use arrayvec::ArrayVec;
use crate::slh_core::signing_steps::{MOST_DIGEST_LEN, randomized_digest};
use crate::slh_core::{Form, Randomizer, SecretKey, SignFault, are_same};
use crate::slh_params::ParamSet;

/// No start is longer, in any set: R, a digest and a tag.
pub const MOST_START_LEN: usize = 32 + MOST_DIGEST_LEN + 32;

/// The length of a start, in bytes: 2n + m.
pub fn start_len(set: ParamSet) -> usize {
    begun_len(set) + set.n()
}

/// The length of R and a digest.
fn begun_len(set: ParamSet) -> usize {
    set.n() + set.m()
}

/// A copy of a start.
pub(crate) type StartCopy = ArrayVec<u8, MOST_START_LEN>;

/// A copy of a start. A call that checks a start and then uses it reads one copy for both, so that nobody can change it
/// in between.
pub(crate) fn copy_of_start(start: &[u8]) -> StartCopy {
    let mut copy = StartCopy::new();
    let _ = copy.try_extend_from_slice(start);
    copy
}

/// Whether the bytes end with the tag of those before the tag.
pub(crate) fn is_start(sk: &SecretKey, start: &[u8]) -> bool {
    let (begun, tag) = start.split_at(begun_len(sk.set()));
    are_same(start_tag(sk, begun).as_slice(), tag)
}

/// Writes R and the digest of the parts put end to end.
fn put_begun(parts: &[&[u8]], sk: &SecretKey, randomizer: Randomizer, begun: &mut [u8]) {
    let (front, digest) = begun.split_at_mut(sk.set().n());
    let r = randomized_digest(parts, sk, randomizer, digest);
    front.copy_from_slice(&r);
}

/// Writes R and the digest of the parts put end to end, and their tag.
fn start_parts(parts: &[&[u8]], sk: &SecretKey, randomizer: Randomizer, start: &mut [u8]) {
    let (begun, tag) = start.split_at_mut(begun_len(sk.set()));
    put_begun(parts, sk, randomizer, begun);
    tag.copy_from_slice(&start_tag(sk, begun));
}

/// Begins the signature of a message in a form, under a context (FIPS 205, Algorithms 22 and 23): writes R, the digest
/// of M' and their tag under this key, `start_len` bytes, which all jobs of this signature are given. They are no
/// secrets: R is a part of the signature, the digest follows from it, and the tag is sent beside them. But the message
/// that they state is signed. Refused, with nothing written, if the context has over 255 bytes.
pub fn sign_start(
    form: Form,
    msg: &[u8],
    ctx: &[u8],
    sk: &SecretKey,
    randomizer: Randomizer,
    start: &mut [u8],
) -> Result<(), SignFault> {
    let Some(message) = form.message(msg, ctx) else {
        return Err(SignFault::ContextTooLong);
    };
    start_parts(&message.parts(), sk, randomizer, start);
    Ok(())
}
