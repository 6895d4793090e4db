// Made by tools/plain_rust.py from crates/slh_c/src/jobs.rt.
//! Exports for a signature as jobs, for the caller's own threads: the number of jobs, and the work of each (ours).

use crate::slh_c::cuttings::cut_of;
use crate::slh_c::keys::secret_key;
use crate::slh_c::numbers::{function_of, set_of};
use crate::slh_c::randomizer::randomizer_of;
use crate::slh_c::refusal::{DONE, Refusal, or_refuse};
use crate::slh_c::rules::{self, judge};
use crate::slh_core::{Form, SecretKey, SignFault};
use crate::slh_jobs::{Levels, answer_len, answer_start, answers_len, sign_job, sign_jobs, sign_start, start_len};

/// Writes the number of jobs of a signature, if its XMSS trees and its FORS trees are cut by these levels. Writes also
/// the length of a start and that of the answers of all jobs, in bytes. Refused, with nothing written, by
/// `sign_jobs_rules`: a number of no set, levels that are not valid.
pub fn slh_sign_jobs(
    set: u32,
    xmss_levels: u32,
    fors_levels: u32,
    count: &mut u32,
    start: &mut usize,
    answers: &mut usize,
) -> u32 {
    let levels = or_refuse!(cut_of(set, xmss_levels, fors_levels));
    *count = sign_jobs(&levels);
    *start = start_len(levels.set);
    *answers = answers_len(&levels);
    DONE
}

/// Writes the place of a job's answer among the answers of all jobs, and its length, in bytes. Refused, with nothing
/// written, by `answer_rules`: as `slh_sign_jobs` is, and for a number of no job.
pub fn slh_answer_place(
    set: u32,
    xmss_levels: u32,
    fors_levels: u32,
    job: u32,
    at: &mut usize,
    len: &mut usize,
) -> u32 {
    let levels = or_refuse!(cut_of(set, xmss_levels, fors_levels));
    if job >= sign_jobs(&levels) {
        return Refusal::NoSuchJob.number();
    }
    *at = answer_start(&levels, job);
    *len = answer_len(&levels, job);
    DONE
}

/// Begins the signature of a message under a context (FIPS 205, Algorithm 22): writes R, the digest of M' and their tag
/// under this key, `start_len` bytes. The other lengths are those of `slh_sign`. Refused, with nothing written, by
/// `sign_start_rules`: as `slh_sign` is.
pub fn slh_sign_start(set: u32, sk: &[u8], msg: &[u8], ctx: &[u8], randomizer: &[u8], start: &mut [u8]) -> u32 {
    let set = or_refuse!(set_of(set));
    let sk = or_refuse!(secret_key(set, sk));
    let randomizer = or_refuse!(randomizer_of(set, randomizer));
    or_refuse!(judge(&[rules::output(start_len(set), start)]));
    match sign_start(Form::Pure, msg, ctx, &sk, randomizer, start) {
        Ok(()) => DONE,
        Err(SignFault::ContextTooLong) => Refusal::ContextTooLong.number(),
    }
}

/// Begins the signature of a message by its digest under a pre-hash function, and under a context (FIPS 205, Algorithm
/// 23): writes R, the digest of M' and their tag under this key, `start_len` bytes. The other lengths are those of
/// `slh_hash_sign`. Refused, with nothing written, by `hash_sign_start_rules`: as `slh_hash_sign` is.
pub fn slh_hash_sign_start(
    set: u32,
    function: u32,
    sk: &[u8],
    msg: &[u8],
    ctx: &[u8],
    randomizer: &[u8],
    start: &mut [u8],
) -> u32 {
    let set = or_refuse!(set_of(set));
    let function = or_refuse!(function_of(function));
    let sk = or_refuse!(secret_key(set, sk));
    let randomizer = or_refuse!(randomizer_of(set, randomizer));
    or_refuse!(judge(&[rules::output(start_len(set), start)]));
    match sign_start(Form::PreHash(function), msg, ctx, &sk, randomizer, start) {
        Ok(()) => DONE,
        Err(SignFault::ContextTooLong) => Refusal::ContextTooLong.number(),
    }
}

/// The levels and the secret key of the arguments of `slh_sign_job`. Refused by `sign_job_rules`.
fn job_arguments(
    set: u32,
    xmss_levels: u32,
    fors_levels: u32,
    sk: &[u8],
    start: &[u8],
    job: u32,
    answer: &[u8],
) -> Result<(Levels, SecretKey), Refusal> {
    let levels = cut_of(set, xmss_levels, fors_levels)?;
    if job >= sign_jobs(&levels) {
        return Err(Refusal::NoSuchJob);
    }
    let sk = secret_key(levels.set, sk)?;
    judge(&[rules::begun(levels.set, start), rules::output(answer_len(&levels, job), answer)])?;
    Ok((levels, sk))
}

/// Writes the answer of a job of the signature that `start` begins. Refused, with nothing written, by `sign_job_rules`:
/// as `slh_answer_place` is, and for a key, a start or an output of another length; then if the start does not have its
/// tag under this key.
pub fn slh_sign_job(
    set: u32,
    xmss_levels: u32,
    fors_levels: u32,
    sk: &[u8],
    start: &[u8],
    job: u32,
    answer: &mut [u8],
) -> u32 {
    let (levels, sk) = or_refuse!(job_arguments(set, xmss_levels, fors_levels, sk, start, job, answer));
    match sign_job(&levels, &sk, start, job, answer) {
        Ok(()) => DONE,
        Err(_) => Refusal::BadStart.number(),
    }
}
