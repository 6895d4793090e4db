// Made by tools/plain_rust.py from crates/slh_c/src/generation.rt.
//! Exports for key generation as jobs, for the caller's own threads (FIPS 205, Algorithm 18).

use crate::slh_c::cuttings::cut_of;
use crate::slh_c::refusal::{DONE, Refusal, or_refuse};
use crate::slh_c::rules::{self, judge};
use crate::slh_jobs::{Levels, key_answer_len, keygen_job, keygen_jobs, keygen_join};

/// Writes the number of jobs of key generation, if the XMSS tree of the top layer is cut by these levels, and the
/// length of an answer in bytes. Refused, with nothing written, by `keygen_jobs_rules`: a number of no set, levels that
/// are not valid.
pub fn slh_keygen_jobs(set: u32, xmss_levels: u32, jobs: &mut u32, answer: &mut usize) -> u32 {
    let levels = or_refuse!(cut_of(set, xmss_levels, 0));
    *jobs = keygen_jobs(&levels);
    *answer = key_answer_len(levels.set);
    DONE
}

/// Writes the answer of a job of the generation of the key of three seeds of n bytes each. Refused, with nothing
/// written, by `keygen_job_rules`: as `slh_keygen_jobs` is, for a number of no job, and for a seed or an output of
/// another length.
pub fn slh_keygen_job(
    set: u32,
    xmss_levels: u32,
    sk_seed: &[u8],
    sk_prf: &[u8],
    pk_seed: &[u8],
    job: u32,
    answer: &mut [u8],
) -> u32 {
    let levels = or_refuse!(cut_of(set, xmss_levels, 0));
    if job >= keygen_jobs(&levels) {
        return Refusal::NoSuchJob.number();
    }
    or_refuse!(judge(&[
        rules::seed(levels.set, sk_seed),
        rules::seed(levels.set, sk_prf),
        rules::seed(levels.set, pk_seed),
        rules::output(key_answer_len(levels.set), answer),
    ]));
    keygen_job(&levels, sk_seed, sk_prf, pk_seed, job, answer);
    DONE
}

/// The levels of the arguments of `slh_keygen_join`. Refused by `keygen_join_rules`.
fn join_levels(
    set: u32,
    xmss_levels: u32,
    sk_seed: &[u8],
    sk_prf: &[u8],
    pk_seed: &[u8],
    answers: &[u8],
    sk: &[u8],
) -> Result<Levels, Refusal> {
    let levels = cut_of(set, xmss_levels, 0)?;
    let answers_len = keygen_jobs(&levels) as usize * key_answer_len(levels.set);
    judge(&[
        rules::seed(levels.set, sk_seed),
        rules::seed(levels.set, sk_prf),
        rules::seed(levels.set, pk_seed),
        rules::output(levels.set.sk_len(), sk),
        rules::has_len(answers, answers_len, Refusal::BadAnswersLength),
    ])?;
    Ok(levels)
}

/// Writes the secret key, 4n bytes, of three seeds of n bytes each, from the answers of all jobs, end to end in the
/// order of the jobs. If each is that of `slh_keygen_job`, these are the bytes of `slh_keygen`. Refused, with nothing
/// written, by `keygen_join_rules`: as `slh_keygen_jobs` is, and for a seed, an output or answers of another length;
/// then if a node does not have its tag.
pub fn slh_keygen_join(
    set: u32,
    xmss_levels: u32,
    sk_seed: &[u8],
    sk_prf: &[u8],
    pk_seed: &[u8],
    answers: &[u8],
    sk: &mut [u8],
) -> u32 {
    let levels = or_refuse!(join_levels(set, xmss_levels, sk_seed, sk_prf, pk_seed, answers, sk));
    match keygen_join(&levels, sk_seed, sk_prf, pk_seed, answers) {
        Ok(key) => {
            sk.copy_from_slice(key.bytes());
            DONE
        }
        Err(_) => Refusal::AnswersDisagree.number(),
    }
}
