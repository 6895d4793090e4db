// Made by tools/plain_rust.py from crates/slh_c/src/joining.rt.
//! The export that joins the answers of all jobs to the signature (FIPS 205, Algorithms 22 and 23).

use crate::slh_c::cuttings::cut_of;
use crate::slh_c::keys::secret_key;
use crate::slh_c::refusal::{DONE, Refusal, or_refuse};
use crate::slh_c::rules::{self, judge};
use crate::slh_core::SecretKey;
use crate::slh_jobs::{JobFault, Levels, answers_len, sign_join};

/// The levels and the secret key of the arguments of `slh_sign_join`. Refused by `sign_join_rules`.
fn join_arguments(
    set: u32,
    xmss_levels: u32,
    fors_levels: u32,
    sk: &[u8],
    start: &[u8],
    answers: &[u8],
    sig: &[u8],
) -> Result<(Levels, SecretKey), Refusal> {
    let levels = cut_of(set, xmss_levels, fors_levels)?;
    let sk = secret_key(levels.set, sk)?;
    judge(&[
        rules::begun(levels.set, start),
        rules::output(levels.set.sig_len(), sig),
        rules::has_len(answers, answers_len(&levels), Refusal::BadAnswersLength),
    ])?;
    Ok((levels, sk))
}

/// Writes the signature that `start` begins, `sig_len` bytes, from the answers of all its jobs, end to end in the order
/// of the jobs. If each is that of `slh_sign_job`, these are the bytes of `slh_sign` or `slh_hash_sign`. For any
/// answers, the written bytes are a valid signature of the message of `start`, under this key. Refused, with nothing
/// written, by `sign_join_rules`: a number of no set, levels that are not valid, a key, a start, an output or answers
/// of another length. Then it is refused if the start does not have its tag under this key, and then if the answers
/// don't fit together. Right answers don't, either, under a key whose PK.root is not the root that its seeds give.
pub fn slh_sign_join(
    set: u32,
    xmss_levels: u32,
    fors_levels: u32,
    sk: &[u8],
    start: &[u8],
    answers: &[u8],
    sig: &mut [u8],
) -> u32 {
    let (levels, sk) = or_refuse!(join_arguments(set, xmss_levels, fors_levels, sk, start, answers, sig,));
    match sign_join(&levels, &sk, start, answers, sig) {
        Ok(()) => DONE,
        Err(JobFault::BadAnswersLength) => Refusal::BadAnswersLength.number(),
        Err(JobFault::BadStart) => Refusal::BadStart.number(),
        Err(JobFault::AnswersDisagree) => Refusal::AnswersDisagree.number(),
    }
}
