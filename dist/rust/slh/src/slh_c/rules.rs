// Made by tools/plain_rust.py from crates/slh_c/src/rules.rt.
//! The rules that the calls check of their arguments, in the order of `specs/Rules` (ours).

use crate::slh_c::refusal::Refusal;
use crate::slh_core::{PreHash, inner_hash_len};
use crate::slh_jobs::start_len;
use crate::slh_params::ParamSet;

/// A condition on an argument, and the refusal if it does not hold.
#[derive(Clone, Copy)]
pub struct Rule {
    pub is_met: bool,
    pub refusal: Refusal,
}

/// The refusal of the first rule that is not met.
pub(crate) fn judge(rules: &[Rule]) -> Result<(), Refusal> {
    for rule in rules {
        if !rule.is_met {
            return Err(rule.refusal);
        }
    }
    Ok(())
}

/// That bytes have this length.
pub(crate) fn has_len(bytes: &[u8], len: usize, refusal: Refusal) -> Rule {
    Rule { is_met: bytes.len() == len, refusal }
}

/// That a secret key has 4n bytes.
pub(crate) fn secret(set: ParamSet, sk: &[u8]) -> Rule {
    has_len(sk, set.sk_len(), Refusal::BadLength)
}

/// That a digest has the length of the function's digests.
pub(crate) fn digest(function: PreHash, bytes: &[u8]) -> Rule {
    has_len(bytes, function.digest_len(), Refusal::BadDigestLength)
}

/// That an inner hash of H_msg has the length of the set's.
pub(crate) fn inner_hash(set: ParamSet, bytes: &[u8]) -> Rule {
    has_len(bytes, inner_hash_len(set), Refusal::BadDigestLength)
}

/// That a context has at most 255 bytes.
pub(crate) fn context(ctx: &[u8]) -> Rule {
    Rule { is_met: ctx.len() <= 255, refusal: Refusal::ContextTooLong }
}

/// That a seed has n bytes.
pub(crate) fn seed(set: ParamSet, bytes: &[u8]) -> Rule {
    has_len(bytes, set.n(), Refusal::BadSeedLength)
}

/// That an output has this length.
pub(crate) fn output(len: usize, out: &[u8]) -> Rule {
    has_len(out, len, Refusal::BadOutputLength)
}

/// That a start has the length of the set's.
pub(crate) fn begun(set: ParamSet, start: &[u8]) -> Rule {
    has_len(start, start_len(set), Refusal::BadStartLength)
}
