// Made by tools/plain_rust.py from crates/slh_jobs/src/signing.rt.
//! The inputs of the jobs of one signature (FIPS 205, Algorithm 19).

use crate::slh_jobs::levels::Levels;
use crate::slh_jobs::start::is_start;
use crate::slh_core::{SecretKey, digest_indices};
use crate::slh_few::SigningContext;
use crate::slh_subtrees::SigningTrees;

/// The inputs of the jobs of one signature: the key, R and the digest, and the trees of the signature.
pub(crate) struct Signing<'a> {
    pub(crate) levels: Levels,
    pub(crate) sk: &'a SecretKey,
    pub(crate) start: &'a [u8],
    pub(crate) trees: SigningTrees<'a>,
}

impl<'a> Signing<'a> {
    /// The inputs of the jobs of the signature by this key, whose context is `signer`, from the digest after R in
    /// `start`. `None` if `start` does not have its tag under this key.
    pub(crate) fn new(
        levels: &Levels,
        sk: &'a SecretKey,
        signer: &'a SigningContext<'a>,
        start: &'a [u8],
    ) -> Option<Signing<'a>> {
        if is_start(sk, start) { Some(Signing::of_start(levels, sk, signer, start)) } else { None }
    }

    /// The same, of a start that was looked at.
    fn of_start(levels: &Levels, sk: &'a SecretKey, signer: &'a SigningContext<'a>, start: &'a [u8]) -> Signing<'a> {
        let set = levels.set;
        let digest = &start[set.n()..][..set.m()];
        let md = &digest[..set.md_len()];
        let indices = digest_indices(set, digest);
        Signing { levels: *levels, sk, start, trees: SigningTrees::new(signer, indices.idx_tree, indices.idx_leaf, md) }
    }
}
