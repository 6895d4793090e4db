// Made by tools/plain_rust.py from crates/slh_hash/src/message.rt.
//! The message hashes PRF_msg and H_msg (FIPS 205, section 11.2).

use crate::slh_hash::category_hasher::CategoryHasher;
use crate::slh_hash::category_hmac::CategoryHmac;
use crate::slh_hash::mgf1::{mgf1_sha256, mgf1_sha512};
use crate::slh_params::{Node, ParamSet};

/// PRF_msg (FIPS 205, section 11.2): R of a message, whose bytes are the parts put end to end.
pub fn prf_msg(set: ParamSet, sk_prf: &[u8], opt_rand: &[u8], parts: &[&[u8]]) -> Node {
    let mut keyed = CategoryHmac::new(set, sk_prf);
    keyed.update(opt_rand);
    keyed.absorb(parts);
    keyed.finish()
}

/// H_msg (section 11.2) of a message that comes in pieces, none of which is held.
///
/// Contracts see it by the relation `HasMessage`.
pub struct HMsg<'a> {
    r: &'a [u8],
    pk_seed: &'a [u8],
    inner: CategoryHasher,
}

impl<'a> HMsg<'a> {
    /// H_msg under R and a public key, of the empty message.
    pub fn new(set: ParamSet, r: &'a [u8], pk_seed: &'a [u8], pk_root: &[u8]) -> HMsg<'a> {
        let mut inner = CategoryHasher::new(set);
        inner.update(r);
        inner.update(pk_seed);
        inner.update(pk_root);
        HMsg { r, pk_seed, inner }
    }

    /// Adds a piece to the end of the message.
    pub fn update(&mut self, piece: &[u8]) {
        self.inner.update(piece);
    }

    /// Writes the digest of the pieces put end to end: H_msg if `out` has m bytes, else as many bytes of that MGF1 as
    /// `out` has.
    pub fn finish(self, out: &mut [u8]) {
        let HMsg { r, pk_seed, inner } = self;
        inner.put_mgf1(r, pk_seed, out);
    }
}

/// H_msg (section 11.2): the digest of a message, whose bytes are the parts put end to end. `out` has m bytes.
pub fn h_msg(set: ParamSet, r: &[u8], pk_seed: &[u8], pk_root: &[u8], parts: &[&[u8]], out: &mut [u8]) {
    let mut hash = HMsg::new(set, r, pk_seed, pk_root);
    for part in parts {
        hash.update(part);
    }
    hash.finish(out);
}

/// The length of the inner hash of H_msg (section 11.2): 32 bytes of SHA-256 if n is 16, else 64 of SHA-512.
pub fn inner_hash_len(set: ParamSet) -> usize {
    if set.n() == 16 { 32 } else { 64 }
}

/// H_msg (section 11.2) by its inner hash, which is the hash of R, PK.seed, PK.root and the message put end to end.
/// `out` has m bytes.
pub fn h_msg_by_hash(set: ParamSet, r: &[u8], pk_seed: &[u8], hash: &[u8], out: &mut [u8]) {
    if set.n() == 16 {
        mgf1_sha256(&[r, pk_seed, hash], out);
    } else {
        mgf1_sha512(&[r, pk_seed, hash], out);
    }
}
