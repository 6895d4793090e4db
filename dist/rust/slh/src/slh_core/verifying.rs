// Made by tools/plain_rust.py from crates/slh_core/src/verifying.rt.
//! Verifying a signature of a message that is given in parts (FIPS 205, section 9.3).

use crate::slh_core::comparing::are_same;
use crate::slh_core::digest_parts::{MOST_DIGEST_LEN, digest_indices};
use crate::slh_core::layout::fors_sig_len;
use crate::slh_core::public_key::PublicKey;
use crate::slh_few::{HashContext, ht_root_from_sig};
use crate::slh_hash::h_msg;
use crate::slh_params::Node;

/// The root of the top tree that the FORS and hypertree signatures of a digest give (FIPS 205, Algorithm 20, lines 9 to
/// 17, and Algorithm 13, lines 1 to 12).
fn root_of_parts(pk: &PublicKey, digest: &[u8], sig_fors: &[u8], sig_ht: &[u8]) -> Node {
    let set = pk.set();
    let context = HashContext::new(set, pk.pk_seed());
    let md = &digest[..set.md_len()];
    let indices = digest_indices(set, digest);
    let pk_fors = context.fors_pk_from_sig(indices.idx_tree, indices.idx_leaf, md, sig_fors);
    ht_root_from_sig(&context, indices.idx_tree, indices.idx_leaf, &pk_fors, sig_ht)
}

/// The root of the top tree that a signature gives for a digest (FIPS 205, Algorithm 20, lines 6, 7 and 9 to 17).
fn root_by_digest(pk: &PublicKey, digest: &[u8], sig: &[u8]) -> Node {
    let set = pk.set();
    let (_, rest) = sig.split_at(set.n());
    let (sig_fors, sig_ht) = rest.split_at(fors_sig_len(set));
    root_of_parts(pk, digest, sig_fors, sig_ht)
}

/// Whether a signature gives PK.root for a digest (FIPS 205, Algorithm 20, lines 6, 7 and 9 to 18).
pub(crate) fn verify_by_digest(pk: &PublicKey, digest: &[u8], sig: &[u8]) -> bool {
    let root = root_by_digest(pk, digest, sig);
    are_same(root.as_slice(), pk.pk_root())
}

/// The root of the top tree that a signature gives for the parts put end to end (FIPS 205, Algorithm 20, lines 4 to
/// 17).
pub(crate) fn root_of_signature(parts: &[&[u8]], sig: &[u8], pk: &PublicKey) -> Node {
    let set = pk.set();
    let r = &sig[..set.n()];
    let mut buffer = [0; MOST_DIGEST_LEN];
    let digest = &mut buffer[..set.m()];
    h_msg(set, r, pk.pk_seed(), pk.pk_root(), parts, digest);
    root_by_digest(pk, digest, sig)
}

/// Whether the bytes are a valid signature of the parts put end to end (FIPS 205, Algorithm 20). They may be of any
/// length; if it is not `sig_len`, they are no signature.
pub fn verify_internal(parts: &[&[u8]], sig: &[u8], pk: &PublicKey) -> bool {
    if sig.len() != pk.set().sig_len() {
        return false;
    }
    let root = root_of_signature(parts, sig, pk);
    are_same(root.as_slice(), pk.pk_root())
}
