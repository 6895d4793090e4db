// Made by tools/plain_rust.py from crates/slh_core/src/signing.rt.
//! Signing a message that is given in parts (FIPS 205, section 9.2).

use crate::slh_core::digest_parts::{MOST_DIGEST_LEN, digest_indices};
use crate::slh_core::layout::fors_sig_len;
use crate::slh_core::randomizer::Randomizer;
use crate::slh_core::secret_key::SecretKey;
use crate::slh_hash::{h_msg, prf_msg};
use crate::slh_params::Node;

/// Writes what follows R in the signature of a digest (FIPS 205, Algorithm 19, lines 6 to 18).
fn sign_digest(sk: &SecretKey, digest: &[u8], out: &mut [u8]) {
    let set = sk.set();
    let signer = sk.signer();
    let md = &digest[..set.md_len()];
    let indices = digest_indices(set, digest);
    let (sig_fors, sig_ht) = out.split_at_mut(fors_sig_len(set));
    let (idx_tree, idx_leaf) = (indices.idx_tree, indices.idx_leaf);
    signer.fors_sign(idx_tree, idx_leaf, md, sig_fors);
    let pk_fors = signer.public.fors_pk_from_sig(idx_tree, idx_leaf, md, sig_fors);
    signer.ht_sign(idx_tree, idx_leaf, &pk_fors, sig_ht);
}

/// R for the message of the parts put end to end, n bytes; its digest of m bytes under R is written into
/// `digest` (FIPS 205, Algorithm 19, lines 2 to 5).
pub fn randomized_digest(parts: &[&[u8]], sk: &SecretKey, randomizer: Randomizer, digest: &mut [u8]) -> Node {
    let set = sk.set();
    let opt_rand = randomizer.opt_rand(sk.pk_seed());
    let r = prf_msg(set, sk.sk_prf(), opt_rand, parts);
    h_msg(set, r.as_slice(), sk.pk_seed(), sk.pk_root(), parts, digest);
    r
}

/// Writes the signature of the parts put end to end, `sig_len` bytes (FIPS 205, Algorithm 19).
pub fn sign_internal(parts: &[&[u8]], sk: &SecretKey, randomizer: Randomizer, out: &mut [u8]) {
    let set = sk.set();
    let mut buffer = [0; MOST_DIGEST_LEN];
    let digest = &mut buffer[..set.m()];
    let r = randomized_digest(parts, sk, randomizer, digest);
    let (front, rest) = out.split_at_mut(set.n());
    front.copy_from_slice(r.as_slice());
    sign_digest(sk, digest, rest);
}
