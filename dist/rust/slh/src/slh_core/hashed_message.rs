// Made by tools/plain_rust.py from crates/slh_core/src/hashed_message.rt.
//! Verifying in the pure form a message that the caller hashes (FIPS 205, sections 10.3 and 11.2).

use crate::slh_core::digest_parts::MOST_DIGEST_LEN;
use crate::slh_core::formatted_message::pure_head;
use crate::slh_core::public_key::PublicKey;
use crate::slh_core::verifying::verify_by_digest;
use crate::slh_hash::{h_msg_by_hash, inner_hash_len};
use crate::slh_params::ParamSet;

/// The length of the front: 3n + 2 bytes, and those of the context.
pub fn front_len(set: ParamSet, ctx: &[u8]) -> usize {
    3 * set.n() + 2 + ctx.len()
}

/// Writes the front: all that the inner hash of H_msg hashes before the message (FIPS 205, Algorithm 24, line 4, and
/// section 11.2). `out` has `front_len` bytes. False, with nothing written, for a context of over 255 bytes, or if the
/// signature is not `sig_len`.
pub fn verify_front(ctx: &[u8], sig: &[u8], pk: &PublicKey, out: &mut [u8]) -> bool {
    let set = pk.set();
    if sig.len() != set.sig_len() {
        return false;
    }
    let Some(head) = pure_head(ctx) else {
        return false;
    };
    let (r, _) = sig.split_at(set.n());
    let (r_out, rest) = out.split_at_mut(set.n());
    let (seed_out, rest) = rest.split_at_mut(set.n());
    let (root_out, rest) = rest.split_at_mut(set.n());
    let (head_out, ctx_out) = rest.split_at_mut(2);
    r_out.copy_from_slice(r);
    seed_out.copy_from_slice(pk.pk_seed());
    root_out.copy_from_slice(pk.pk_root());
    head_out.copy_from_slice(&head);
    ctx_out.copy_from_slice(ctx);
    true
}

/// Whether a signature gives PK.root by this inner hash.
fn gives_root(hash: &[u8], sig: &[u8], pk: &PublicKey) -> bool {
    let set = pk.set();
    let r = &sig[..set.n()];
    let mut buffer = [0; MOST_DIGEST_LEN];
    let digest = &mut buffer[..set.m()];
    h_msg_by_hash(set, r, pk.pk_seed(), hash, digest);
    verify_by_digest(pk, digest, sig)
}

/// Whether the bytes are a valid signature by this inner hash.
fn is_valid_by_hash(hash: &[u8], sig: &[u8], pk: &PublicKey) -> bool {
    let set = pk.set();
    hash.len() == inner_hash_len(set) && sig.len() == set.sig_len() && gives_root(hash, sig, pk)
}

/// Whether the bytes are a valid signature of a message by its inner hash, which is the hash of the front and the
/// message (FIPS 205, Algorithm 24 after this hash). False if the hash is not `inner_hash_len`, or the signature not
/// `sig_len`.
pub fn verify_hashed(hash: &[u8], sig: &[u8], pk: &PublicKey) -> bool {
    is_valid_by_hash(hash, sig, pk)
}
