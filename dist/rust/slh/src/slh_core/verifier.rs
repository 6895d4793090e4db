// Made by tools/plain_rust.py from crates/slh_core/src/verifier.rt.
//! Verifying a message in the pure form that comes in pieces (FIPS 205, section 10.3).

use crate::slh_core::digest_parts::MOST_DIGEST_LEN;
use crate::slh_core::formatted_message::pure_head;
use crate::slh_core::public_key::PublicKey;
use crate::slh_core::verifying::verify_by_digest;
use crate::slh_hash::HMsg;

/// Verifies a message in the pure form that comes in pieces, none of which is held.
///
/// Contracts see it by the relation `IsVerifierOf`.
pub struct Verifier<'a> {
    pk: &'a PublicKey,
    sig: &'a [u8],
    hash: Option<HMsg<'a>>,
}

impl<'a> Verifier<'a> {
    /// A verifier of the empty message. The signature comes first, since H_msg hashes its R first.
    pub fn new(ctx: &[u8], sig: &'a [u8], pk: &'a PublicKey) -> Verifier<'a> {
        let hash = begun(ctx, sig, pk);
        Verifier { pk, sig, hash }
    }

    /// Adds a piece to the end of the message.
    pub fn update(&mut self, piece: &[u8]) {
        if let Some(hash) = &mut self.hash {
            hash.update(piece);
        }
    }

    /// Whether the signature is valid for the pieces put end to end under the context (FIPS 205, Algorithm 24), as by
    /// `verify`. It is false if the signature has another length than the set's, or the context has over 255 bytes.
    pub fn finish(self) -> bool {
        let Verifier { pk, sig, hash } = self;
        let Some(hash) = hash else {
            return false;
        };
        let set = pk.set();
        if sig.len() != set.sig_len() {
            return false;
        }
        let mut buffer = [0; MOST_DIGEST_LEN];
        let digest = &mut buffer[..set.m()];
        hash.finish(digest);
        verify_by_digest(pk, digest, sig)
    }
}

/// H_msg after all that stands before the message: R, PK.seed, PK.root, and the head of M' with the context. `None` for
/// a context of over 255 bytes. Of a signature shorter than R all is hashed: it is invalid anyway.
fn begun<'a>(ctx: &[u8], sig: &'a [u8], pk: &'a PublicKey) -> Option<HMsg<'a>> {
    let head = pure_head(ctx)?;
    let r = &sig[..pk.set().n().min(sig.len())];
    let mut hash = HMsg::new(pk.set(), r, pk.pk_seed(), pk.pk_root());
    hash.update(&head);
    hash.update(ctx);
    Some(hash)
}
