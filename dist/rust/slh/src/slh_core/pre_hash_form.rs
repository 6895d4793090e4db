// Made by tools/plain_rust.py from crates/slh_core/src/pre_hash_form.rt.
//! Signing and verifying a message by its digest (FIPS 205, sections 10.2.2 and 10.3).

use crate::slh_core::fault::SignFault;
use crate::slh_core::form::Form;
use crate::slh_core::formatted_message::FormattedMessage;
use crate::slh_core::message_digest::MessageDigest;
use crate::slh_core::pre_hash::PreHash;
use crate::slh_core::pre_hasher::PreHasher;
use crate::slh_core::public_key::PublicKey;
use crate::slh_core::randomizer::Randomizer;
use crate::slh_core::secret_key::SecretKey;
use crate::slh_core::signing::sign_internal;
use crate::slh_core::verifying::verify_internal;

/// Signs a message by its digest, under a context (FIPS 205, Algorithm 23 after its pre-hash), writing `sig_len` bytes.
/// Refused, with nothing written, if the context has over 255 bytes.
pub fn hash_sign_digest(
    digest: &MessageDigest,
    ctx: &[u8],
    sk: &SecretKey,
    randomizer: Randomizer,
    out: &mut [u8],
) -> Result<(), SignFault> {
    let Some(message) = FormattedMessage::of_digest(digest, ctx) else {
        return Err(SignFault::ContextTooLong);
    };
    sign_internal(&message.parts(), sk, randomizer, out);
    Ok(())
}

/// The digest of a message under `function`.
pub fn pre_hash_digest(msg: &[u8], function: PreHash) -> MessageDigest {
    let mut hasher = PreHasher::new(function);
    hasher.update(msg);
    hasher.finish()
}

/// Signs a message by its digest under `function`, and under a context (FIPS 205, Algorithm 23), writing `sig_len`
/// bytes. Refused, with nothing written, if the context has over 255 bytes.
pub fn hash_sign(
    msg: &[u8],
    ctx: &[u8],
    function: PreHash,
    sk: &SecretKey,
    randomizer: Randomizer,
    out: &mut [u8],
) -> Result<(), SignFault> {
    Form::PreHash(function).sign(msg, ctx, sk, randomizer, out)
}

/// Whether the bytes are a valid signature of a message that has this digest, under a context (FIPS 205,
/// Algorithm 25 after its pre-hash). False for a context of over 255 bytes.
pub fn hash_verify_digest(digest: &MessageDigest, ctx: &[u8], sig: &[u8], pk: &PublicKey) -> bool {
    match FormattedMessage::of_digest(digest, ctx) {
        Some(message) => verify_internal(&message.parts(), sig, pk),
        None => false,
    }
}

/// Whether the bytes are a valid signature of a message by its digest under `function`, and under a context
/// (FIPS 205, Algorithm 25). False for a context of over 255 bytes.
pub fn hash_verify(msg: &[u8], ctx: &[u8], function: PreHash, sig: &[u8], pk: &PublicKey) -> bool {
    Form::PreHash(function).verify(msg, ctx, sig, pk)
}
