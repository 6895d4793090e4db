// Made by tools/plain_rust.py from crates/slh_core/src/form.rt.
//! The forms in which a message is signed under a context (FIPS 205, section 10.2), and signing and verifying in each.

use crate::slh_core::fault::SignFault;
use crate::slh_core::formatted_message::{FormattedMessage, MOST_CONTEXT_LEN};
use crate::slh_core::pre_hash::PreHash;
use crate::slh_core::pre_hash_form::pre_hash_digest;
use crate::slh_core::public_key::PublicKey;
use crate::slh_core::randomizer::Randomizer;
use crate::slh_core::secret_key::SecretKey;
use crate::slh_core::signing::sign_internal;
use crate::slh_core::verifying::verify_internal;

/// The form in which a message is signed under a context.
#[derive(Clone, Copy, PartialEq, Eq, Debug)]
pub enum Form {
    /// The message itself (Algorithms 22 and 24).
    Pure,
    /// Its digest under this function (Algorithms 23 and 25).
    PreHash(PreHash),
}

impl Form {
    /// The pre-hash form with this function, or the pure form if there is none.
    pub fn with(prehash: Option<PreHash>) -> Form {
        match prehash {
            None => Form::Pure,
            Some(function) => Form::PreHash(function),
        }
    }

    /// M' of a message in this form, under a context. `None` for a context of over 255 bytes.
    pub fn message<'a>(self, msg: &'a [u8], ctx: &'a [u8]) -> Option<FormattedMessage<'a>> {
        // This saves hashing a message for a context that is refused.
        if ctx.len() > MOST_CONTEXT_LEN {
            return None;
        }
        match self {
            Form::Pure => FormattedMessage::of_message(msg, ctx),
            Form::PreHash(function) => FormattedMessage::of_digest(&pre_hash_digest(msg, function), ctx),
        }
    }

    /// Signs a message in this form, under a context (Algorithms 22 and 23), writing `sig_len` bytes. Refused, with
    /// nothing written, if the context has over 255 bytes.
    pub fn sign(
        self,
        msg: &[u8],
        ctx: &[u8],
        sk: &SecretKey,
        randomizer: Randomizer,
        out: &mut [u8],
    ) -> Result<(), SignFault> {
        let Some(message) = self.message(msg, ctx) else {
            return Err(SignFault::ContextTooLong);
        };
        sign_internal(&message.parts(), sk, randomizer, out);
        Ok(())
    }

    /// Whether the bytes are a valid signature of a message in this form, under a context (Algorithms 24 and 25). False
    /// for a context of over 255 bytes.
    pub fn verify(self, msg: &[u8], ctx: &[u8], sig: &[u8], pk: &PublicKey) -> bool {
        match self.message(msg, ctx) {
            Some(message) => verify_internal(&message.parts(), sig, pk),
            None => false,
        }
    }
}
