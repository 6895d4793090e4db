// Made by tools/plain_rust.py from crates/slh_core/src/pure_form.rt.
//! Signing and verifying a message itself (FIPS 205, sections 10.2.1 and 10.3).

use crate::slh_core::fault::SignFault;
use crate::slh_core::form::Form;
use crate::slh_core::public_key::PublicKey;
use crate::slh_core::randomizer::Randomizer;
use crate::slh_core::secret_key::SecretKey;

/// Signs a message under a context (FIPS 205, Algorithm 22), writing `sig_len` bytes. Refused, with nothing written, if
/// the context has over 255 bytes.
pub fn sign(msg: &[u8], ctx: &[u8], sk: &SecretKey, randomizer: Randomizer, out: &mut [u8]) -> Result<(), SignFault> {
    Form::Pure.sign(msg, ctx, sk, randomizer, out)
}

/// Whether the bytes are a valid signature of a message under a context (FIPS 205, Algorithm 24). False for
/// a context of over 255 bytes.
pub fn verify(msg: &[u8], ctx: &[u8], sig: &[u8], pk: &PublicKey) -> bool {
    Form::Pure.verify(msg, ctx, sig, pk)
}
