// Made by tools/plain_rust.py from crates/slh_c_verify/src/keys.rt.
//! The public key of the bytes that a caller passes (FIPS 205, section 9.1).

use crate::slh_c_verify::refusal::Refusal;
use crate::slh_core::PublicKey;
use crate::slh_params::ParamSet;

/// The public key of these bytes. Refused if they are not 2n.
pub fn public_key(set: ParamSet, pk: &[u8]) -> Result<PublicKey, Refusal> {
    match PublicKey::from_bytes(set, pk) {
        Ok(pk) => Ok(pk),
        Err(_) => Err(Refusal::BadLength),
    }
}
