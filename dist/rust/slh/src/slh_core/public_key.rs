// Made by tools/plain_rust.py from crates/slh_core/src/public_key.rt.
//! Public keys (FIPS 205, section 9.1).

use crate::slh_core::fault::KeyFault;
use arrayvec::ArrayVec;
use crate::slh_params::ParamSet;

/// A public key PK.seed ‖ PK.root of 2n bytes (FIPS 205, section 9.1).
pub struct PublicKey {
    set: ParamSet,
    bytes: ArrayVec<u8, 64>,
}

impl PublicKey {
    /// The key of these bytes. Refused if they are not `pk_len`.
    pub fn from_bytes(set: ParamSet, bytes: &[u8]) -> Result<PublicKey, KeyFault> {
        if bytes.len() != set.pk_len() {
            return Err(KeyFault::BadLength);
        }
        Ok(PublicKey::of(set, bytes))
    }

    /// The key of these bytes, as many as the set asks for.
    pub(crate) fn of(set: ParamSet, bytes: &[u8]) -> PublicKey {
        let mut copy = ArrayVec::new();
        let _ = copy.try_extend_from_slice(bytes);
        PublicKey { set, bytes: copy }
    }

    /// The key's parameter set.
    pub fn set(&self) -> ParamSet {
        self.set
    }

    /// The key as bytes.
    pub fn bytes(&self) -> &[u8] {
        self.bytes.as_slice()
    }

    /// PK.seed, n bytes.
    pub fn pk_seed(&self) -> &[u8] {
        &self.bytes()[..self.set.n()]
    }

    /// PK.root, n bytes.
    pub fn pk_root(&self) -> &[u8] {
        &self.bytes()[self.set.n()..]
    }
}
