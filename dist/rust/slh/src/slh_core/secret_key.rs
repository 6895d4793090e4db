// Made by tools/plain_rust.py from crates/slh_core/src/secret_key.rt.
//! Secret keys (FIPS 205, section 9.1).

use crate::slh_core::fault::KeyFault;
use crate::slh_core::public_key::PublicKey;
use arrayvec::ArrayVec;
use crate::slh_few::{Seeds, SigningContext};
use crate::slh_params::ParamSet;

/// A secret key SK.seed ‖ SK.prf ‖ PK.seed ‖ PK.root of 4n bytes (FIPS 205, section 9.1).
pub struct SecretKey {
    set: ParamSet,
    bytes: ArrayVec<u8, 128>,
}

impl SecretKey {
    /// The key of these bytes. Refused if they are not `sk_len`; whether PK.root belongs to the seeds is not looked at.
    pub fn from_bytes(set: ParamSet, bytes: &[u8]) -> Result<SecretKey, KeyFault> {
        if bytes.len() != set.sk_len() {
            return Err(KeyFault::BadLength);
        }
        let mut copy = ArrayVec::new();
        let _ = copy.try_extend_from_slice(bytes);
        Ok(SecretKey { set, bytes: copy })
    }

    /// The key of these parts, each of n bytes; whether PK.root belongs to the seeds is not looked at.
    pub fn from_parts(set: ParamSet, sk_seed: &[u8], sk_prf: &[u8], pk_seed: &[u8], pk_root: &[u8]) -> SecretKey {
        let mut bytes = ArrayVec::new();
        let _ = bytes.try_extend_from_slice(sk_seed);
        let _ = bytes.try_extend_from_slice(sk_prf);
        let _ = bytes.try_extend_from_slice(pk_seed);
        let _ = bytes.try_extend_from_slice(pk_root);
        SecretKey { set, bytes }
    }

    /// The key's parameter set.
    pub fn set(&self) -> ParamSet {
        self.set
    }

    /// The key as bytes.
    pub fn bytes(&self) -> &[u8] {
        self.bytes.as_slice()
    }

    /// SK.seed, n bytes.
    pub fn sk_seed(&self) -> &[u8] {
        &self.bytes()[..self.set.n()]
    }

    /// SK.prf, n bytes.
    pub fn sk_prf(&self) -> &[u8] {
        let n = self.set.n();
        &self.bytes()[n..2 * n]
    }

    /// PK.seed ‖ PK.root, 2n bytes.
    pub fn public_bytes(&self) -> &[u8] {
        &self.bytes()[2 * self.set.n()..]
    }

    /// PK.seed, n bytes.
    pub fn pk_seed(&self) -> &[u8] {
        &self.public_bytes()[..self.set.n()]
    }

    /// PK.root, n bytes.
    pub fn pk_root(&self) -> &[u8] {
        &self.public_bytes()[self.set.n()..]
    }

    /// SK.seed with the midstates of PK.seed: what the trees of the key are made from.
    pub fn signer(&self) -> SigningContext<'_> {
        let seeds = Seeds { set: self.set, sk_seed: self.sk_seed(), pk_seed: self.pk_seed() };
        SigningContext::new(&seeds)
    }

    /// The public key that belongs to this key.
    pub fn public(&self) -> PublicKey {
        PublicKey::of(self.set, self.public_bytes())
    }
}
