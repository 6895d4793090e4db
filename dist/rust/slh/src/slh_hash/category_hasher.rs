// Made by tools/plain_rust.py from crates/slh_hash/src/category_hasher.rt.
//! The running hash of a security category: SHA-256 or SHA-512 (FIPS 205, section 11.2).

use crate::slh_hash::hash_function::{DigestBytes, HashFunctionOf};
use crate::slh_hash::mgf1::{mgf1_sha256, mgf1_sha512};
use crate::slh_hash::tweakable::truncated;
use sha2::{Digest, Sha256, Sha512};
use crate::slh_params::{Node, ParamSet};

/// The hash function of H, T_l and H_msg, and of HMAC in pieces: SHA-256 where n is 16, which is category 1, else
/// SHA-512.
pub(crate) enum CategoryHasher {
    Short(Sha256),
    Long(Sha512),
}

impl CategoryHasher {
    /// The hasher of the set's category, before any byte.
    pub(crate) fn new(set: ParamSet) -> Self {
        if set.n() == 16 { CategoryHasher::Short(Sha256::new()) } else { CategoryHasher::Long(Sha512::new()) }
    }

    /// Adds the bytes to the message.
    pub(crate) fn update(&mut self, bytes: &[u8]) {
        match self {
            CategoryHasher::Short(hasher) => hasher.update(bytes),
            CategoryHasher::Long(hasher) => hasher.update(bytes),
        }
    }

    /// A copy of the hasher.
    pub(crate) fn copy(&self) -> Self {
        match self {
            CategoryHasher::Short(hasher) => {
                let copy = hasher.clone();
                CategoryHasher::Short(copy)
            }
            CategoryHasher::Long(hasher) => {
                let copy = hasher.clone();
                CategoryHasher::Long(copy)
            }
        }
    }

    /// The digest.
    pub(crate) fn digest(self) -> DigestBytes {
        match self {
            CategoryHasher::Short(hasher) => hasher.finish(),
            CategoryHasher::Long(hasher) => hasher.finish(),
        }
    }

    /// MGF1 of R, PK.seed and the digest, put end to end: as many bytes as `out` has.
    pub(crate) fn put_mgf1(self, r: &[u8], pk_seed: &[u8], out: &mut [u8]) {
        match self {
            CategoryHasher::Short(hasher) => mgf1_sha256(&[r, pk_seed, &hasher.finalize()], out),
            CategoryHasher::Long(hasher) => mgf1_sha512(&[r, pk_seed, &hasher.finalize()], out),
        }
    }

    /// The first n bytes of the digest.
    pub(crate) fn finish(self, n: usize) -> Node {
        match self {
            CategoryHasher::Short(hasher) => truncated(&hasher.finalize(), n),
            CategoryHasher::Long(hasher) => truncated(&hasher.finalize(), n),
        }
    }
}
