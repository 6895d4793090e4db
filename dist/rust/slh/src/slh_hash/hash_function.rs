// Made by tools/plain_rust.py from crates/slh_hash/src/hash_function.rt.
//! The trait of the hash functions over which HMAC, MGF1 and the message hashes run (FIPS 205, section 11.2).

use arrayvec::ArrayVec;
use sha2::{Digest, Sha256, Sha512};

/// The length of the longest block, that of SHA-512.
pub(crate) const MOST_BLOCK_LEN: usize = 128;

/// A digest, of at most 64 bytes.
pub(crate) type DigestBytes = ArrayVec<u8, 64>;

/// SHA-256 or SHA-512, as HMAC, MGF1 and the tweakable hashes use them.
pub(crate) trait HashFunctionOf: Digest {
    /// The length of a block in bytes.
    fn block_len() -> usize;

    /// The length of a digest in bytes.
    fn digest_len() -> usize;

    /// The digest of the message that the hasher holds.
    fn finish(self) -> DigestBytes;
}

impl HashFunctionOf for Sha256 {
    fn block_len() -> usize {
        64
    }

    fn digest_len() -> usize {
        32
    }

    fn finish(self) -> DigestBytes {
        digest_of(&self.finalize())
    }
}

impl HashFunctionOf for Sha512 {
    fn block_len() -> usize {
        128
    }

    fn digest_len() -> usize {
        64
    }

    fn finish(self) -> DigestBytes {
        digest_of(&self.finalize())
    }
}

/// The digest of these bytes.
fn digest_of(bytes: &[u8]) -> DigestBytes {
    let mut digest = DigestBytes::new();
    let _ = digest.try_extend_from_slice(bytes);
    digest
}

/// Adds the parts to the message.
pub(crate) fn absorb<D: Digest>(hasher: &mut D, parts: &[&[u8]]) {
    for part in parts {
        hasher.update(*part);
    }
}
