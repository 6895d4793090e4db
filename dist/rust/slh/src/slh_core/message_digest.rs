// Made by tools/plain_rust.py from crates/slh_core/src/message_digest.rt.
//! The digest of a message, made before it is signed (FIPS 205, section 10.2.2).

use crate::slh_core::pre_hash::PreHash;
use arrayvec::ArrayVec;

/// The digest of a message under a pre-hash function.
pub struct MessageDigest {
    function: PreHash,
    bytes: ArrayVec<u8, 64>,
}

impl MessageDigest {
    /// The digest that has these bytes. `None` if they are not `digest_len` of the function.
    pub fn from_bytes(function: PreHash, bytes: &[u8]) -> Option<MessageDigest> {
        if bytes.len() != function.digest_len() {
            return None;
        }
        Some(MessageDigest::of(function, bytes))
    }

    /// The digest that has these bytes, as many as the function gives.
    pub(crate) fn of(function: PreHash, bytes: &[u8]) -> MessageDigest {
        // For the prover: a digest has at most 64 bytes.
        let _len = function.digest_len();
        let mut copy = ArrayVec::new();
        let _ = copy.try_extend_from_slice(bytes);
        MessageDigest { function, bytes: copy }
    }

    /// A copy of the digest.
    pub(crate) fn copy(&self) -> MessageDigest {
        MessageDigest::of(self.function, self.bytes())
    }

    /// The pre-hash function.
    pub fn function(&self) -> PreHash {
        self.function
    }

    /// The digest as bytes.
    pub fn bytes(&self) -> &[u8] {
        self.bytes.as_slice()
    }
}
