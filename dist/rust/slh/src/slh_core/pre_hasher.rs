// Made by tools/plain_rust.py from crates/slh_core/src/pre_hasher.rt.
//! The running hash of a message that comes in pieces (FIPS 205, section 10.2.2).

use crate::slh_core::message_digest::MessageDigest;
use crate::slh_core::pre_hash::PreHash;
use sha2::{Digest, Sha224, Sha256, Sha384, Sha512, Sha512_224, Sha512_256};

/// The running hash of each function.
enum Hasher {
    Of224(Sha224),
    Of256(Sha256),
    Of384(Sha384),
    Of512(Sha512),
    Of512_224(Sha512_224),
    Of512_256(Sha512_256),
}

/// Hashes a message that comes in pieces, before it is signed.
pub struct PreHasher {
    state: Hasher,
}

impl PreHasher {
    /// A hasher of the empty message.
    pub fn new(function: PreHash) -> Self {
        let state = match function {
            PreHash::Sha224 => Hasher::Of224(Sha224::new()),
            PreHash::Sha256 => Hasher::Of256(Sha256::new()),
            PreHash::Sha384 => Hasher::Of384(Sha384::new()),
            PreHash::Sha512 => Hasher::Of512(Sha512::new()),
            PreHash::Sha512_224 => Hasher::Of512_224(Sha512_224::new()),
            PreHash::Sha512_256 => Hasher::Of512_256(Sha512_256::new()),
        };
        PreHasher { state }
    }

    /// Adds a piece to the end of the message.
    pub fn update(&mut self, piece: &[u8]) {
        match &mut self.state {
            Hasher::Of224(hasher) => hasher.update(piece),
            Hasher::Of256(hasher) => hasher.update(piece),
            Hasher::Of384(hasher) => hasher.update(piece),
            Hasher::Of512(hasher) => hasher.update(piece),
            Hasher::Of512_224(hasher) => hasher.update(piece),
            Hasher::Of512_256(hasher) => hasher.update(piece),
        }
    }

    /// The digest of the pieces put end to end.
    pub fn finish(self) -> MessageDigest {
        let PreHasher { state } = self;
        match state {
            Hasher::Of224(hasher) => MessageDigest::of(PreHash::Sha224, &hasher.finalize()),
            Hasher::Of256(hasher) => MessageDigest::of(PreHash::Sha256, &hasher.finalize()),
            Hasher::Of384(hasher) => MessageDigest::of(PreHash::Sha384, &hasher.finalize()),
            Hasher::Of512(hasher) => MessageDigest::of(PreHash::Sha512, &hasher.finalize()),
            Hasher::Of512_224(hasher) => MessageDigest::of(PreHash::Sha512_224, &hasher.finalize()),
            Hasher::Of512_256(hasher) => MessageDigest::of(PreHash::Sha512_256, &hasher.finalize()),
        }
    }
}
