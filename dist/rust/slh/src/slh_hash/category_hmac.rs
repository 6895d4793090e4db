// Made by tools/plain_rust.py from crates/slh_hash/src/category_hmac.rt.
//! HMAC (FIPS 198-1) with the hash function of a security category, whose text comes in pieces.

use crate::slh_hash::category_hasher::CategoryHasher;
use crate::slh_hash::hash_function::DigestBytes;
use crate::slh_hash::hmac::{Block, key_block, xor_each};
use sha2::{Sha256, Sha512};
use crate::slh_params::{Node, ParamSet};

/// HMAC with the hash function of the set's category (FIPS 205, section 11.2), under one key, after some of its text.
///
/// A copy goes on from the same place, so that a key or the front of a text that many texts share is hashed once.
/// Contracts see it by the relation `IsKeyed`.
pub struct CategoryHmac {
    set: ParamSet,
    inner: CategoryHasher,
    outer: CategoryHasher,
}

impl CategoryHmac {
    /// HMAC under a key of any length, before any text.
    pub fn new(set: ParamSet, key: &[u8]) -> Self {
        let block = category_key_block(set, key);
        let mut inner = CategoryHasher::new(set);
        inner.update(xor_each(&block, 0x36).as_slice());
        let mut outer = CategoryHasher::new(set);
        outer.update(xor_each(&block, 0x5c).as_slice());
        CategoryHmac { set, inner, outer }
    }

    /// Adds the bytes to the text.
    pub fn update(&mut self, bytes: &[u8]) {
        self.inner.update(bytes);
    }

    /// Adds the parts to the text.
    pub(crate) fn absorb(&mut self, parts: &[&[u8]]) {
        for part in parts {
            self.update(part);
        }
    }

    /// A copy, after the same text.
    pub fn copy(&self) -> Self {
        CategoryHmac { set: self.set, inner: self.inner.copy(), outer: self.outer.copy() }
    }

    /// The outer hasher after the digest of the inner one: it holds what the HMAC of the text is the digest of.
    fn into_outer(self) -> CategoryHasher {
        let CategoryHmac { set: _, inner, mut outer } = self;
        outer.update(inner.digest().as_slice());
        outer
    }

    /// The HMAC of the text.
    pub(crate) fn digest(self) -> DigestBytes {
        self.into_outer().digest()
    }

    /// The first n bytes of the HMAC of the text.
    pub fn finish(self) -> Node {
        let set = self.set;
        self.into_outer().finish(set.n())
    }
}

/// K0 for the hash function of the set's category.
fn category_key_block(set: ParamSet, key: &[u8]) -> Block {
    if set.n() == 16 { key_block::<Sha256>(key) } else { key_block::<Sha512>(key) }
}
