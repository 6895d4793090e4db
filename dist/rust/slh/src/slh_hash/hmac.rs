// Made by tools/plain_rust.py from crates/slh_hash/src/hmac.rt.
//! HMAC (FIPS 198-1) over SHA-256 and SHA-512.

use crate::slh_hash::category_hmac::CategoryHmac;
use crate::slh_hash::hash_function::{DigestBytes, HashFunctionOf, MOST_BLOCK_LEN};
use crate::slh_hash::tweakable::zeros;
use arrayvec::ArrayVec;
use crate::slh_params::ParamSet;

/// One block of a hash function.
pub(crate) type Block = ArrayVec<u8, MOST_BLOCK_LEN>;

/// HMAC-SHA-256 (FIPS 198-1) of the parts put end to end, under a key of any length.
pub fn hmac_sha256(key: &[u8], parts: &[&[u8]]) -> [u8; 32] {
    let mut out = [0; 32];
    out.copy_from_slice(hmac_of(ParamSet::S128s, key, parts).as_slice());
    out
}

/// HMAC-SHA-512 (FIPS 198-1) of the parts put end to end, under a key of any length.
pub fn hmac_sha512(key: &[u8], parts: &[&[u8]]) -> [u8; 64] {
    let mut out = [0; 64];
    out.copy_from_slice(hmac_of(ParamSet::S256s, key, parts).as_slice());
    out
}

/// HMAC of the parts put end to end, with the hash function of the set's category.
fn hmac_of(set: ParamSet, key: &[u8], parts: &[&[u8]]) -> DigestBytes {
    let mut keyed = CategoryHmac::new(set, key);
    keyed.absorb(parts);
    keyed.digest()
}

/// K0: the key, or its digest where it is longer than a block, and zeros up to a block.
pub(crate) fn key_block<D: HashFunctionOf>(key: &[u8]) -> Block {
    let len = D::block_len();
    if key.len() <= len {
        filled(key, len)
    } else {
        let mut hasher = D::new();
        hasher.update(key);
        filled(hasher.finish().as_slice(), len)
    }
}

/// The bytes and zeros up to a block of this length.
fn filled(bytes: &[u8], len: usize) -> Block {
    let mut block = Block::new();
    append(&mut block, bytes);
    append(&mut block, zeros(len - bytes.len()));
    block
}

/// Adds the bytes, for which there is room.
fn append(block: &mut Block, bytes: &[u8]) {
    let _ = block.try_extend_from_slice(bytes);
}

/// The block with each byte xor the pad.
pub(crate) fn xor_each(block: &Block, pad: u8) -> Block {
    // For the prover: a block has at most 128 bytes.
    let _fits = block.len();
    let mut padded = Block::new();
    for byte in block.as_slice() {
        padded.push(*byte ^ pad);
    }
    padded
}
