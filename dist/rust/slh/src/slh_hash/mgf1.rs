// Made by tools/plain_rust.py from crates/slh_hash/src/mgf1.rt.
//! MGF1 (RFC 8017, section B.2.1) over SHA-256 and SHA-512.

use crate::slh_hash::hash_function::{DigestBytes, HashFunctionOf, absorb};
use sha2::{Sha256, Sha512};

/// MGF1-SHA-256 (RFC 8017, B.2.1) of the parts put end to end, as many bytes as `out` has, at most 2^32.
pub fn mgf1_sha256(parts: &[&[u8]], out: &mut [u8]) {
    mgf1_of::<Sha256>(parts, out);
}

/// MGF1-SHA-512 (RFC 8017, B.2.1) of the parts put end to end, as many bytes as `out` has, at most 2^32.
pub fn mgf1_sha512(parts: &[&[u8]], out: &mut [u8]) {
    mgf1_of::<Sha512>(parts, out);
}

/// MGF1 of the parts put end to end.
pub(crate) fn mgf1_of<D: HashFunctionOf>(parts: &[&[u8]], out: &mut [u8]) {
    let size = D::digest_len();
    let count = out.len().div_ceil(size);
    for number in 0..count {
        let block = mgf1_block::<D>(parts, number as u32);
        let start = size * number;
        let len = (out.len() - start).min(size);
        out[start..start + len].copy_from_slice(&block.as_slice()[..len]);
    }
}

/// The block of MGF1 with this number.
fn mgf1_block<D: HashFunctionOf>(parts: &[&[u8]], number: u32) -> DigestBytes {
    let mut hasher = D::new();
    absorb(&mut hasher, parts);
    hasher.update(number.to_be_bytes().as_slice());
    hasher.finish()
}
