// Made by tools/plain_rust.py from crates/slh_key_files/src/key_front.rt.
//! The first bytes of a key file, on which its key or its first fault depends.

use super::digits::is_hex_digit;
#[cfg(feature = "alloc")]
use crate::memory::{AllocError, Allocator, String, Vec};

/// More bytes than a key file of either kind has.
const MOST: usize = 512;

/// Pushes the next bytes of a key file to those that were stored before, as far as its key or its first fault depends
/// on them.
///
/// A file of over 512 bytes is not a key file. Its fault depends only on its first 512 bytes and on the first one after
/// them that is not a hexadecimal digit. So no more than 513 bytes are held. The call fails if the allocator refuses
/// memory.
pub fn push_key_bytes<A: Allocator>(front: &mut Vec<u8, A>, part: &[u8]) -> Result<(), AllocError> {
    if front.len() > MOST {
        return Ok(());
    }
    let (near, far) = part.split_at(part.len().min(MOST - front.len()));
    front.extend_from_slice(near)?;
    match first_other(far) {
        Some(byte) => Ok(front.push(byte)?),
        None => Ok(()),
    }
}

/// The first byte that is not a hexadecimal digit.
fn first_other(bytes: &[u8]) -> Option<u8> {
    bytes.iter().copied().find(|byte| !is_hex_digit(*byte))
}
