// Made by tools/plain_rust.py from crates/slh_key_files/src/key_text.rt.
//! Writes key files of version 2 (docs/FORMATS.md, "Key file").

use super::fault::FileFault;
use super::key_kind::{KeyKind, Version};
use crate::slh_core::{PublicKey, SecretKey};
use crate::slh_params::ParamSet;
#[cfg(feature = "alloc")]
use crate::memory::{AllocError, Allocator, String, Vec};

/// The key file of a public key, of version 2. `read_public` and `read_key` give the key back. Refused with NoMemory if
/// the allocator refuses memory, and only then.
pub fn write_public<A: Allocator + Clone>(alloc: A, key: &PublicKey) -> Result<String<A>, FileFault> {
    Ok(key_text(alloc, KeyKind::Public, key.set(), key.bytes())?)
}

/// The key file of a secret key, of version 2. `read_secret` and `read_key` give the key back. Refused with NoMemory if
/// the allocator refuses memory, and only then.
pub fn write_secret<A: Allocator + Clone>(alloc: A, key: &SecretKey) -> Result<String<A>, FileFault> {
    Ok(key_text(alloc, KeyKind::Secret, key.set(), key.bytes())?)
}

/// The three lines of a key file of version 2.
fn key_text<A: Allocator + Clone>(alloc: A, kind: KeyKind, set: ParamSet, key: &[u8]) -> Result<String<A>, AllocError> {
    let digits = crate::memory::hex::encode(alloc.clone(), key)?;
    let mut text = String::from_str(alloc, kind.first_line(Version::Two))?;
    text.push_str("\n")?;
    text.push_str(set.label().as_str())?;
    text.push_str("\n")?;
    text.push_str(digits.as_str())?;
    text.push_str("\n")?;
    Ok(text)
}

/// A law: the written form of a key is read as that key.
pub fn written_is_read() {}

/// A law: the written form of a key of either kind is read as that key, by `read_key`, too.
pub fn either_is_read() {}

/// A law: a file that `slh upgrade` wrote is upgraded to itself.
pub fn upgraded_stays() {}
