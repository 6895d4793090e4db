// Made by tools/plain_rust.py from crates/slh_key_files/src/key_file.rt.
//! Reads key files of both versions (docs/FORMATS.md, "Key file").

use super::digits::{are_hex_digits, decode_digits};
use super::fault::FileFault;
use super::key_kind::{KeyKind, Version};
use super::lines::{cut_line, last_line};
use crate::slh_core::{PublicKey, SecretKey};
use crate::slh_params::ParamSet;

/// A key of either kind.
pub enum AnyKey {
    Public(PublicKey),
    Secret(SecretKey),
}

/// The public key in a key file of either version.
///
/// Any other bytes are refused with their first fault, in this order:
///
/// - `NotAKeyFile`: another first line;
/// - `UnknownSet`: a second line that is not a set's label, or under version 1 not the name of a standard's set;
/// - `BadHex`: a byte of the third line that is not a hexadecimal digit;
/// - `BadKeyLength`: another number of digits than twice the length of a public key of the set;
/// - `TrailingBytes`: bytes after the third line.
pub fn read_public(bytes: &[u8]) -> Result<PublicKey, FileFault> {
    let (set, digits) = key_line(KeyKind::Public, bytes)?;
    let mut buffer = [0; 64];
    let key = &mut buffer[..set.pk_len()];
    decode_digits(digits, key);
    Ok(PublicKey::from_bytes(set, key).unwrap())
}

/// The secret key in a key file, with the refusals of `read_public`.
///
/// Its root need not be the one that its seeds give: `slh_core::check_pair` computes that.
pub fn read_secret(bytes: &[u8]) -> Result<SecretKey, FileFault> {
    let (set, digits) = key_line(KeyKind::Secret, bytes)?;
    let mut buffer = [0; 128];
    let key = &mut buffer[..set.sk_len()];
    decode_digits(digits, key);
    Ok(SecretKey::from_bytes(set, key).unwrap())
}

/// The key in a key file of either kind and version, with the refusals of `read_public`; `NotAKeyFile` where the first
/// line is that of neither kind.
pub fn read_key(bytes: &[u8]) -> Result<AnyKey, FileFault> {
    match read_public(bytes) {
        Err(FileFault::NotAKeyFile) => Ok(AnyKey::Secret(read_secret(bytes)?)),
        read => Ok(AnyKey::Public(read?)),
    }
}

/// The set that a key file of this kind names, and the digits of its key.
fn key_line(kind: KeyKind, bytes: &[u8]) -> Result<(ParamSet, &[u8]), FileFault> {
    let (version, rest) = after_kind(kind, bytes)?;
    let (set, rest) = after_set(version, rest)?;
    let digits = key_digits(kind.key_len(set), rest)?;
    Ok((set, digits))
}

/// The version of a file of this kind, and the bytes after its first line.
fn after_kind(kind: KeyKind, bytes: &[u8]) -> Result<(Version, &[u8]), FileFault> {
    let (line, rest) = cut_line(bytes).ok_or(FileFault::NotAKeyFile)?;
    let version = kind.version_of(line).ok_or(FileFault::NotAKeyFile)?;
    Ok((version, rest))
}

/// The set that the next line names in a file of this version, and the bytes after that line.
fn after_set(version: Version, bytes: &[u8]) -> Result<(ParamSet, &[u8]), FileFault> {
    let (line, rest) = cut_line(bytes).ok_or(FileFault::UnknownSet)?;
    let set = set_of_line(version, line).ok_or(FileFault::UnknownSet)?;
    Ok((set, rest))
}

/// The set of this label that a file of this version can have.
fn set_of_line(version: Version, line: &[u8]) -> Option<ParamSet> {
    let set = ParamSet::from_label(line)?;
    if version.allows(set) { Some(set) } else { None }
}

/// The digits of a key of `len` bytes, which the last line has.
fn key_digits(len: usize, bytes: &[u8]) -> Result<&[u8], FileFault> {
    let (digits, rest) = last_line(bytes);
    if !are_hex_digits(digits) {
        return Err(FileFault::BadHex);
    }
    if digits.len() != 2 * len {
        return Err(FileFault::BadKeyLength);
    }
    if !rest.is_empty() {
        return Err(FileFault::TrailingBytes);
    }
    Ok(digits)
}
