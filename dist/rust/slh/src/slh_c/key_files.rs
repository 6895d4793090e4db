// Made by tools/plain_rust.py from crates/slh_c/src/key_files.rt.
//! Exports that read and write key files (docs/FORMATS.md, "Key file"): ours.

use crate::slh_c::numbers::set_of;
use crate::slh_c::refusal::{DONE, Refusal, or_refuse};
use crate::slh_c::rules::{self, Rule, judge};
use crate::slh_key_files::{AnyKey, FileFault, KeyKind, encode_digits, read_key};
use crate::slh_params::ParamSet;

/// The number of one of the standard's sets.
fn number_of(set: ParamSet) -> u32 {
    match set.name() {
        "SLH-DSA-SHA2-128s" => 1,
        "SLH-DSA-SHA2-128f" => 2,
        "SLH-DSA-SHA2-192s" => 3,
        "SLH-DSA-SHA2-192f" => 4,
        "SLH-DSA-SHA2-256s" => 5,
        _ => 6,
    }
}

/// The number of a kind.
fn number_of_kind(kind: KeyKind) -> u32 {
    match kind {
        KeyKind::Public => 1,
        KeyKind::Secret => 2,
    }
}

/// Writes bytes to the front of an output, and zeros from there to its end.
fn put(bytes: &[u8], out: &mut [u8]) {
    let (front, rest) = out.split_at_mut(bytes.len());
    front.copy_from_slice(bytes);
    rest.fill(0);
}

/// Writes what `read_key` gave, as `slh_key_read` does, and returns the number of its answer.
pub(crate) fn put_key(it: &AnyKey, set: &mut u32, kind: &mut u32, key: &mut [u8]) -> u32 {
    let (of, of_kind, bytes) = match it {
        AnyKey::Public(it) => (it.set(), KeyKind::Public, it.bytes()),
        AnyKey::Secret(it) => (it.set(), KeyKind::Secret, it.bytes()),
    };
    if !of.is_fips_205() {
        return u32::from(FileFault::UnknownSet.number());
    }
    if bytes.len() > key.len() {
        return Refusal::BadOutputLength.number();
    }
    *set = number_of(of);
    *kind = number_of_kind(of_kind);
    put(bytes, key);
    DONE
}

/// Reads a key file of either kind and version. Writes the numbers of its set and of its kind, 1 for a public key and 2
/// for a secret one, and the key's bytes, with zeros after them to the end of `key`. PK.root of a secret key need not be
/// the one that its seeds give: `slh_check` computes that. Refused, with nothing written, as `read_answer` says: by the
/// first fault of the file, a set that is not one of the standard's, no room for the key.
pub fn slh_key_read(file: &[u8], set: &mut u32, kind: &mut u32, key: &mut [u8]) -> u32 {
    match read_key(file) {
        Ok(it) => put_key(&it, set, kind, key),
        Err(fault) => u32::from(fault.number()),
    }
}

/// The kind of a number.
pub(crate) fn kind_of(number: u32) -> Option<KeyKind> {
    match number {
        1 => Some(KeyKind::Public),
        2 => Some(KeyKind::Secret),
        _ => None,
    }
}

/// The first line of a file of this kind, of version 2.
fn first_line(kind: KeyKind) -> &'static [u8; 17] {
    match kind {
        KeyKind::Public => b"slh-dsa-public 2\n",
        KeyKind::Secret => b"slh-dsa-secret 2\n",
    }
}

/// Writes a line: these bytes, and a line feed.
fn put_line(bytes: &[u8], text: &mut [u8]) {
    let (front, feed) = text.split_at_mut(bytes.len());
    front.copy_from_slice(bytes);
    feed.fill(b'\n');
}

/// Writes the second line of a file: the name of one of the standard's sets.
fn put_name(set: ParamSet, text: &mut [u8]) {
    put_line(set.name().as_bytes(), text);
}

/// Writes the third line of a file: the digits of a key, and a line feed.
fn put_digits(key: &[u8], text: &mut [u8]) {
    let (digits, feed) = text.split_at_mut(2 * key.len());
    encode_digits(key, digits);
    feed.fill(b'\n');
}

/// Writes the key file of a key, of version 2.
fn put_text(kind: KeyKind, set: ParamSet, key: &[u8], text: &mut [u8]) {
    let (first, rest) = text.split_at_mut(17);
    first.copy_from_slice(first_line(kind));
    let (second, third) = rest.split_at_mut(18);
    put_name(set, second);
    put_digits(key, third);
}

/// Writes the key file of a key, of version 2, and zeros from there to the end of `text`, at least one. The kind is 1
/// for a public key of 2n bytes, and 2 for a secret one of 4n. Refused, with nothing written, by `key_write_rules`: a
/// number that is not a set's or a kind's, a key of another length, no room for a zero byte.
pub fn slh_key_write(set: u32, kind: u32, of: &[u8], text: &mut [u8]) -> u32 {
    let set = or_refuse!(set_of(set));
    let Some(kind) = kind_of(kind) else {
        return Refusal::NoSuchKind.number();
    };
    let len = 36 + 2 * kind.key_len(set);
    or_refuse!(judge(&[
        rules::has_len(of, kind.key_len(set), Refusal::BadLength),
        Rule { is_met: len < text.len(), refusal: Refusal::BadOutputLength },
    ]));
    let (file, rest) = text.split_at_mut(len);
    put_text(kind, set, of, file);
    rest.fill(0);
    DONE
}
