// Made by tools/plain_rust.py from crates/slh_c/src/pkix.rt.
//! Exports that read and write keys in DER and PEM (bindings/README.md, "Keys for other programs"): ours.

use crate::slh_c::key_files::{kind_of, put_key};
use crate::slh_c::numbers::set_of;
use crate::slh_c::refusal::{DONE, Refusal, or_refuse};
use crate::slh_c::rules::{self, Rule, judge};
use crate::slh_key_files::{der_len, pem_len, put_der, put_pem, read_der, read_pem};

/// Reads a key in DER, a SubjectPublicKeyInfo or a PKCS#8 PrivateKeyInfo of RFC 9909. It writes what `slh_key_read`
/// writes. Refused, with nothing written: bytes that are not exactly one of the twelve forms, no room for the key.
pub fn slh_der_read(der: &[u8], set: &mut u32, kind: &mut u32, key: &mut [u8]) -> u32 {
    match read_der(der) {
        Some(it) => put_key(&it, set, kind, key),
        None => Refusal::NotAKeyFile.number(),
    }
}

/// Reads a key in PEM, whose last line feed may be missing, as `slh_der_read` reads DER.
pub fn slh_pem_read(pem: &[u8], set: &mut u32, kind: &mut u32, key: &mut [u8]) -> u32 {
    match read_pem(pem) {
        Some(it) => put_key(&it, set, kind, key),
        None => Refusal::NotAKeyFile.number(),
    }
}

/// Writes a key in DER, which has `written` bytes, and zeros from there to the end of `der`. The kind is 1 for a public
/// key of 2n bytes, and 2 for a secret one of 4n. Refused, with nothing written, by `der_write_rules`: a number that is
/// not a set's or a kind's, a key of another length, no room.
pub fn slh_der_write(set: u32, kind: u32, of: &[u8], written: &mut u32, der: &mut [u8]) -> u32 {
    let set = or_refuse!(set_of(set));
    let Some(kind) = kind_of(kind) else {
        return Refusal::NoSuchKind.number();
    };
    let len = der_len(kind, set);
    or_refuse!(judge(&[
        rules::has_len(of, kind.key_len(set), Refusal::BadLength),
        Rule { is_met: len <= der.len(), refusal: Refusal::BadOutputLength },
    ]));
    let (file, rest) = der.split_at_mut(len);
    put_der(kind, set, of, file);
    rest.fill(0);
    *written = len as u32;
    DONE
}

/// Writes a key in PEM, and zeros from there to the end of `pem`, at least one. `written` becomes the number of bytes
/// before the zeros. `pem_write_rules` has what it refuses.
pub fn slh_pem_write(set: u32, kind: u32, of: &[u8], written: &mut u32, pem: &mut [u8]) -> u32 {
    let set = or_refuse!(set_of(set));
    let Some(kind) = kind_of(kind) else {
        return Refusal::NoSuchKind.number();
    };
    let len = pem_len(kind, set);
    or_refuse!(judge(&[
        rules::has_len(of, kind.key_len(set), Refusal::BadLength),
        Rule { is_met: len < pem.len(), refusal: Refusal::BadOutputLength },
    ]));
    let (file, rest) = pem.split_at_mut(len);
    put_pem(kind, set, of, file);
    rest.fill(0);
    *written = len as u32;
    DONE
}
