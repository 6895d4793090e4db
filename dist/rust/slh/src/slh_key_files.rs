// Made by tools/plain_rust.py from crates/slh_key_files/src/lib.rt.
//! Key files of SLH-DSA.
//!
//! A key file has three lines. They are the kind of the key with the version of the file, as in `slh-dsa-public 2`; the
//! label of a parameter set; and the bytes of the key as hexadecimal digits. Version 2 is written, versions 1 and 2 are
//! read. A file of version 1 has a key of one of the standard's sets.

pub use digits::encode_digits;
pub use fault::FileFault;
pub use key_file::{AnyKey, read_key, read_public, read_secret};
#[cfg(feature = "alloc")]
pub use key_front::push_key_bytes;
pub use key_kind::KeyKind;
#[cfg(feature = "alloc")]
pub use key_text::{either_is_read, upgraded_stays, write_public, write_secret, written_is_read};
pub use pkix::{der_len, pem_len, put_der, put_pem, read_der, read_pem};

mod base64_lines;
mod digits;
mod fault;
mod key_file;
#[cfg(feature = "alloc")]
mod key_front;
mod key_kind;
#[cfg(feature = "alloc")]
mod key_text;
mod lines;
mod pkix;
