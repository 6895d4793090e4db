//! Key files, with text that was written by hand (docs/FORMATS.md, "Key file"), and the module of memory below them.
use slh::memory::{Global, Vec, hex};
use slh::slh_core::{ParamSet, PublicKey};
use slh::slh_key_files::{AnyKey, FileFault, push_key_bytes, read_key, read_public, read_secret, write_public};

/// The file of the public key of 128f whose bytes are 0, 1, 2, ..
const FILE: &str = "slh-dsa-public 2\nSLH-DSA-SHA2-128f\n\
    000102030405060708090a0b0c0d0e0f101112131415161718191a1b1c1d1e1f\n";

#[test]
fn a_key_file_is_read_and_written() {
    let bytes: [u8; 32] = core::array::from_fn(|it| it as u8);
    let key = read_public(FILE.as_bytes()).unwrap();
    assert!(key.bytes() == bytes && key.set() == ParamSet::from_label(b"SLH-DSA-SHA2-128f").unwrap());
    assert_eq!(write_public(Global, &PublicKey::from_bytes(key.set(), &bytes).unwrap()).unwrap().as_str(), FILE);
    assert!(matches!(read_key(FILE.to_uppercase().as_bytes()), Err(FileFault::NotAKeyFile)));
    assert!(matches!(read_key(FILE.as_bytes()), Ok(AnyKey::Public(_))));
    assert!(matches!(read_secret(FILE.as_bytes()), Err(FileFault::NotAKeyFile)));
    assert!(matches!(read_public(&FILE.as_bytes()[..98]), Err(FileFault::BadKeyLength)));
    assert!(matches!(read_public([FILE, "more"].concat().as_bytes()), Err(FileFault::TrailingBytes)));
    assert!(matches!(read_public(FILE.replace("0a", "0g").as_bytes()), Err(FileFault::BadHex)));
}

#[test]
fn the_front_of_a_long_file_is_held() {
    let mut front = Vec::new_in(Global);
    for part in [&b"slh"[..], &[b'0'; 600], b"-"] {
        push_key_bytes(&mut front, part).unwrap();
    }
    assert_eq!((&front[..3], front.len(), front[511], front[512]), (&b"slh"[..], 513, b'0', b'-'));
}

#[test]
fn digits_are_those_of_the_standard_library() {
    for byte in 0..=255u8 {
        let (lower, upper) = (format!("{byte:02x}"), format!("{byte:02X}"));
        assert_eq!(hex::encode(Global, &[byte]).unwrap().as_str(), lower);
        for digits in [lower, upper] {
            let mut read = [!byte];
            assert_eq!(hex::decode_to_slice(digits.as_bytes(), &mut read), Ok(()));
            assert_eq!(read, [byte]);
        }
        let is_digit = char::from(byte).is_ascii_hexdigit();
        assert_eq!(hex::decode_to_slice(&[b'0', byte], &mut [0]).is_ok(), is_digit);
    }
    assert!(hex::decode_to_slice(b"000", &mut [0]).is_err() && hex::decode_to_slice(b"00", &mut [0; 2]).is_err());
}
