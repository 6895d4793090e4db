// Made by tools/plain_rust.py from crates/slh_core/src/pre_hash.rt.
//! The pre-hash functions (FIPS 205, section 10.2.2).

/// A function that hashes a message before it is signed (FIPS 205, section 10.2.2). Each goes with each set.
#[derive(Clone, Copy, PartialEq, Eq, Debug)]
pub enum PreHash {
    Sha224,
    Sha256,
    Sha384,
    Sha512,
    Sha512_224,
    Sha512_256,
}

impl PreHash {
    /// The function's name, as `SHA2-256`.
    pub fn name(&self) -> &'static str {
        match self {
            PreHash::Sha224 => "SHA2-224",
            PreHash::Sha256 => "SHA2-256",
            PreHash::Sha384 => "SHA2-384",
            PreHash::Sha512 => "SHA2-512",
            PreHash::Sha512_224 => "SHA2-512/224",
            PreHash::Sha512_256 => "SHA2-512/256",
        }
    }

    /// The function of this name. `None` if it is no function's; letter case counts.
    pub fn from_name(text: &str) -> Option<PreHash> {
        match text {
            "SHA2-224" => Some(PreHash::Sha224),
            "SHA2-256" => Some(PreHash::Sha256),
            "SHA2-384" => Some(PreHash::Sha384),
            "SHA2-512" => Some(PreHash::Sha512),
            "SHA2-512/224" => Some(PreHash::Sha512_224),
            "SHA2-512/256" => Some(PreHash::Sha512_256),
            _ => None,
        }
    }

    /// The DER bytes of the function's object identifier.
    pub fn oid(&self) -> [u8; 11] {
        let last = match self {
            PreHash::Sha224 => 4,
            PreHash::Sha256 => 1,
            PreHash::Sha384 => 2,
            PreHash::Sha512 => 3,
            PreHash::Sha512_224 => 5,
            PreHash::Sha512_256 => 6,
        };
        [0x06, 0x09, 0x60, 0x86, 0x48, 0x01, 0x65, 0x03, 0x04, 0x02, last]
    }

    /// The length of a digest in bytes.
    pub fn digest_len(&self) -> usize {
        match self {
            PreHash::Sha224 | PreHash::Sha512_224 => 28,
            PreHash::Sha256 | PreHash::Sha512_256 => 32,
            PreHash::Sha384 => 48,
            PreHash::Sha512 => 64,
        }
    }
}
