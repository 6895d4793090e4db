//! The parameter sets (FIPS 205, section 11, Table 2) as types, and the pre-hash functions (section 10.2.2).

use alloc::vec;
use core::fmt::Debug;

use crate::{
    Error,
    call::done,
    sys::{self, call},
};

/// A pre-hash function (FIPS 205, section 10.2.2). Each goes with each set, but one that is weaker than the set makes a
/// weaker signature.
#[derive(Clone, Copy, Debug, PartialEq, Eq, Hash)]
#[repr(u32)]
pub enum Function {
    /// Digests of 28 bytes.
    Sha2_224 = sys::SLH_SHA2_224,
    /// Digests of 32 bytes.
    Sha2_256 = sys::SLH_SHA2_256,
    /// Digests of 48 bytes.
    Sha2_384 = sys::SLH_SHA2_384,
    /// Digests of 64 bytes.
    Sha2_512 = sys::SLH_SHA2_512,
    /// Digests of 28 bytes.
    Sha2_512_224 = sys::SLH_SHA2_512_224,
    /// Digests of 32 bytes.
    Sha2_512_256 = sys::SLH_SHA2_512_256,
}

impl Function {
    /// The length of a digest in bytes.
    pub fn digest_len(self) -> usize {
        match self {
            Function::Sha2_224 | Function::Sha2_512_224 => 28,
            Function::Sha2_256 | Function::Sha2_512_256 => 32,
            Function::Sha2_384 => 48,
            Function::Sha2_512 => 64,
        }
    }
}

/// A parameter set (FIPS 205, section 11, Table 2). Six types implement it. They have no values, and are the type
/// parameter of keys and signatures.
pub trait ParameterSet: private::Sealed + Copy + Debug + Eq + Send + Sync + 'static {
    /// libslh's number of the set.
    const NUMBER: u32;
    /// The set's name, as `SLH-DSA-SHA2-128f`.
    const NAME: &'static str;
    /// The bytes of a signature.
    const SIGNATURE: usize;
    /// A seed or a randomizer, an array of n bytes.
    type Seed: Bytes;
    /// The bytes of a public key, an array of 2n.
    type PublicKeyBytes: Bytes;
    /// The bytes of a secret key, an array of 4n.
    type SecretKeyBytes: Bytes;
    /// The levels of XMSS trees by which workers divide a signature: those of docs/BENCHMARKS.md for four workers.
    #[doc(hidden)]
    const XMSS_LEVELS: u32;

    /// Tests the set on this machine before it is used, as when a service starts. A known key is made, and a known
    /// message is signed. PK.root and the SHA-256 of the signature have to be those that OpenSSL gave. The signature has
    /// to be valid, and invalid for another message. The test takes as long as to make a key, to sign once and to verify
    /// two times.
    ///
    /// It shows nothing about other sets, keys and messages, the pre-hash forms, random bytes and later faults. It does
    /// not replace a hash of the program's file.
    ///
    /// # Errors
    ///
    /// [`Error::SelfTestFailed`] if an answer is not the known one.
    fn self_test() -> Result<(), Error> {
        let scratch = &mut vec![0; Self::SIGNATURE][..];
        done(call!(slh_self_test(Self::NUMBER;; scratch)))
    }
}

/// An array of bytes.
pub trait Bytes: AsRef<[u8]> + AsMut<[u8]> + Copy + Debug + Eq + Send + Sync + for<'a> TryFrom<&'a [u8]> {
    /// The array whose bytes are 0.
    const ZEROS: Self;
}

impl<const LEN: usize> Bytes for [u8; LEN] {
    const ZEROS: Self = [0; LEN];
}

mod private {
    pub trait Sealed {}
}

macro_rules! parameter_set {
    ($type:ident, $number:ident, $name:literal, $n:literal, $signature:literal, $xmss_levels:literal) => {
        #[doc = concat!("The set ", $name, ".")]
        #[derive(Clone, Copy, Debug, PartialEq, Eq, Hash)]
        pub enum $type {}

        impl private::Sealed for $type {}

        impl ParameterSet for $type {
            const NUMBER: u32 = sys::$number;
            const NAME: &'static str = $name;
            const SIGNATURE: usize = $signature;
            type Seed = [u8; $n];
            type PublicKeyBytes = [u8; 2 * $n];
            type SecretKeyBytes = [u8; 4 * $n];
            const XMSS_LEVELS: u32 = $xmss_levels;
        }
    };
}

/// The kind of a key, by the library's number.
#[derive(Clone, Copy, PartialEq, Eq)]
#[repr(u32)]
pub(crate) enum Kind {
    Public = sys::SLH_PUBLIC_KEY,
    Secret = sys::SLH_SECRET_KEY,
}

/// The names of the six sets, and n.
pub(crate) const NAMES: [(&str, usize); 6] = [
    (SlhDsaSha2_128s::NAME, 16),
    (SlhDsaSha2_128f::NAME, 16),
    (SlhDsaSha2_192s::NAME, 24),
    (SlhDsaSha2_192f::NAME, 24),
    (SlhDsaSha2_256s::NAME, 32),
    (SlhDsaSha2_256f::NAME, 32),
];

parameter_set!(SlhDsaSha2_128s, SLH_DSA_SHA2_128S, "SLH-DSA-SHA2-128s", 16, 7856, 4);
parameter_set!(SlhDsaSha2_128f, SLH_DSA_SHA2_128F, "SLH-DSA-SHA2-128f", 16, 17088, 0);
parameter_set!(SlhDsaSha2_192s, SLH_DSA_SHA2_192S, "SLH-DSA-SHA2-192s", 24, 16224, 4);
parameter_set!(SlhDsaSha2_192f, SLH_DSA_SHA2_192F, "SLH-DSA-SHA2-192f", 24, 35664, 0);
parameter_set!(SlhDsaSha2_256s, SLH_DSA_SHA2_256S, "SLH-DSA-SHA2-256s", 32, 29792, 3);
parameter_set!(SlhDsaSha2_256f, SLH_DSA_SHA2_256F, "SLH-DSA-SHA2-256f", 32, 49856, 1);
