//! Keys whose set is known when the program runs, as those of key files.
use alloc::boxed::Box;
use core::fmt;
#[cfg(feature = "std")]
use std::{
    io::{Read, Write},
    path::Path,
};

use crate::{
    Error, Function, Options, ParameterSet, PublicKey, Refusal, SecretKey, Signer, SlhDsaSha2_128f, SlhDsaSha2_128s,
    SlhDsaSha2_192f, SlhDsaSha2_192s, SlhDsaSha2_256f, SlhDsaSha2_256s, public,
};
#[cfg(feature = "std")]
use crate::{
    key_file::{self, KeyFile},
    sets::Kind,
};

/// Declares the type of keys of any set over keys of each, and how both are made of each other.
macro_rules! any_key {
    ($(#[$attribute:meta])* $any:ident, $key:ident, $kind:expr) => {
        $(#[$attribute])*
        pub enum $any {
            /// A key of SLH-DSA-SHA2-128s.
            Sha2_128s($key<SlhDsaSha2_128s>),
            /// A key of SLH-DSA-SHA2-128f.
            Sha2_128f($key<SlhDsaSha2_128f>),
            /// A key of SLH-DSA-SHA2-192s.
            Sha2_192s($key<SlhDsaSha2_192s>),
            /// A key of SLH-DSA-SHA2-192f.
            Sha2_192f($key<SlhDsaSha2_192f>),
            /// A key of SLH-DSA-SHA2-256s.
            Sha2_256s($key<SlhDsaSha2_256s>),
            /// A key of SLH-DSA-SHA2-256f.
            Sha2_256f($key<SlhDsaSha2_256f>),
        }

        any_key!(@from $any, $key, Sha2_128s, SlhDsaSha2_128s);
        any_key!(@from $any, $key, Sha2_128f, SlhDsaSha2_128f);
        any_key!(@from $any, $key, Sha2_192s, SlhDsaSha2_192s);
        any_key!(@from $any, $key, Sha2_192f, SlhDsaSha2_192f);
        any_key!(@from $any, $key, Sha2_256s, SlhDsaSha2_256s);
        any_key!(@from $any, $key, Sha2_256f, SlhDsaSha2_256f);

        impl $any {
            /// The key of these bytes. `set` is the set's name, as `SLH-DSA-SHA2-128f`. Refused: `UnknownSet`,
            /// `BadLength`.
            pub fn from_bytes(set: &str, bytes: &[u8]) -> Result<Self, Error> {
                match set {
                    SlhDsaSha2_128s::NAME => $key::try_from(bytes).map($any::Sha2_128s),
                    SlhDsaSha2_128f::NAME => $key::try_from(bytes).map($any::Sha2_128f),
                    SlhDsaSha2_192s::NAME => $key::try_from(bytes).map($any::Sha2_192s),
                    SlhDsaSha2_192f::NAME => $key::try_from(bytes).map($any::Sha2_192f),
                    SlhDsaSha2_256s::NAME => $key::try_from(bytes).map($any::Sha2_256s),
                    SlhDsaSha2_256f::NAME => $key::try_from(bytes).map($any::Sha2_256f),
                    _ => Err(Refusal::UNKNOWN_SET.into()),
                }
            }

            /// The name of the key's set, as `SLH-DSA-SHA2-128f`.
            pub fn set(&self) -> &'static str {
                any!($any, self, key => set_of(key))
            }

            /// The bytes of the key.
            pub fn as_bytes(&self) -> &[u8] {
                any!($any, self, key => key.as_bytes())
            }
        }

        #[cfg(feature = "std")]
        impl $any {
            /// The key in a key file, of the set that the file names. Errors are those of `read_from`.
            pub fn load(path: impl AsRef<Path>) -> Result<Self, Error> {
                Self::of_file(&key_file::load(path.as_ref(), $kind)?)
            }

            /// The key in the bytes of a key file (docs/FORMATS.md, "Key file"), as `&text[..]`. Refused, with the
            /// first fault: `NotAKeyFile`, also for a key of the other kind; `UnknownSet`, `BadHex`, `BadKeyLength`,
            /// `TrailingBytes`. `Error::ReadFailed`.
            pub fn read_from(reader: impl Read) -> Result<Self, Error> {
                Self::of_file(&key_file::read(reader, $kind)?)
            }

            fn of_file(file: &KeyFile) -> Result<Self, Error> {
                match file.set {
                    SlhDsaSha2_128s::NAME => $key::of_file(file).map($any::Sha2_128s),
                    SlhDsaSha2_128f::NAME => $key::of_file(file).map($any::Sha2_128f),
                    SlhDsaSha2_192s::NAME => $key::of_file(file).map($any::Sha2_192s),
                    SlhDsaSha2_192f::NAME => $key::of_file(file).map($any::Sha2_192f),
                    SlhDsaSha2_256s::NAME => $key::of_file(file).map($any::Sha2_256s),
                    _ => $key::of_file(file).map($any::Sha2_256f),
                }
            }

            /// Writes a new key file of version 2, as the key of its set does.
            pub fn dump(&self, path: impl AsRef<Path>) -> Result<(), Error> {
                any!($any, self, key => key.dump(path))
            }

            /// Writes the text of a key file of version 2. `Error::WriteFailed`.
            pub fn write_to(&self, writer: impl Write) -> Result<(), Error> {
                any!($any, self, key => key.write_to(writer))
            }
        }
    };
    (@from $any:ident, $key:ident, $variant:ident, $set:ident) => {
        impl From<$key<$set>> for $any {
            fn from(key: $key<$set>) -> Self {
                $any::$variant(key)
            }
        }
    };
}

/// An expression over the key of any set.
macro_rules! any {
    ($any:ident, $self:expr, $key:ident => $value:expr) => {
        match $self {
            $any::Sha2_128s($key) => $value,
            $any::Sha2_128f($key) => $value,
            $any::Sha2_192s($key) => $value,
            $any::Sha2_192f($key) => $value,
            $any::Sha2_256s($key) => $value,
            $any::Sha2_256f($key) => $value,
        }
    };
}

any_key! {
    /// A secret key of one of the six sets, as [`load`](AnySecretKey::load) reads it. It is printed as its set alone.
    /// `match` gives the [`SecretKey`] of the set, which has more calls.
    AnySecretKey, SecretKey, Kind::Secret
}

any_key! {
    /// A public key of one of the six sets, as [`load`](AnyPublicKey::load) reads it. It is printed as its set alone.
    #[derive(Clone, Copy, PartialEq, Eq, Hash)]
    AnyPublicKey, PublicKey, Kind::Public
}

/// The name of a key's set.
fn set_of<K: HasSet>(_: &K) -> &'static str {
    K::SET
}

trait HasSet {
    const SET: &'static str;
}

impl<P: ParameterSet> HasSet for SecretKey<P> {
    const SET: &'static str = P::NAME;
}

impl<P: ParameterSet> HasSet for PublicKey<P> {
    const SET: &'static str = P::NAME;
}

#[cfg(feature = "std")]
impl AnySecretKey {
    /// Makes a key of a set by its name, as `SLH-DSA-SHA2-128f`, from random bytes of the system. Refused:
    /// `UnknownSet`. `Error::RandomFailed` if the system gives no random bytes.
    pub fn generate(set: &str) -> Result<Self, Error> {
        match set {
            SlhDsaSha2_128s::NAME => SecretKey::generate().map(AnySecretKey::Sha2_128s),
            SlhDsaSha2_128f::NAME => SecretKey::generate().map(AnySecretKey::Sha2_128f),
            SlhDsaSha2_192s::NAME => SecretKey::generate().map(AnySecretKey::Sha2_192s),
            SlhDsaSha2_192f::NAME => SecretKey::generate().map(AnySecretKey::Sha2_192f),
            SlhDsaSha2_256s::NAME => SecretKey::generate().map(AnySecretKey::Sha2_256s),
            SlhDsaSha2_256f::NAME => SecretKey::generate().map(AnySecretKey::Sha2_256f),
            _ => Err(Refusal::UNKNOWN_SET.into()),
        }
    }
}

impl AnySecretKey {
    /// The public key.
    pub fn public(&self) -> AnyPublicKey {
        any!(AnySecretKey, self, key => key.public().into())
    }

    /// Whether PK.root is the root that the seeds give: else `Error::Invalid`.
    pub fn check(&self) -> Result<(), Error> {
        any!(AnySecretKey, self, key => key.check())
    }

    /// The bytes of a signature in the pure form. Errors are those of [`Signer::sign_with`].
    pub fn sign_with(&self, message: &[u8], options: Options<'_>) -> Result<Box<[u8]>, Error> {
        any!(AnySecretKey, self, key => key.sign_with(message, options).map(|it| it.into_bytes()))
    }

    /// The bytes of a signature in the pre-hash form. Errors are those of [`Signer::hash_sign`].
    pub fn hash_sign(&self, function: Function, message: &[u8], options: Options<'_>) -> Result<Box<[u8]>, Error> {
        any!(AnySecretKey, self, key => key.hash_sign(function, message, options).map(|it| it.into_bytes()))
    }

    /// The bytes of a signature by a message's digest. Errors are those of [`SecretKey::hash_sign_digest`].
    pub fn hash_sign_digest(
        &self,
        function: Function,
        digest: &[u8],
        options: Options<'_>,
    ) -> Result<Box<[u8]>, Error> {
        any!(AnySecretKey, self, key => key.hash_sign_digest(function, digest, options).map(|it| it.into_bytes()))
    }
}

impl fmt::Debug for AnySecretKey {
    fn fmt(&self, f: &mut fmt::Formatter<'_>) -> fmt::Result {
        write!(f, "AnySecretKey({})", self.set())
    }
}

impl AnyPublicKey {
    /// Verifies the bytes of a signature in the pure form, as [`Verifier::verify_with`](crate::Verifier::verify_with)
    /// does.
    pub fn verify_with(&self, message: &[u8], context: &[u8], signature: &[u8]) -> Result<(), Error> {
        any!(AnyPublicKey, self, key => public::verify(key, None, message, context, signature))
    }

    /// Verifies the bytes of a signature in the pre-hash form, as
    /// [`Verifier::hash_verify`](crate::Verifier::hash_verify) does.
    pub fn hash_verify(
        &self,
        function: Function,
        message: &[u8],
        context: &[u8],
        signature: &[u8],
    ) -> Result<(), Error> {
        any!(AnyPublicKey, self, key => public::verify(key, Some(function), message, context, signature))
    }

    /// Verifies the bytes of a signature by a message's digest, as
    /// [`Verifier::hash_verify_digest`](crate::Verifier::hash_verify_digest) does.
    pub fn hash_verify_digest(
        &self,
        function: Function,
        digest: &[u8],
        context: &[u8],
        signature: &[u8],
    ) -> Result<(), Error> {
        any!(AnyPublicKey, self, key => public::verify_digest(key, function, digest, context, signature))
    }
}

impl fmt::Display for AnyPublicKey {
    fn fmt(&self, f: &mut fmt::Formatter<'_>) -> fmt::Result {
        f.write_str(self.set())
    }
}

impl fmt::Debug for AnyPublicKey {
    fn fmt(&self, f: &mut fmt::Formatter<'_>) -> fmt::Result {
        write!(f, "AnyPublicKey({})", self.set())
    }
}
