//! Public keys (FIPS 205, section 9.1), and verifying.

use core::{
    fmt,
    hash::{Hash, Hasher},
};
#[cfg(feature = "std")]
use std::{
    io::{Read, Write},
    path::Path,
};

use crate::{Error, Function, ParameterSet, Refusal, Signature, call::done, options::Content, sets::Bytes, sys::call};
#[cfg(feature = "std")]
use crate::{key_file, sets::Kind};

/// Keys that verify signatures. Only `Ok` says that a signature is valid.
pub trait Verifier<P: ParameterSet> {
    /// Verifies a signature of the pure form under a context (Algorithm 24). `Error::Invalid` if it is not valid, and
    /// for a context of over 255 bytes.
    fn verify_with(&self, message: &[u8], context: &[u8], signature: &Signature<P>) -> Result<(), Error>;

    /// Verifies a signature of the pre-hash form, with the message (Algorithm 25). Invalid as in `verify_with`.
    fn hash_verify(
        &self,
        function: Function,
        message: &[u8],
        context: &[u8],
        signature: &Signature<P>,
    ) -> Result<(), Error>;

    /// Verifies a signature of the pre-hash form, with the message's digest. Invalid as in `verify_with`. Refused:
    /// `BadDigestLength`.
    fn hash_verify_digest(
        &self,
        function: Function,
        digest: &[u8],
        context: &[u8],
        signature: &Signature<P>,
    ) -> Result<(), Error>;

    /// Verifies a signature of the pure form under the empty context.
    fn verify(&self, message: &[u8], signature: &Signature<P>) -> Result<(), Error> {
        self.verify_with(message, b"", signature)
    }
}

/// A public key, PK.seed and PK.root: 2n bytes.
///
/// It is printed as its set alone, in `Debug` and in `Display`. Bytes that are taken for a public key by mistake can be
/// secret: a secret key of a 128 set is as long as a public key of a 256 set, and SK.seed and SK.prf together as long
/// as a public key of their set. So no part of them is safe to print. To compare keys use `==`; to show one, print its
/// [`as_bytes`](PublicKey::as_bytes).
#[derive(Clone, Copy, PartialEq, Eq)]
pub struct PublicKey<P: ParameterSet> {
    bytes: P::PublicKeyBytes,
}

impl<P: ParameterSet> PublicKey<P> {
    /// The key of these 2n bytes.
    pub fn from_bytes(bytes: P::PublicKeyBytes) -> Self {
        PublicKey { bytes }
    }

    /// The 2n bytes of the key.
    pub fn as_bytes(&self) -> &P::PublicKeyBytes {
        &self.bytes
    }
}

#[cfg(feature = "std")]
impl<P: ParameterSet> PublicKey<P> {
    /// The key in a key file, as `slh public` writes it. Errors are those of [`read_from`](PublicKey::read_from).
    pub fn load(path: impl AsRef<Path>) -> Result<Self, Error> {
        Self::of_file(&key_file::load(path.as_ref(), Kind::Public)?)
    }

    /// The key in the bytes of a key file (docs/FORMATS.md, "Key file", both versions), as `&text[..]`. Refused, with
    /// the first fault: `NotAKeyFile`, also for the file of a secret key; `UnknownSet`, `BadHex`, `BadKeyLength`,
    /// `TrailingBytes`. `Error::OtherSet` if the key is of another set; `Error::ReadFailed`.
    pub fn read_from(reader: impl Read) -> Result<Self, Error> {
        Self::of_file(&key_file::read(reader, Kind::Public)?)
    }

    pub(crate) fn of_file(file: &key_file::KeyFile) -> Result<Self, Error> {
        let mut bytes = P::PublicKeyBytes::ZEROS;
        file.decode(P::NAME, bytes.as_mut())?;
        Ok(PublicKey { bytes })
    }

    /// Writes a new key file of version 2. `Error::WriteFailed` if it can't be written, and if the path exists: no file
    /// is overwritten, and a part of one does not stay.
    pub fn dump(&self, path: impl AsRef<Path>) -> Result<(), Error> {
        key_file::dump::<P>(path.as_ref(), Kind::Public, self.bytes.as_ref())
    }

    /// Writes the text of a key file of version 2. `Error::WriteFailed`.
    pub fn write_to(&self, writer: impl Write) -> Result<(), Error> {
        key_file::write::<P>(writer, Kind::Public, self.bytes.as_ref())
    }
}

impl<P: ParameterSet> Verifier<P> for PublicKey<P> {
    fn verify_with(&self, message: &[u8], context: &[u8], signature: &Signature<P>) -> Result<(), Error> {
        verify::<P>(self, None, message, context, signature.as_bytes())
    }

    fn hash_verify(
        &self,
        function: Function,
        message: &[u8],
        context: &[u8],
        signature: &Signature<P>,
    ) -> Result<(), Error> {
        verify::<P>(self, Some(function), message, context, signature.as_bytes())
    }

    fn hash_verify_digest(
        &self,
        function: Function,
        digest: &[u8],
        context: &[u8],
        signature: &Signature<P>,
    ) -> Result<(), Error> {
        verify_digest::<P>(self, function, digest, context, signature.as_bytes())
    }
}

/// Verifies a signature of any length over a message, in the pre-hash form if there is a function.
pub(crate) fn verify<P: ParameterSet>(
    public: &PublicKey<P>,
    function: Option<Function>,
    message: &[u8],
    context: &[u8],
    signature: &[u8],
) -> Result<(), Error> {
    let pk = public.bytes.as_ref();
    done(match function {
        None => call!(slh_verify(P::NUMBER; pk, message, context, signature;)),
        Some(function) => call!(slh_hash_verify(P::NUMBER, function as u32; pk, message, context, signature;)),
    })
}

/// The same over a digest.
pub(crate) fn verify_digest<P: ParameterSet>(
    public: &PublicKey<P>,
    function: Function,
    digest: &[u8],
    context: &[u8],
    signature: &[u8],
) -> Result<(), Error> {
    let pk = public.bytes.as_ref();
    let result = call!(slh_hash_verify_digest(P::NUMBER, function as u32; pk, digest, context, signature;));
    done(result).map_err(|error| Content::Digest(function, digest).with_lengths(context, error))
}

impl<P: ParameterSet> TryFrom<&[u8]> for PublicKey<P> {
    type Error = Error;

    /// The key of these bytes. Refused: `BadLength` unless there are 2n.
    fn try_from(bytes: &[u8]) -> Result<Self, Error> {
        let expected = P::PublicKeyBytes::ZEROS.as_ref().len();
        match P::PublicKeyBytes::try_from(bytes) {
            Ok(bytes) => Ok(PublicKey { bytes }),
            Err(_) => Err(Refusal::BAD_LENGTH.of_lengths(expected, "bytes", bytes.len()).into()),
        }
    }
}

impl<P: ParameterSet> Hash for PublicKey<P> {
    fn hash<H: Hasher>(&self, state: &mut H) {
        self.bytes.as_ref().hash(state);
    }
}

impl<P: ParameterSet> fmt::Display for PublicKey<P> {
    fn fmt(&self, f: &mut fmt::Formatter<'_>) -> fmt::Result {
        f.write_str(P::NAME)
    }
}

impl<P: ParameterSet> fmt::Debug for PublicKey<P> {
    fn fmt(&self, f: &mut fmt::Formatter<'_>) -> fmt::Result {
        write!(f, "PublicKey({})", P::NAME)
    }
}
