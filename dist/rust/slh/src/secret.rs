//! Secret keys (FIPS 205, section 9.1), and signing.

use alloc::boxed::Box;
use core::fmt;
#[cfg(feature = "std")]
use std::{
    io::{self, Read, Write},
    path::Path,
};

use crate::{
    Error, Function, Options, ParameterSet, PublicKey, Refusal, Signature, Verifier,
    call::{certainly_done, done},
    options::{Content, slice},
    secrets::{Secrets, are_same, erase},
    sets::Bytes,
    sys::call,
};
#[cfg(feature = "std")]
use crate::{jobs::Workers, key_file, random, sets::Kind};

/// Keys that sign messages: a [`SecretKey`] in one thread, [`Workers`] in several.
pub trait Signer<P: ParameterSet> {
    /// Signs in the pure form (Algorithm 22). Refused: `ContextTooLong` for a context of over 255 bytes;
    /// `BadRandomizerLength` for a given randomizer that does not have n bytes. `Error::RandomFailed` if the system
    /// gives no random bytes for a randomizer. `Error::Fault` as the options say.
    ///
    /// If [`check`](SecretKey::check) finds the key invalid, a [`SecretKey`] makes a signature that is not valid, and
    /// [`Workers`] are refused as `AnswersDisagree`.
    fn sign_with(&self, message: &[u8], options: Options<'_>) -> Result<Signature<P>, Error>;

    /// Signs in the pre-hash form (Algorithm 23), with a digest that this computes. Errors are those of `sign_with`.
    fn hash_sign(&self, function: Function, message: &[u8], options: Options<'_>) -> Result<Signature<P>, Error>;

    /// Signs in the pure form, under the empty context and with a fresh randomizer. `Error::RandomFailed` if the
    /// system gives none; under a key that `check` finds invalid as `sign_with`.
    #[cfg(feature = "std")]
    fn sign(&self, message: &[u8]) -> Result<Signature<P>, Error> {
        self.sign_with(message, Options::default())
    }
}

/// A secret key, SK.seed, SK.prf, PK.seed and PK.root: 4n bytes. They are overwritten when the key is dropped.
///
/// It is printed as its set alone. It is not `Clone`: [`duplicate`](SecretKey::duplicate) makes a second one by its
/// name. `==` compares all bytes, and does not end at the first that differs. [`as_bytes`](SecretKey::as_bytes),
/// [`dump`](SecretKey::dump) and [`write_to`](SecretKey::write_to) alone give the bytes away.
pub struct SecretKey<P: ParameterSet> {
    /// In a box they stay in their place when a key is moved, and leave no copy behind.
    bytes: Box<P::SecretKeyBytes>,
}

#[cfg(feature = "std")]
impl<P: ParameterSet> SecretKey<P> {
    /// Makes a key from random bytes of the system (Algorithm 21), and checks it. `Error::RandomFailed` if it gives
    /// none; `Error::Fault` if [`check`](SecretKey::check) finds another root.
    pub fn generate() -> Result<Self, Error> {
        Self::generate_from(random::fill)
    }

    /// Makes a key from random bytes of a source of the caller's own, which has to be fit for keys (Algorithm 21).
    /// `fill` is called three times, with n bytes for SK.seed, SK.prf and PK.seed in this order. Its error is returned
    /// as `Error::RandomFailed`. `Error::Fault` is as that of `generate`.
    pub fn generate_from(fill: impl FnMut(&mut [u8]) -> io::Result<()>) -> Result<Self, Error> {
        Self::generated(fill, Self::keygen)
    }

    /// The key that `make` makes of new seeds, unless `check` finds it invalid, as after a fault.
    fn generated(
        mut fill: impl FnMut(&mut [u8]) -> io::Result<()>,
        make: impl FnOnce(&P::Seed, &P::Seed, &P::Seed) -> Self,
    ) -> Result<Self, Error> {
        let mut seeds = Seeds::<P>([P::Seed::ZEROS; 3]);
        for seed in &mut seeds.0 {
            fill(seed.as_mut()).map_err(Error::RandomFailed)?;
        }
        let key = make(&seeds.0[0], &seeds.0[1], &seeds.0[2]);
        match key.check() {
            Ok(()) => Ok(key),
            Err(Error::Invalid) => Err(Error::Fault),
            Err(error) => Err(error),
        }
    }

    /// The key in a key file, as `slh keygen` writes it. The bytes that were read are erased. Errors are those of
    /// [`read_from`](SecretKey::read_from).
    pub fn load(path: impl AsRef<Path>) -> Result<Self, Error> {
        Self::of_file(&key_file::load(path.as_ref(), Kind::Secret)?)
    }

    /// The key in the bytes of a key file (docs/FORMATS.md, "Key file", both versions), as `&text[..]`. Refused, with
    /// the first fault: `NotAKeyFile`, also for the file of a public key; `UnknownSet`, `BadHex`, `BadKeyLength`,
    /// `TrailingBytes`. `Error::OtherSet` if the key is of another set; `Error::ReadFailed`.
    pub fn read_from(reader: impl Read) -> Result<Self, Error> {
        Self::of_file(&key_file::read(reader, Kind::Secret)?)
    }

    pub(crate) fn of_file(file: &key_file::KeyFile) -> Result<Self, Error> {
        let mut key = Self::zeros();
        file.decode(P::NAME, key.bytes_mut())?;
        Ok(key)
    }

    /// Writes a new key file of version 2, which on Unix the owner alone can read and write (mode 0600). Elsewhere its
    /// rights are those that its folder gives. `Error::WriteFailed` if it can't be written, and if the path exists: no
    /// file is overwritten, and a part of one does not stay.
    pub fn dump(&self, path: impl AsRef<Path>) -> Result<(), Error> {
        key_file::dump::<P>(path.as_ref(), Kind::Secret, self.slice())
    }

    /// Writes the text of a key file of version 2. `Error::WriteFailed`.
    pub fn write_to(&self, writer: impl Write) -> Result<(), Error> {
        key_file::write::<P>(writer, Kind::Secret, self.slice())
    }

    /// Workers that sign under this key by that many threads, the caller's among them. 0 and 1 are the caller's alone.
    pub fn workers(&self, count: usize) -> Workers<'_, P> {
        Workers::new(self, count)
    }
}

impl<P: ParameterSet> SecretKey<P> {
    /// Makes the key of three seeds (Algorithm 18), which are as secret as the key. Unlike `generate` it does not check
    /// the key.
    pub fn keygen(sk_seed: &P::Seed, sk_prf: &P::Seed, pk_seed: &P::Seed) -> Self {
        let mut key = Self::zeros();
        let [first, second, third] = [sk_seed.as_ref(), sk_prf.as_ref(), pk_seed.as_ref()];
        let out = key.bytes_mut();
        certainly_done(call!(slh_keygen(P::NUMBER; first, second, third; out)));
        key
    }

    fn zeros() -> Self {
        SecretKey { bytes: Box::new(P::SecretKeyBytes::ZEROS) }
    }

    fn bytes_mut(&mut self) -> &mut [u8] {
        (*self.bytes).as_mut()
    }

    /// The key of these 4n bytes. Call `check` once on one that comes from elsewhere. The caller's array stays as it
    /// is: `try_from` makes the key of a slice without a copy on the stack.
    pub fn from_bytes(mut bytes: P::SecretKeyBytes) -> Self {
        let mut key = Self::zeros();
        key.bytes_mut().copy_from_slice(bytes.as_ref());
        erase(bytes.as_mut());
        key
    }

    /// A second key of the same bytes, which is overwritten when it is dropped, too.
    pub fn duplicate(&self) -> Self {
        let mut key = Self::zeros();
        key.bytes_mut().copy_from_slice(self.slice());
        key
    }

    /// The 4n bytes of the key.
    pub fn as_bytes(&self) -> &P::SecretKeyBytes {
        &self.bytes
    }

    pub(crate) fn slice(&self) -> &[u8] {
        (*self.bytes).as_ref()
    }

    /// The public key: the last 2n bytes.
    pub fn public(&self) -> PublicKey<P> {
        let mut bytes = P::PublicKeyBytes::ZEROS;
        let out = bytes.as_mut();
        certainly_done(call!(slh_public(P::NUMBER; self.slice(); out)));
        PublicKey::from_bytes(bytes)
    }

    /// Whether PK.root is the root that the seeds give: else `Error::Invalid`. This takes as long as making a key.
    pub fn check(&self) -> Result<(), Error> {
        done(call!(slh_check(P::NUMBER; self.slice();)))
    }

    /// Signs in the pre-hash form (Algorithm 23) by a message's digest, for messages that are read in pieces. Errors
    /// are those of [`sign_with`](Signer::sign_with), and `BadDigestLength` if the digest has another length than
    /// the function's.
    pub fn hash_sign_digest(
        &self,
        function: Function,
        digest: &[u8],
        options: Options<'_>,
    ) -> Result<Signature<P>, Error> {
        self.signed(Content::Digest(function, digest), options)
    }

    fn signed(&self, content: Content<'_>, options: Options<'_>) -> Result<Signature<P>, Error> {
        let randomizer = options.randomizer.drawn::<P>()?;
        let random = slice(&randomizer);
        let result = if options.is_once() {
            Signature::written(|out| self.write(content, options.context, random, out))
        } else {
            let mut scratch = Secrets::zeros(2 * P::SIGNATURE);
            Signature::written(|out| self.write_twice(content, options.context, random, scratch.bytes_mut(), out))
        };
        let signature = result.map_err(|error| content.with_lengths(options.context, error))?;
        self.released(signature, content, options)
    }

    /// The signature, unless the options have it verified and it is not valid.
    pub(crate) fn released(
        &self,
        signature: Signature<P>,
        content: Content<'_>,
        options: Options<'_>,
    ) -> Result<Signature<P>, Error> {
        if !options.verify {
            return Ok(signature);
        }
        let (public, context) = (self.public(), options.context);
        signature.released(|it| match content {
            Content::Pure(message) => public.verify_with(message, context, it),
            Content::PreHash(function, message) => public.hash_verify(function, message, context, it),
            Content::Digest(function, digest) => public.hash_verify_digest(function, digest, context, it),
        })
    }

    fn write(&self, content: Content<'_>, context: &[u8], random: &[u8], out: &mut [u8]) -> u32 {
        let (set, sk) = (P::NUMBER, self.slice());
        match content {
            Content::Pure(message) => call!(slh_sign(set; sk, message, context, random; out)),
            Content::PreHash(function, message) => {
                call!(slh_hash_sign(set, function as u32; sk, message, context, random; out))
            }
            Content::Digest(function, digest) => {
                call!(slh_hash_sign_digest(set, function as u32; sk, digest, context, random; out))
            }
        }
    }

    /// The same, computed two times into `scratch`, the room of two signatures.
    fn write_twice(
        &self,
        content: Content<'_>,
        context: &[u8],
        random: &[u8],
        scratch: &mut [u8],
        out: &mut [u8],
    ) -> u32 {
        let (set, sk) = (P::NUMBER, self.slice());
        match content {
            Content::Pure(message) => call!(slh_sign_twice(set; sk, message, context, random; scratch, out)),
            Content::PreHash(function, message) => {
                call!(slh_hash_sign_twice(set, function as u32; sk, message, context, random; scratch, out))
            }
            Content::Digest(function, digest) => {
                call!(slh_hash_sign_digest_twice(set, function as u32; sk, digest, context, random; scratch, out))
            }
        }
    }
}

impl<P: ParameterSet> Signer<P> for SecretKey<P> {
    fn sign_with(&self, message: &[u8], options: Options<'_>) -> Result<Signature<P>, Error> {
        self.signed(Content::Pure(message), options)
    }

    fn hash_sign(&self, function: Function, message: &[u8], options: Options<'_>) -> Result<Signature<P>, Error> {
        self.signed(Content::PreHash(function, message), options)
    }
}

impl<P: ParameterSet> TryFrom<&[u8]> for SecretKey<P> {
    type Error = Error;

    /// The key of these bytes. Refused: `BadLength` unless there are 4n.
    fn try_from(bytes: &[u8]) -> Result<Self, Error> {
        let mut key = Self::zeros();
        let own = key.bytes_mut();
        if own.len() != bytes.len() {
            return Err(Refusal::BAD_LENGTH.of_lengths(own.len(), "bytes", bytes.len()).into());
        }
        own.copy_from_slice(bytes);
        Ok(key)
    }
}

impl<P: ParameterSet> PartialEq for SecretKey<P> {
    fn eq(&self, other: &Self) -> bool {
        are_same(self.slice(), other.slice())
    }
}

impl<P: ParameterSet> Eq for SecretKey<P> {}

impl<P: ParameterSet> fmt::Debug for SecretKey<P> {
    fn fmt(&self, f: &mut fmt::Formatter<'_>) -> fmt::Result {
        write!(f, "SecretKey({})", P::NAME)
    }
}

impl<P: ParameterSet> Drop for SecretKey<P> {
    fn drop(&mut self) {
        erase(self.bytes_mut());
    }
}

/// The seeds of a key, which are overwritten when they are dropped.
#[cfg(feature = "std")]
struct Seeds<P: ParameterSet>([P::Seed; 3]);

#[cfg(feature = "std")]
impl<P: ParameterSet> Drop for Seeds<P> {
    fn drop(&mut self) {
        self.0.iter_mut().for_each(|seed| erase(seed.as_mut()));
    }
}

#[cfg(all(test, feature = "std"))]
mod tests {
    use std::mem::MaybeUninit;

    use super::*;
    use crate::sets::SlhDsaSha2_128f;

    #[test]
    #[allow(unsafe_code)]
    fn seeds_are_overwritten_when_they_are_dropped() {
        let mut place = MaybeUninit::new(Seeds::<SlhDsaSha2_128f>([[7; 16]; 3]));
        // SAFETY: there are seeds, which nobody uses again. They have no memory but their place, whose bytes are read.
        let left = unsafe {
            place.as_mut_ptr().drop_in_place();
            place.as_ptr().cast::<[u8; 48]>().read()
        };
        assert_eq!(left, [0; 48]);
    }

    /// A bit of SK.seed, PK.seed or PK.root that flips while a key is made.
    #[test]
    fn a_new_key_with_a_wrong_bit_is_a_fault() {
        type Secret = SecretKey<SlhDsaSha2_128f>;
        for place in [0, 32, 63] {
            let made = Secret::generated(random::fill, |first, second, third| {
                let mut key = Secret::keygen(first, second, third);
                key.bytes_mut()[place] ^= 1;
                key
            });
            assert!(matches!(made, Err(Error::Fault)), "{place}");
        }
        assert!(Secret::generated(random::fill, Secret::keygen).is_ok());
    }
}
