//! The options of signing and verifying (FIPS 205, section 10.2).

use core::fmt;

#[cfg(feature = "std")]
use crate::random;
use crate::{Error, Function, ParameterSet, Refusal, sets::Bytes, sys};

/// How a message is signed. By default the context is empty, the randomizer is drawn from the system, and the
/// signature is computed two times, compared, and not verified.
#[derive(Clone, Copy, Debug)]
#[cfg_attr(feature = "std", derive(Default))]
pub struct Options<'a> {
    /// At most 255 bytes.
    pub context: &'a [u8],
    /// Where the randomizer comes from.
    pub randomizer: Randomizer<'a>,
    /// Computes the signature one time, which takes half the time. By default it is computed two times, by
    /// [`Workers`](crate::Workers) each of its jobs, and all bytes are compared. If they differ nothing is signed:
    /// [`Error::Fault`]. One wrong signature under a key can be enough to forge others (SECURITY.md, "Faults").
    pub once: bool,
    /// Asks for two computations, even with `once`. Version 2.0 or later may remove it.
    #[deprecated(note = "two computations are the default: leave it out")]
    pub twice: bool,
    /// Verifies the signature under the public key before it is returned. If it is not valid it is overwritten with
    /// zeros: [`Error::Fault`]. This finds fewer faults than two computations: a wrong signature can be valid, and
    /// still let others forge.
    pub verify: bool,
}

impl<'a> Options<'a> {
    /// The options with this randomizer. All others are the default ones.
    #[allow(deprecated)]
    pub const fn with_randomizer(randomizer: Randomizer<'a>) -> Self {
        Options { context: b"", randomizer, once: false, twice: false, verify: false }
    }
}

impl Options<'_> {
    /// Whether the signature is computed one time. The deprecated word prevails.
    #[allow(deprecated)]
    pub(crate) fn is_once(self) -> bool {
        self.once && !self.twice
    }
}

/// The randomizer of a signature, FIPS 205's opt_rand.
#[derive(Clone, Copy)]
#[cfg_attr(feature = "std", derive(Default))]
pub enum Randomizer<'a> {
    /// n fresh bytes of the system.
    #[cfg(feature = "std")]
    #[default]
    System,
    /// These n bytes, as of a generator of the caller's own.
    Given(&'a [u8]),
    /// None: the deterministic variant (FIPS 205, section 9.2), which is more exposed to hardware faults.
    Deterministic,
}

impl Randomizer<'_> {
    /// The n bytes, or none for the deterministic variant.
    pub(crate) fn drawn<P: ParameterSet>(self) -> Result<Option<P::Seed>, Error> {
        match self {
            #[cfg(feature = "std")]
            Randomizer::System => {
                let mut seed = P::Seed::ZEROS;
                random::fill(seed.as_mut()).map(|()| Some(seed)).map_err(Error::RandomFailed)
            }
            Randomizer::Given(bytes) => P::Seed::try_from(bytes).map(Some).map_err(|_| {
                let expected = P::Seed::ZEROS.as_ref().len();
                Refusal::BAD_RANDOMIZER_LENGTH.of_lengths(expected, "bytes", bytes.len()).into()
            }),
            Randomizer::Deterministic => Ok(None),
        }
    }
}

impl fmt::Debug for Randomizer<'_> {
    /// The bytes are not printed: they may be a seed that was given by mistake.
    fn fmt(&self, f: &mut fmt::Formatter<'_>) -> fmt::Result {
        match self {
            #[cfg(feature = "std")]
            Randomizer::System => f.write_str("System"),
            Randomizer::Given(bytes) => write!(f, "Given({} bytes)", bytes.len()),
            Randomizer::Deterministic => f.write_str("Deterministic"),
        }
    }
}

/// The bytes of an array, or none.
pub(crate) fn slice<B: Bytes>(bytes: &Option<B>) -> &[u8] {
    bytes.as_ref().map_or(&[], |bytes| bytes.as_ref())
}

/// The message or the digest of a signature, with its form.
#[derive(Clone, Copy)]
pub(crate) enum Content<'a> {
    Pure(&'a [u8]),
    PreHash(Function, &'a [u8]),
    Digest(Function, &'a [u8]),
}

impl Content<'_> {
    /// The error of a call over this content and context, with the lengths if it is of a length.
    pub(crate) fn with_lengths(self, context: &[u8], error: Error) -> Error {
        match (error, self) {
            (Error::Refused(it), _) if it == Refusal::CONTEXT_TOO_LONG => {
                it.of_lengths(sys::SLH_MAX_CONTEXT, "bytes at most", context.len()).into()
            }
            (Error::Refused(it), Content::Digest(function, digest)) if it == Refusal::BAD_DIGEST_LENGTH => {
                it.of_lengths(function.digest_len(), "bytes", digest.len()).into()
            }
            (error, _) => error,
        }
    }
}
