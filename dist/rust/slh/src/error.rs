//! The errors of the package, and the refusals of the library.

use alloc::{borrow::ToOwned, string::String};
use core::{
    fmt,
    hash::{Hash, Hasher},
};
#[cfg(feature = "std")]
use std::{error, io};

use crate::sys;

/// Why a call did not do its work. No error has bytes of a key.
#[derive(Debug)]
#[non_exhaustive]
pub enum Error {
    /// The signature is not valid, or the root of the secret key is not the one that its seeds give.
    Invalid,
    /// The call was refused.
    Refused(Refusal),
    /// The source gave no random bytes.
    #[cfg(feature = "std")]
    RandomFailed(io::Error),
    /// A computation went wrong, as by bad memory or a bad processor, and nothing was signed. Two computations of a
    /// signature differ, [`Options::verify`](crate::Options::verify) found one that is not valid, or a new key is wrong.
    Fault,
    /// An answer of [`ParameterSet::self_test`](crate::ParameterSet::self_test) is not the known one. The library on this
    /// machine may not be used.
    SelfTestFailed,
    /// The key in a file is of another parameter set than the one asked for. Both are named as `SLH-DSA-SHA2-128f`.
    OtherSet {
        /// The set of the type.
        expected: &'static str,
        /// The set of the file.
        given: &'static str,
    },
    /// A key in DER or PEM has not the one form that is read.
    OtherForm(Conversion),
    /// A file could not be read.
    #[cfg(feature = "std")]
    ReadFailed(io::Error),
    /// A file could not be written. It is not there.
    #[cfg(feature = "std")]
    WriteFailed(io::Error),
}

impl fmt::Display for Error {
    fn fmt(&self, f: &mut fmt::Formatter<'_>) -> fmt::Result {
        match self {
            Error::Invalid => f.write_str("invalid"),
            Error::Refused(refusal) => refusal.fmt(f),
            #[cfg(feature = "std")]
            Error::RandomFailed(error) => write!(f, "7 RandomFailed: {error}"),
            Error::Fault => f.write_str("38 Fault: two results differ, or the signature or the new key is not valid"),
            Error::SelfTestFailed => f.write_str("40 SelfTestFailed: an answer of the self-test is not the known one"),
            Error::OtherSet { expected, given } => write!(f, "{expected} expected, a key of {given} given"),
            Error::OtherForm(conversion) => write!(f, "11 NotAKeyFile: {conversion}"),
            #[cfg(feature = "std")]
            Error::ReadFailed(error) => write!(f, "32 ReadFailed: {error}"),
            #[cfg(feature = "std")]
            Error::WriteFailed(error) => write!(f, "33 WriteFailed: {error}"),
        }
    }
}

#[cfg(feature = "std")]
impl error::Error for Error {
    fn source(&self) -> Option<&(dyn error::Error + 'static)> {
        match self {
            Error::RandomFailed(error) | Error::ReadFailed(error) | Error::WriteFailed(error) => Some(error),
            _ => None,
        }
    }
}

impl From<Refusal> for Error {
    fn from(refusal: Refusal) -> Self {
        Error::Refused(refusal)
    }
}

/// How a key in DER or PEM, which was refused, becomes one that is read.
#[derive(Debug, Clone, Copy, PartialEq, Eq)]
#[non_exhaustive]
pub enum Conversion {
    /// The key is secret, and a public one was asked for.
    IsSecret,
    /// The key is encrypted: `openssl pkey -in FILE -out NEW` asks for its password.
    IsEncrypted,
    /// This command of OpenSSL 3.5 converts it, if it is a key of one of the six sets.
    By(&'static str),
}

impl fmt::Display for Conversion {
    fn fmt(&self, f: &mut fmt::Formatter<'_>) -> fmt::Result {
        match self {
            Conversion::IsSecret => f.write_str("the key is secret, and a public one is asked for"),
            Conversion::IsEncrypted => {
                f.write_str("the key is encrypted; this asks for its password: openssl pkey -in FILE -out NEW")
            }
            Conversion::By(command) => {
                write!(f, "this is not the one form of the six sets; this converts it: {command}")
            }
        }
    }
}

/// A refusal by libslh's number. It is displayed as its number and name, and a refusal of a length also with the
/// lengths: `3 BadLength: 64 bytes expected, 63 given`. Two refusals are equal if their numbers are.
#[derive(Clone, Copy)]
pub struct Refusal {
    number: u32,
    lengths: Option<Lengths>,
}

/// The length that a call takes, and the one that it was given.
#[derive(Clone, Copy)]
struct Lengths {
    /// The words between the number that is expected and "expected".
    unit: &'static str,
    expected: usize,
    given: usize,
}

/// The refusals of key files, which libslh does not name: number, name and meaning (docs/FORMATS.md, "Refusals").
const OF_KEY_FILES: [(u32, &str, &str); 5] = [
    (11, "NotAKeyFile", "the first line is not that of a key file of the kind asked for"),
    (12, "UnknownSet", "this is not the name of one of the six sets"),
    (13, "BadHex", "the third line has a byte that is not a hexadecimal digit"),
    (14, "BadKeyLength", "the third line has another number of digits than keys of the set"),
    (15, "TrailingBytes", "bytes follow the third line"),
];

impl Refusal {
    /// Signing under a context of over 255 bytes.
    pub const CONTEXT_TOO_LONG: Refusal = Refusal::of(sys::SLH_CONTEXT_TOO_LONG);
    /// The key has another length than the set's keys.
    pub const BAD_LENGTH: Refusal = Refusal::of(sys::SLH_BAD_LENGTH);
    /// A file is not a key file, or has a key of the other kind.
    pub const NOT_A_KEY_FILE: Refusal = Refusal::of(11);
    /// The name is not one of the six sets', or that of a key file is not.
    pub const UNKNOWN_SET: Refusal = Refusal::of(12);
    /// The third line of a key file has a byte that is not a hexadecimal digit.
    pub const BAD_HEX: Refusal = Refusal::of(13);
    /// The third line of a key file has another number of digits than keys of the set.
    pub const BAD_KEY_LENGTH: Refusal = Refusal::of(14);
    /// Bytes follow the third line of a key file.
    pub const TRAILING_BYTES: Refusal = Refusal::of(15);
    /// A digest has another length than the function's digests.
    pub const BAD_DIGEST_LENGTH: Refusal = Refusal::of(sys::SLH_BAD_DIGEST_LENGTH);
    /// A randomizer has another length than n bytes.
    pub const BAD_RANDOMIZER_LENGTH: Refusal = Refusal::of(sys::SLH_BAD_RANDOMIZER_LENGTH);
    /// The answers of a signature's jobs don't fit together, as under a key that [`check`](crate::SecretKey::check)
    /// finds invalid.
    pub const ANSWERS_DISAGREE: Refusal = Refusal::of(sys::SLH_ANSWERS_DISAGREE);

    pub(crate) const fn of(number: u32) -> Self {
        Refusal { number, lengths: None }
    }

    /// The same refusal with the lengths. `unit` follows the expected number, as `bytes`.
    pub(crate) const fn of_lengths(self, expected: usize, unit: &'static str, given: usize) -> Self {
        Refusal { lengths: Some(Lengths { unit, expected, given }), ..self }
    }

    /// The number, that of `slh_verify.h` or of a key file.
    pub fn number(self) -> u32 {
        self.number
    }

    /// The name, as `ContextTooLong`.
    pub fn name(self) -> String {
        if let Some((_, name, _)) = self.of_key_files() {
            return (*name).to_owned();
        }
        let mut name = [0; sys::SLH_MAX_NAME];
        if sys::refusal_name(self.number, &mut name) != sys::SLH_DONE {
            return "NoSuchRefusal".to_owned();
        }
        name.iter().take_while(|&&byte| byte != 0).map(|&byte| char::from(byte)).collect()
    }

    /// The meaning, in an English sentence.
    pub fn text(self) -> &'static str {
        if let Some((_, _, text)) = self.of_key_files() {
            return text;
        }
        sys::refusal_text(self.number).to_str().unwrap_or_default()
    }

    /// The length that was expected, if the refusal is of a length: in bytes, and for `BadKeyLength` in digits.
    pub fn expected(self) -> Option<usize> {
        self.lengths.map(|it| it.expected)
    }

    /// The length that was given, if the refusal is of a length: in bytes, and for `BadKeyLength` in digits.
    pub fn given(self) -> Option<usize> {
        self.lengths.map(|it| it.given)
    }

    fn of_key_files(self) -> Option<&'static (u32, &'static str, &'static str)> {
        OF_KEY_FILES.iter().find(|(number, _, _)| *number == self.number)
    }
}

impl PartialEq for Refusal {
    fn eq(&self, other: &Self) -> bool {
        self.number == other.number
    }
}

impl Eq for Refusal {}

impl Hash for Refusal {
    fn hash<H: Hasher>(&self, state: &mut H) {
        self.number.hash(state);
    }
}

impl fmt::Display for Refusal {
    fn fmt(&self, f: &mut fmt::Formatter<'_>) -> fmt::Result {
        write!(f, "{} {}", self.number, self.name())?;
        match self.lengths {
            Some(Lengths { unit, expected, given }) => write!(f, ": {expected} {unit} expected, {given} given"),
            None => Ok(()),
        }
    }
}

impl fmt::Debug for Refusal {
    fn fmt(&self, f: &mut fmt::Formatter<'_>) -> fmt::Result {
        write!(f, "Refusal({self})")
    }
}
