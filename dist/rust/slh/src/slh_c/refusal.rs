// Made by tools/plain_rust.py from crates/slh_c/src/refusal.rt.
//! The numbers that the exports return (ours).

/// The result of a call that is done, or whose key or signature is valid.
pub const DONE: u32 = 0;

/// The result of a call whose key or signature is not valid. It is not 1, which OpenSSL and BoringSSL return for a
/// valid signature: a test `== 1` that was written for them would accept exactly the forgeries.
pub const INVALID: u32 = 30;

/// A law: the results that are no refusals have these numbers.
pub fn results_have_numbers() {}

/// Why a call is refused.
#[derive(Clone, Copy)]
pub enum Refusal {
    /// Signing under a context of over 255 bytes.
    ContextTooLong,
    /// A key of another length than the set's.
    BadLength,
    /// Levels that are above the height of the trees or above 8.
    BadCutting,
    /// A number that is not a parameter set's.
    NoSuchSet,
    /// A number that is not a pre-hash function's.
    NoSuchFunction,
    /// A seed of another length than n bytes.
    BadSeedLength,
    /// A first line that is not that of a key file.
    NotAKeyFile,
    /// A second line that is not the name of one of the standard's sets.
    UnknownSet,
    /// A byte of the third line that is not a hexadecimal digit.
    BadHex,
    /// Another number of digits than those of a key of the set.
    BadKeyLength,
    /// Bytes after the third line of a key file.
    TrailingBytes,
    /// A digest of another length than the function's.
    BadDigestLength,
    /// A randomizer that has neither 0 nor n bytes.
    BadRandomizerLength,
    /// An output of another length than the bytes to write.
    BadOutputLength,
    /// A number that is not a refusal's.
    NoSuchRefusal,
    /// Answers of another length than those of all jobs.
    BadAnswersLength,
    /// Answers that don't fit together.
    AnswersDisagree,
    /// A number that is no job's.
    NoSuchJob,
    /// A start of another length than the set's.
    BadStartLength,
    /// A start that does not have its tag under the key.
    BadStart,
    /// Two computations of one signature that differ.
    Fault,
    /// A self-test whose answers are not the known ones.
    SelfTestFailed,
    /// A number that is not a kind of keys.
    NoSuchKind,
}

/// The value of a result. A call that meets a refusal there returns its number.
macro_rules! or_refuse {
    ($result:expr) => {
        match $result {
            Ok(value) => value,
            Err(refusal) => return refusal.number(),
        }
    };
}

pub(crate) use or_refuse;

impl Refusal {
    /// The refusal's number.
    pub fn number(self) -> u32 {
        match self {
            Refusal::ContextTooLong => 2,
            Refusal::BadLength => 3,
            Refusal::BadCutting => 4,
            Refusal::NoSuchSet => 8,
            Refusal::NoSuchFunction => 9,
            Refusal::BadSeedLength => 10,
            Refusal::NotAKeyFile => 11,
            Refusal::UnknownSet => 12,
            Refusal::BadHex => 13,
            Refusal::BadKeyLength => 14,
            Refusal::TrailingBytes => 15,
            Refusal::BadDigestLength => 16,
            Refusal::BadRandomizerLength => 17,
            Refusal::BadOutputLength => 18,
            Refusal::NoSuchRefusal => 19,
            Refusal::BadAnswersLength => 20,
            Refusal::AnswersDisagree => 25,
            Refusal::NoSuchJob => 26,
            Refusal::BadStartLength => 27,
            Refusal::BadStart => 28,
            Refusal::Fault => 38,
            Refusal::SelfTestFailed => 40,
            Refusal::NoSuchKind => 41,
        }
    }

    /// The refusal's name.
    pub fn name(self) -> &'static str {
        match self {
            Refusal::ContextTooLong => "ContextTooLong",
            Refusal::BadLength => "BadLength",
            Refusal::BadCutting => "BadCutting",
            Refusal::NoSuchSet => "NoSuchSet",
            Refusal::NoSuchFunction => "NoSuchFunction",
            Refusal::BadSeedLength => "BadSeedLength",
            Refusal::NotAKeyFile => "NotAKeyFile",
            Refusal::UnknownSet => "UnknownSet",
            Refusal::BadHex => "BadHex",
            Refusal::BadKeyLength => "BadKeyLength",
            Refusal::TrailingBytes => "TrailingBytes",
            Refusal::BadDigestLength => "BadDigestLength",
            Refusal::BadRandomizerLength => "BadRandomizerLength",
            Refusal::BadOutputLength => "BadOutputLength",
            Refusal::NoSuchRefusal => "NoSuchRefusal",
            Refusal::BadAnswersLength => "BadAnswersLength",
            Refusal::AnswersDisagree => "AnswersDisagree",
            Refusal::NoSuchJob => "NoSuchJob",
            Refusal::BadStartLength => "BadStartLength",
            Refusal::BadStart => "BadStart",
            Refusal::Fault => "Fault",
            Refusal::SelfTestFailed => "SelfTestFailed",
            Refusal::NoSuchKind => "NoSuchKind",
        }
    }

    /// The refusal of a number. `None` if it is not a refusal's.
    pub fn from_number(number: u32) -> Option<Refusal> {
        match number {
            2 => Some(Refusal::ContextTooLong),
            3 => Some(Refusal::BadLength),
            4 => Some(Refusal::BadCutting),
            8 => Some(Refusal::NoSuchSet),
            9 => Some(Refusal::NoSuchFunction),
            10 => Some(Refusal::BadSeedLength),
            11 => Some(Refusal::NotAKeyFile),
            12 => Some(Refusal::UnknownSet),
            13 => Some(Refusal::BadHex),
            14 => Some(Refusal::BadKeyLength),
            15 => Some(Refusal::TrailingBytes),
            16 => Some(Refusal::BadDigestLength),
            17 => Some(Refusal::BadRandomizerLength),
            18 => Some(Refusal::BadOutputLength),
            19 => Some(Refusal::NoSuchRefusal),
            20 => Some(Refusal::BadAnswersLength),
            25 => Some(Refusal::AnswersDisagree),
            26 => Some(Refusal::NoSuchJob),
            27 => Some(Refusal::BadStartLength),
            28 => Some(Refusal::BadStart),
            38 => Some(Refusal::Fault),
            40 => Some(Refusal::SelfTestFailed),
            41 => Some(Refusal::NoSuchKind),
            _ => None,
        }
    }
}
