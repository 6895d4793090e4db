// Made by tools/plain_rust.py from crates/slh_key_files/src/fault.rt.
//! The refusals of key files.

#[cfg(feature = "alloc")]
use crate::memory::AllocError;
use thiserror::Error;

/// Why a key file is not read, or not written.
#[derive(Clone, Copy, Debug, PartialEq, Eq, Error)]
pub enum FileFault {
    #[error("a growth of memory was refused")]
    NoMemory,
    #[error("the first line is not that of a key file of this kind")]
    NotAKeyFile,
    #[error("the second line names no parameter set")]
    UnknownSet,
    #[error("the third line has a byte that is no hexadecimal digit")]
    BadHex,
    #[error("the third line has too few or too many digits for a key of the set")]
    BadKeyLength,
    #[error("bytes follow the third line")]
    TrailingBytes,
}

impl FileFault {
    /// The number of the refusal.
    pub fn number(&self) -> u8 {
        match self {
            FileFault::NoMemory => 1,
            FileFault::NotAKeyFile => 11,
            FileFault::UnknownSet => 12,
            FileFault::BadHex => 13,
            FileFault::BadKeyLength => 14,
            FileFault::TrailingBytes => 15,
        }
    }

    /// The name of the refusal.
    pub fn name(&self) -> &'static str {
        match self {
            FileFault::NoMemory => "NoMemory",
            FileFault::NotAKeyFile => "NotAKeyFile",
            FileFault::UnknownSet => "UnknownSet",
            FileFault::BadHex => "BadHex",
            FileFault::BadKeyLength => "BadKeyLength",
            FileFault::TrailingBytes => "TrailingBytes",
        }
    }
}

#[cfg(feature = "alloc")]
impl From<AllocError> for FileFault {
    fn from(_error: AllocError) -> FileFault {
        FileFault::NoMemory
    }
}
