// Made by tools/plain_rust.py from crates/slh_core/src/fault.rt.
//! The refusals of this crate (ours).

use thiserror::Error;

/// Why bytes are not a key.
#[derive(Debug, Error)]
pub enum KeyFault {
    /// They are more or fewer than a key of the set has.
    #[error("a key of this parameter set has another length")]
    BadLength,
}

impl KeyFault {
    /// The refusal's number.
    pub fn number(&self) -> u8 {
        match self {
            KeyFault::BadLength => 3,
        }
    }

    /// The refusal's name.
    pub fn name(&self) -> &'static str {
        match self {
            KeyFault::BadLength => "BadLength",
        }
    }
}

/// Why a message is not signed.
#[derive(Debug, Error)]
pub enum SignFault {
    /// The context has over 255 bytes.
    #[error("the context has over 255 bytes")]
    ContextTooLong,
}

impl SignFault {
    /// The refusal's number.
    pub fn number(&self) -> u8 {
        match self {
            SignFault::ContextTooLong => 2,
        }
    }

    /// The refusal's name.
    pub fn name(&self) -> &'static str {
        match self {
            SignFault::ContextTooLong => "ContextTooLong",
        }
    }
}

/// Why key generation failed.
#[derive(Debug, Error)]
pub enum KeygenFault {
    /// A draw of random bytes failed.
    #[error("the source of random bytes failed")]
    RandomFailed,
}

impl KeygenFault {
    /// The refusal's number.
    pub fn number(&self) -> u8 {
        match self {
            KeygenFault::RandomFailed => 7,
        }
    }

    /// The refusal's name.
    pub fn name(&self) -> &'static str {
        match self {
            KeygenFault::RandomFailed => "RandomFailed",
        }
    }
}
