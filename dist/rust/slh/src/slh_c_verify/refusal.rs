// Made by tools/plain_rust.py from crates/slh_c_verify/src/refusal.rt.
//! The numbers that the exports return (ours).

/// The result of a call if the signature is valid.
pub const DONE: u32 = 0;

/// The result of a call if the signature is not valid. It is not 1, which OpenSSL and BoringSSL return for a valid one:
/// a test `== 1` that was written for them would accept exactly the forgeries.
pub const INVALID: u32 = 30;

/// A law: the results that are no refusals have these numbers.
pub fn results_have_numbers() {}

/// Why a call is refused.
#[derive(Clone, Copy)]
pub enum Refusal {
    /// A key of another length than the set's.
    BadLength,
    /// A number that is not a parameter set's.
    NoSuchSet,
    /// A number that is not a pre-hash function's.
    NoSuchFunction,
    /// A digest of another length than the function's.
    BadDigestLength,
}

/// The value of a result. A call that meets a refusal there returns its number.
macro_rules! or_refuse {
    ($result:expr) => {
        match $result {
            Ok(value) => value,
            Err(refusal) => return refusal.number(),
        }
    };
}

pub(crate) use or_refuse;

impl Refusal {
    /// The refusal's number.
    pub fn number(self) -> u32 {
        match self {
            Refusal::BadLength => 3,
            Refusal::NoSuchSet => 8,
            Refusal::NoSuchFunction => 9,
            Refusal::BadDigestLength => 16,
        }
    }
}
