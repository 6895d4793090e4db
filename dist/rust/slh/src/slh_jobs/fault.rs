// Made by tools/plain_rust.py from crates/slh_jobs/src/fault.rt.
//! The reasons why jobs are refused (ours).

use thiserror::Error;

/// Why a job is not done, or answers are not joined.
#[derive(Clone, Copy, PartialEq, Eq, Debug, Error)]
pub enum JobFault {
    /// The answers have another length than those of all jobs.
    #[error("the answers have another length than those of all jobs")]
    BadAnswersLength,
    /// The answers don't fit together.
    #[error("the answers don't fit together")]
    AnswersDisagree,
    /// The start does not have its tag under this key.
    #[error("the start was not made under this key, or was changed")]
    BadStart,
}

impl JobFault {
    /// The number of the refusal.
    pub fn number(&self) -> u8 {
        match self {
            JobFault::BadAnswersLength => 20,
            JobFault::AnswersDisagree => 25,
            JobFault::BadStart => 28,
        }
    }

    /// The name of the refusal.
    pub fn name(&self) -> &'static str {
        match self {
            JobFault::BadAnswersLength => "BadAnswersLength",
            JobFault::AnswersDisagree => "AnswersDisagree",
            JobFault::BadStart => "BadStart",
        }
    }
}
