// Made by tools/plain_rust.py from crates/slh_jobs/src/lib.rt.
//! One signature of SLH-DSA (FIPS 205) with SHA-2, and one key, as jobs for threads or processes of the caller. The
//! calls are pure functions of bytes, take no memory and start nothing.
//!
//! The trees of a signature are cut into ranges of one size, each of which is a job. `sign_start` makes R and the
//! digest of the message. `sign_job` writes the answer of one job. The jobs may be done in any order and in any thread.
//! `sign_join` makes the signature from the answers of all jobs, put end to end.
//!
//! These calls refuse a start that was not made under the key, and answers that don't fit together. An answer has
//! values of one-time keys: protect it as the secret key. The layout of answers may change in the next major version.

mod all_answers;
mod answer_bytes;
mod answers;
mod fault;
mod generation;
mod jobs;
mod joining;
mod judging;
mod levels;
mod shape;
mod signing;
mod start;
mod tag;
mod upper_tree;

pub use answers::sign_job;
pub use fault::JobFault;
pub use generation::{key_answer_len, keygen_job, keygen_jobs, keygen_join};
pub use jobs::{answer_len, answer_start, answers_len, levels_are_a_cutting, sign_jobs};
pub use joining::sign_join;
pub use levels::Levels;
pub use start::{MOST_START_LEN, sign_start, start_len};
pub use tag::{keys_differ, texts_differ};
