// Made by tools/plain_rust.py from crates/slh_c/src/lib.rt.
//! SLH-DSA (FIPS 205) with SHA-2 for C and for any language that calls C: keys, signing and verifying in the calling
//! thread, without memory. One signature or key can be computed as jobs, by threads of the caller. `c/include/slh.h`
//! declares the calls, with the duties of a caller.
//!
//! Each call tests its numbers and lengths in the order of its rules (`specs/Rules`), and returns the number of the
//! first rule that is not met. If all are met, it calls `slh_core` or `slh_jobs`. Then it returns `DONE` or `INVALID`.
//! Three more numbers say that a start does not have its tag, that answers don't fit together, or that two runs differ.
//! The hardened calls return two numbers of their own.

pub mod cuttings;
pub mod generation;
pub mod hardened;
pub mod hashed_message;
pub mod internal_form;
pub mod jobs;
pub mod joining;
pub mod key_files;
pub mod keys;
pub mod many;
pub mod names;
pub mod numbers;
pub mod pkix;
pub mod pre_hash_form;
pub mod pure_form;
pub mod randomizer;
pub mod refusal;
pub mod rules;
pub mod self_test;
pub mod twice;
pub mod version;
