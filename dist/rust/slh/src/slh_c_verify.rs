// Made by tools/plain_rust.py from crates/slh_c_verify/src/lib.rt.
//! Verifying signatures of SLH-DSA (FIPS 205) with SHA-2, for firmware in C: the calls of `c/include/slh_verify.h`, and
//! no others. Their contracts are those of the same calls of `slh_c`, word for word (`tests/test_boards.py` compares
//! the texts).
//!
//! This crate stands on `slh_core`, and not on `slh_jobs`, so that a build for a board compiles no signing code.

pub mod hardened;
pub mod keys;
pub mod numbers;
pub mod pre_hash_form;
pub mod pure_form;
pub mod refusal;
pub mod version;
