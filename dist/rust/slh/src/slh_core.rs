// Made by tools/plain_rust.py from crates/slh_core/src/lib.rt.
//! SLH-DSA (FIPS 205) with SHA-2 in one thread and without memory: keys, message digests, pre-hashing,
//! signing and verifying.

pub use comparing::are_same;
pub use digest_parts::{DigestIndices, DigestIndices as Cut, digest_indices, digest_indices as cut_digest};
pub use eight::{SignedParts, verify_eight};
pub use fault::{KeyFault, KeygenFault, SignFault};
pub use form::Form;
pub use formatted_message::FormattedMessage;
pub use generation::{check_pair, keygen_internal};
pub use hardened::{HARDENED_INVALID, HARDENED_VALID, hash_verify_digest_hardened, verify_hardened};
pub use hashed_message::{front_len, verify_front, verify_hashed};
pub use message_digest::MessageDigest;
pub use pre_hash::PreHash;
pub use pre_hash_form::{hash_sign, hash_sign_digest, hash_verify, hash_verify_digest};
pub use pre_hasher::PreHasher;
pub use public_key::PublicKey;
pub use pure_form::{sign, verify};
pub use random::{FromRng, RandomBytes, SourceFault, keygen};
pub use randomizer::Randomizer;
pub use secret_key::SecretKey;
pub use signing::sign_internal;
pub use crate::slh_hash::inner_hash_len;
pub use crate::slh_params::ParamSet;
pub use verifier::Verifier;
pub use verifying::verify_internal;

/// The steps of signing one by one (FIPS 205, Algorithms 19, 22 and 23), for a signer that makes the trees elsewhere,
/// as `slh_par` and `slh_jobs` do. A user of one thread needs none of them.
pub mod signing_steps {
    pub use crate::slh_core::digest_parts::MOST_DIGEST_LEN;
    pub use crate::slh_core::layout::fors_sig_len;
    pub use crate::slh_core::signing::randomized_digest;
}

mod comparing;
mod digest_parts;
mod eight;
mod fault;
mod form;
mod formatted_message;
mod generation;
mod hardened;
mod hashed_message;
mod layout;
mod message_digest;
mod pre_hash;
mod pre_hash_form;
mod pre_hasher;
mod public_key;
mod pure_form;
mod random;
mod randomizer;
mod secret_key;
mod signing;
mod verifier;
mod verifying;
