// Made by tools/plain_rust.py from crates/slh_hash/src/lib.rt.
//! The hash functions of SLH-DSA with SHA-2 (FIPS 205, section 11.2). Nothing here takes memory or refuses.

pub use category_hmac::CategoryHmac;
pub use hmac::{hmac_sha256, hmac_sha512};
pub use message::{HMsg, h_msg, h_msg_by_hash, inner_hash_len, prf_msg};
pub use mgf1::{mgf1_sha256, mgf1_sha512};
pub use seeded_hash::SeededHash;
pub use t_stream::{SeededTreeHash, TStream};
pub use tweakable::{f, h, prf};

mod category_hasher;
mod category_hmac;
mod hash_function;
mod hmac;
mod message;
mod mgf1;
mod seeded_hash;
mod t_stream;
mod tweakable;
