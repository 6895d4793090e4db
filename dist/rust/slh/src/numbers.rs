// Made by tools/plain_rust.py from bindings/rust/slh-sys/src/lib.rs.
//! The numbers of the headers for C.

/// `slh_version` of the version that these declarations are of.
pub const SLH_VERSION_NUMBER: u32 = 1_000_000;
/// The number of the set SLH-DSA-SHA2-128s.
pub const SLH_DSA_SHA2_128S: u32 = 1;
/// The number of the set SLH-DSA-SHA2-128f.
pub const SLH_DSA_SHA2_128F: u32 = 2;
/// The number of the set SLH-DSA-SHA2-192s.
pub const SLH_DSA_SHA2_192S: u32 = 3;
/// The number of the set SLH-DSA-SHA2-192f.
pub const SLH_DSA_SHA2_192F: u32 = 4;
/// The number of the set SLH-DSA-SHA2-256s.
pub const SLH_DSA_SHA2_256S: u32 = 5;
/// The number of the set SLH-DSA-SHA2-256f.
pub const SLH_DSA_SHA2_256F: u32 = 6;
/// The number of the pre-hash function SHA2-224.
pub const SLH_SHA2_224: u32 = 1;
/// The number of the pre-hash function SHA2-256.
pub const SLH_SHA2_256: u32 = 2;
/// The number of the pre-hash function SHA2-384.
pub const SLH_SHA2_384: u32 = 3;
/// The number of the pre-hash function SHA2-512.
pub const SLH_SHA2_512: u32 = 4;
/// The number of the pre-hash function SHA2-512/224.
pub const SLH_SHA2_512_224: u32 = 5;
/// The number of the pre-hash function SHA2-512/256.
pub const SLH_SHA2_512_256: u32 = 6;
/// Done, or valid.
pub const SLH_DONE: u32 = 0;
/// Signing under a context of over 255 bytes.
pub const SLH_CONTEXT_TOO_LONG: u32 = 2;
/// The key has another length than the set's keys.
pub const SLH_BAD_LENGTH: u32 = 3;
/// A number of levels is above 8 or above the height of the trees.
pub const SLH_BAD_CUTTING: u32 = 4;
/// The number is not a set's.
pub const SLH_NO_SUCH_SET: u32 = 8;
/// The number is not a pre-hash function's.
pub const SLH_NO_SUCH_FUNCTION: u32 = 9;
/// A seed has another length than n bytes.
pub const SLH_BAD_SEED_LENGTH: u32 = 10;
/// The bytes are not a key in the form that the call reads.
pub const SLH_NOT_A_KEY_FILE: u32 = 11;
/// The second line of the key file is not the name of a set: this and the next three are of `slh_key_read` alone.
pub const SLH_UNKNOWN_SET: u32 = 12;
/// The third line of the key file has a byte that is not a hexadecimal digit.
pub const SLH_BAD_HEX: u32 = 13;
/// The third line of the key file has too few or too many digits for a key of the set.
pub const SLH_BAD_KEY_LENGTH: u32 = 14;
/// Bytes follow the third line of the key file.
pub const SLH_TRAILING_BYTES: u32 = 15;
/// The digest has another length than the function's digests.
pub const SLH_BAD_DIGEST_LENGTH: u32 = 16;
/// The randomizer has neither 0 nor n bytes.
pub const SLH_BAD_RANDOMIZER_LENGTH: u32 = 17;
/// The output has another length than what is written.
pub const SLH_BAD_OUTPUT_LENGTH: u32 = 18;
/// The number is not a refusal's.
pub const SLH_NO_SUCH_REFUSAL: u32 = 19;
/// The answers have another length than those of all jobs.
pub const SLH_BAD_ANSWERS_LENGTH: u32 = 20;
/// The answers don't fit together.
pub const SLH_ANSWERS_DISAGREE: u32 = 25;
/// The number is no job's.
pub const SLH_NO_SUCH_JOB: u32 = 26;
/// The start has another length than the set's.
pub const SLH_BAD_START_LENGTH: u32 = 27;
/// The start does not have its tag under this key.
pub const SLH_BAD_START: u32 = 28;
/// Not valid: `slh_check` and the verify calls alone return it.
pub const SLH_INVALID: u32 = 30;
/// What the hardened calls return for a valid signature.
pub const SLH_HARDENED_VALID: u32 = 0x79d6_17a4;
/// What the hardened calls return for everything else.
pub const SLH_HARDENED_INVALID: u32 = 0x7c91_d87f;
/// The portable C alone returns it: it got no memory for the call.
pub const SLH_NO_MEMORY: u32 = 37;
/// The two computations of one signature differ: the calls whose names end in `_twice` return it.
pub const SLH_FAULT: u32 = 38;
/// The processor is below x86-64-v2: the library has no code for it.
pub const SLH_OLD_PROCESSOR: u32 = 39;
/// An answer of the self-test is not the known one: `slh_self_test` alone returns it.
pub const SLH_SELF_TEST_FAILED: u32 = 40;
/// The number is not a kind of keys.
pub const SLH_NO_SUCH_KIND: u32 = 41;
/// The kind of public keys.
pub const SLH_PUBLIC_KEY: u32 = 1;
/// The kind of secret keys.
pub const SLH_SECRET_KEY: u32 = 2;
/// The most bytes of a refusal's name with the zero byte after it.
pub const SLH_MAX_NAME: usize = 20;
/// The most bytes of a key file that `slh_key_write` writes, with a zero byte after it.
pub const SLH_MAX_KEY_FILE: usize = 293;
/// The most bytes that `slh_der_write` writes.
pub const SLH_MAX_DER: usize = 150;
/// The most bytes that `slh_pem_write` writes, with a zero byte after them.
pub const SLH_MAX_PEM: usize = 259;
/// The most bytes of a secret key.
pub const SLH_MAX_SECRET_KEY: usize = 128;
/// The most bytes of a context.
pub const SLH_MAX_CONTEXT: usize = 255;
