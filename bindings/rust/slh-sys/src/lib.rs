//! Declarations of libslh, SLH-DSA (FIPS 205) with SHA-2. Programs call the crate `slh`, which is built on this one.
//!
//! `tools/library.sh` installs `slh.h` and `slh_verify.h` with the library. They describe each call: its work, the
//! lengths that it takes, and its results.
//!
//! # Safety
//!
//! Of every call here: each pointer to bytes is followed by their number. It points to that many bytes, which may be
//! read, and for an output also written, until the call returns. If the number is 0 the pointer may be null. No
//! number is above `isize::MAX`. A pointer to one number is not null, and aligned. An output overlaps no other
//! argument, and nothing else writes to an argument while the call runs. The calls test all else.
#![no_std]

use core::ffi::{c_char, c_void};

/// `slh_version` of the version that these declarations are of.
pub const SLH_VERSION_NUMBER: u32 = 1_000_000;

/// The number of the set SLH-DSA-SHA2-128s.
pub const SLH_DSA_SHA2_128S: u32 = 1;
/// The number of the set SLH-DSA-SHA2-128f.
pub const SLH_DSA_SHA2_128F: u32 = 2;
/// The number of the set SLH-DSA-SHA2-192s.
pub const SLH_DSA_SHA2_192S: u32 = 3;
/// The number of the set SLH-DSA-SHA2-192f.
pub const SLH_DSA_SHA2_192F: u32 = 4;
/// The number of the set SLH-DSA-SHA2-256s.
pub const SLH_DSA_SHA2_256S: u32 = 5;
/// The number of the set SLH-DSA-SHA2-256f.
pub const SLH_DSA_SHA2_256F: u32 = 6;

/// The number of the pre-hash function SHA2-224.
pub const SLH_SHA2_224: u32 = 1;
/// The number of the pre-hash function SHA2-256.
pub const SLH_SHA2_256: u32 = 2;
/// The number of the pre-hash function SHA2-384.
pub const SLH_SHA2_384: u32 = 3;
/// The number of the pre-hash function SHA2-512.
pub const SLH_SHA2_512: u32 = 4;
/// The number of the pre-hash function SHA2-512/224.
pub const SLH_SHA2_512_224: u32 = 5;
/// The number of the pre-hash function SHA2-512/256.
pub const SLH_SHA2_512_256: u32 = 6;

/// Done, or valid.
pub const SLH_DONE: u32 = 0;
/// Signing under a context of over 255 bytes.
pub const SLH_CONTEXT_TOO_LONG: u32 = 2;
/// The key has another length than the set's keys.
pub const SLH_BAD_LENGTH: u32 = 3;
/// A number of levels is above 8 or above the height of the trees.
pub const SLH_BAD_CUTTING: u32 = 4;
/// The number is not a set's.
pub const SLH_NO_SUCH_SET: u32 = 8;
/// The number is not a pre-hash function's.
pub const SLH_NO_SUCH_FUNCTION: u32 = 9;
/// A seed has another length than n bytes.
pub const SLH_BAD_SEED_LENGTH: u32 = 10;
/// The bytes are not a key in the form that the call reads.
pub const SLH_NOT_A_KEY_FILE: u32 = 11;
/// The second line of the key file is not the name of a set: this and the next three are of `slh_key_read` alone.
pub const SLH_UNKNOWN_SET: u32 = 12;
/// The third line of the key file has a byte that is not a hexadecimal digit.
pub const SLH_BAD_HEX: u32 = 13;
/// The third line of the key file has too few or too many digits for a key of the set.
pub const SLH_BAD_KEY_LENGTH: u32 = 14;
/// Bytes follow the third line of the key file.
pub const SLH_TRAILING_BYTES: u32 = 15;
/// The digest has another length than the function's digests.
pub const SLH_BAD_DIGEST_LENGTH: u32 = 16;
/// The randomizer has neither 0 nor n bytes.
pub const SLH_BAD_RANDOMIZER_LENGTH: u32 = 17;
/// The output has another length than what is written.
pub const SLH_BAD_OUTPUT_LENGTH: u32 = 18;
/// The number is not a refusal's.
pub const SLH_NO_SUCH_REFUSAL: u32 = 19;
/// The answers have another length than those of all jobs.
pub const SLH_BAD_ANSWERS_LENGTH: u32 = 20;
/// The answers don't fit together.
pub const SLH_ANSWERS_DISAGREE: u32 = 25;
/// The number is no job's.
pub const SLH_NO_SUCH_JOB: u32 = 26;
/// The start has another length than the set's.
pub const SLH_BAD_START_LENGTH: u32 = 27;
/// The start does not have its tag under this key.
pub const SLH_BAD_START: u32 = 28;
/// Not valid: `slh_check` and the verify calls alone return it.
pub const SLH_INVALID: u32 = 30;
/// What the hardened calls return for a valid signature.
pub const SLH_HARDENED_VALID: u32 = 0x79d6_17a4;
/// What the hardened calls return for everything else.
pub const SLH_HARDENED_INVALID: u32 = 0x7c91_d87f;
/// The portable C alone returns it: it got no memory for the call.
pub const SLH_NO_MEMORY: u32 = 37;
/// The two computations of one signature differ: the calls whose names end in `_twice` return it.
pub const SLH_FAULT: u32 = 38;
/// The processor is below x86-64-v2: the library has no code for it.
pub const SLH_OLD_PROCESSOR: u32 = 39;
/// An answer of the self-test is not the known one: `slh_self_test` alone returns it.
pub const SLH_SELF_TEST_FAILED: u32 = 40;
/// The number is not a kind of keys.
pub const SLH_NO_SUCH_KIND: u32 = 41;

/// The kind of public keys.
pub const SLH_PUBLIC_KEY: u32 = 1;
/// The kind of secret keys.
pub const SLH_SECRET_KEY: u32 = 2;

/// The most bytes of a refusal's name with the zero byte after it.
pub const SLH_MAX_NAME: usize = 20;
/// The most bytes of a key file that `slh_key_write` writes, with a zero byte after it.
pub const SLH_MAX_KEY_FILE: usize = 293;
/// The most bytes that `slh_der_write` writes.
pub const SLH_MAX_DER: usize = 150;
/// The most bytes that `slh_pem_write` writes, with a zero byte after them.
pub const SLH_MAX_PEM: usize = 259;
/// The most bytes of a secret key.
pub const SLH_MAX_SECRET_KEY: usize = 128;
/// The most bytes of a context.
pub const SLH_MAX_CONTEXT: usize = 255;

/// An item of `slh_verify_many`: a public key, a message, a context and a signature, each with its length in bytes.
#[repr(C)]
#[derive(Clone, Copy, Debug)]
#[allow(non_camel_case_types)]
pub struct slh_signed {
    /// The public key.
    pub pk: *const u8,
    /// Its length.
    pub pk_len: u64,
    /// The message.
    pub msg: *const u8,
    /// Its length.
    pub msg_len: u64,
    /// The context.
    pub ctx: *const u8,
    /// Its length.
    pub ctx_len: u64,
    /// The signature.
    pub sig: *const u8,
    /// Its length.
    pub sig_len: u64,
}

// tools/call_tables.py writes the lines from here on.
extern "C" {
    /// Writes the lengths of a set's public keys, secret keys and signatures, and n.
    #[must_use]
    pub fn slh_lengths(set: u32, pk_len: *mut usize, sk_len: *mut usize, sig_len: *mut usize, n: *mut usize) -> u32;
    /// Writes the secret key of three seeds of n bytes each (Algorithm 18).
    #[must_use]
    pub fn slh_keygen(
        set: u32,
        sk_seed: *const u8,
        sk_seed_len: usize,
        sk_prf: *const u8,
        sk_prf_len: usize,
        pk_seed: *const u8,
        pk_seed_len: usize,
        sk: *mut u8,
        sk_len: usize,
    ) -> u32;
    /// Writes the public key of a secret key, its last 2n bytes.
    #[must_use]
    pub fn slh_public(set: u32, sk: *const u8, sk_len: usize, pk: *mut u8, pk_len: usize) -> u32;
    /// Whether PK.root of a secret key is the root that its seeds give.
    #[must_use]
    pub fn slh_check(set: u32, sk: *const u8, sk_len: usize) -> u32;
    /// To read a key file of the program `slh` or of a package (docs/FORMATS.md, "Key file"), of either kind and
    /// version.
    #[must_use]
    pub fn slh_key_read(
        file: *const u8,
        file_len: usize,
        set: *mut u32,
        kind: *mut u32,
        key: *mut u8,
        key_len: usize,
    ) -> u32;
    /// To write a key file: writes its text of three lines, of version 2, and zeros from there to the end of text, at
    /// least one.
    #[must_use]
    pub fn slh_key_write(
        set: u32,
        kind: u32,
        key: *const u8,
        key_len: usize,
        text: *mut c_char,
        text_len: usize,
    ) -> u32;
    /// To read a key of another program in DER (bindings/README.md, "Keys for other programs"): a
    /// SubjectPublicKeyInfo, or a PKCS#8 PrivateKeyInfo that has neither attributes nor a public key.
    #[must_use]
    pub fn slh_der_read(
        der: *const u8,
        der_len: usize,
        set: *mut u32,
        kind: *mut u32,
        key: *mut u8,
        key_len: usize,
    ) -> u32;
    /// To read the same in PEM: base64 in lines of 64 characters between the lines of a PUBLIC KEY or a PRIVATE KEY.
    #[must_use]
    pub fn slh_pem_read(
        pem: *const u8,
        pem_len: usize,
        set: *mut u32,
        kind: *mut u32,
        key: *mut u8,
        key_len: usize,
    ) -> u32;
    /// To write the key `of` in DER: writes its bytes, and zeros from there to the end of der.
    #[must_use]
    pub fn slh_der_write(
        set: u32,
        kind: u32,
        of: *const u8,
        of_len: usize,
        written: *mut u32,
        der: *mut u8,
        der_len: usize,
    ) -> u32;
    /// To write the same in PEM: at least one zero follows the text, which has none.
    #[must_use]
    pub fn slh_pem_write(
        set: u32,
        kind: u32,
        of: *const u8,
        of_len: usize,
        written: *mut u32,
        pem: *mut u8,
        pem_len: usize,
    ) -> u32;
    /// To test a set on this machine before it is used, as when a service starts: generates a known key, signs a known
    /// message, and compares PK.root and the SHA-256 of the signature with the answers of OpenSSL.
    #[must_use]
    pub fn slh_self_test(set: u32, scratch: *mut u8, scratch_len: usize) -> u32;
    /// Signs in the pure form (Algorithm 22).
    #[must_use]
    pub fn slh_sign(
        set: u32,
        sk: *const u8,
        sk_len: usize,
        msg: *const u8,
        msg_len: usize,
        ctx: *const u8,
        ctx_len: usize,
        randomizer: *const u8,
        randomizer_len: usize,
        sig: *mut u8,
        sig_len: usize,
    ) -> u32;
    /// Signs in the pre-hash form, with the digest of the message.
    #[must_use]
    pub fn slh_hash_sign_digest(
        set: u32,
        function: u32,
        sk: *const u8,
        sk_len: usize,
        digest: *const u8,
        digest_len: usize,
        ctx: *const u8,
        ctx_len: usize,
        randomizer: *const u8,
        randomizer_len: usize,
        sig: *mut u8,
        sig_len: usize,
    ) -> u32;
    /// Signs in the pre-hash form, with the message (Algorithm 23).
    #[must_use]
    pub fn slh_hash_sign(
        set: u32,
        function: u32,
        sk: *const u8,
        sk_len: usize,
        msg: *const u8,
        msg_len: usize,
        ctx: *const u8,
        ctx_len: usize,
        randomizer: *const u8,
        randomizer_len: usize,
        sig: *mut u8,
        sig_len: usize,
    ) -> u32;
    /// Verifies many signatures of the pure form, each under its own key and context, and writes a verdict on each.
    #[must_use]
    pub fn slh_verify_many(
        set: u32,
        items: *const slh_signed,
        items_len: usize,
        verdicts: *mut u32,
        verdicts_len: usize,
    ) -> u32;
    /// Writes what is hashed before a message of the pure form: R, PK.seed, PK.root, 0, the context's length and the
    /// context (section 11.2). The result does not say that the signature is valid.
    #[must_use]
    pub fn slh_verify_front(
        set: u32,
        pk: *const u8,
        pk_len: usize,
        ctx: *const u8,
        ctx_len: usize,
        sig: *const u8,
        sig_len: usize,
        front: *mut u8,
        front_len: usize,
    ) -> u32;
    /// Verifies in the pure form by the caller's hash of the front and the message (Algorithm 24 after this hash).
    #[must_use]
    pub fn slh_verify_hashed(
        set: u32,
        pk: *const u8,
        pk_len: usize,
        hash: *const u8,
        hash_len: usize,
        sig: *const u8,
        sig_len: usize,
    ) -> u32;
    /// Signs in the pure form two times, and compares (Algorithm 22). `scratch` has room for two signatures.
    #[must_use]
    pub fn slh_sign_twice(
        set: u32,
        sk: *const u8,
        sk_len: usize,
        msg: *const u8,
        msg_len: usize,
        ctx: *const u8,
        ctx_len: usize,
        randomizer: *const u8,
        randomizer_len: usize,
        scratch: *mut u8,
        scratch_len: usize,
        sig: *mut u8,
        sig_len: usize,
    ) -> u32;
    /// Signs in the pre-hash form two times, with the digest of the message, and compares.
    #[must_use]
    pub fn slh_hash_sign_digest_twice(
        set: u32,
        function: u32,
        sk: *const u8,
        sk_len: usize,
        digest: *const u8,
        digest_len: usize,
        ctx: *const u8,
        ctx_len: usize,
        randomizer: *const u8,
        randomizer_len: usize,
        scratch: *mut u8,
        scratch_len: usize,
        sig: *mut u8,
        sig_len: usize,
    ) -> u32;
    /// Signs in the pre-hash form two times, with the message, and compares (Algorithm 23).
    #[must_use]
    pub fn slh_hash_sign_twice(
        set: u32,
        function: u32,
        sk: *const u8,
        sk_len: usize,
        msg: *const u8,
        msg_len: usize,
        ctx: *const u8,
        ctx_len: usize,
        randomizer: *const u8,
        randomizer_len: usize,
        scratch: *mut u8,
        scratch_len: usize,
        sig: *mut u8,
        sig_len: usize,
    ) -> u32;
    /// Writes the name of a refusal, and zero bytes to the end of `name`.
    pub fn slh_refusal_name(refusal: u32, name: *mut c_char, name_len: usize) -> u32;
    /// A sentence in English for a result's number. The bytes are constant, and a zero byte ends them.
    #[must_use]
    pub fn slh_refusal_text(result: u32) -> *const c_char;
    /// Writes zeros over bytes that are no longer needed, also where the compiler sees that nobody reads them again.
    pub fn slh_erase(bytes: *mut c_void, n: usize);
    /// For which level of processors the code is that runs: 2, 3 or 4 of x86-64, or 0 where the library has one level
    /// alone.
    #[must_use]
    pub fn slh_level() -> u32;
    /// Writes how many jobs a signature has, and the lengths of its start and of all answers.
    #[must_use]
    pub fn slh_sign_jobs(
        set: u32,
        xmss_levels: u32,
        fors_levels: u32,
        jobs: *mut u32,
        start_len: *mut usize,
        answers_len: *mut usize,
    ) -> u32;
    /// Writes where a job's answer begins among those of all jobs, and its length.
    #[must_use]
    pub fn slh_answer_place(
        set: u32,
        xmss_levels: u32,
        fors_levels: u32,
        job: u32,
        at: *mut usize,
        len: *mut usize,
    ) -> u32;
    /// Writes the start of a signature of the pure form.
    #[must_use]
    pub fn slh_sign_start(
        set: u32,
        sk: *const u8,
        sk_len: usize,
        msg: *const u8,
        msg_len: usize,
        ctx: *const u8,
        ctx_len: usize,
        randomizer: *const u8,
        randomizer_len: usize,
        start: *mut u8,
        start_len: usize,
    ) -> u32;
    /// Writes the start of a signature of the pre-hash form.
    #[must_use]
    pub fn slh_hash_sign_start(
        set: u32,
        function: u32,
        sk: *const u8,
        sk_len: usize,
        msg: *const u8,
        msg_len: usize,
        ctx: *const u8,
        ctx_len: usize,
        randomizer: *const u8,
        randomizer_len: usize,
        start: *mut u8,
        start_len: usize,
    ) -> u32;
    /// Writes the answer of one job. Answers are as secret as the key.
    #[must_use]
    pub fn slh_sign_job(
        set: u32,
        xmss_levels: u32,
        fors_levels: u32,
        sk: *const u8,
        sk_len: usize,
        start: *const u8,
        start_len: usize,
        job: u32,
        answer: *mut u8,
        answer_len: usize,
    ) -> u32;
    /// Writes the signature that the answers of all jobs make.
    #[must_use]
    pub fn slh_sign_join(
        set: u32,
        xmss_levels: u32,
        fors_levels: u32,
        sk: *const u8,
        sk_len: usize,
        start: *const u8,
        start_len: usize,
        answers: *const u8,
        answers_len: usize,
        sig: *mut u8,
        sig_len: usize,
    ) -> u32;
    /// Writes how many jobs the generation of a key has, and the length of an answer.
    #[must_use]
    pub fn slh_keygen_jobs(set: u32, xmss_levels: u32, jobs: *mut u32, answer_len: *mut usize) -> u32;
    /// Writes the answer of one job of the generation of a key.
    #[must_use]
    pub fn slh_keygen_job(
        set: u32,
        xmss_levels: u32,
        sk_seed: *const u8,
        sk_seed_len: usize,
        sk_prf: *const u8,
        sk_prf_len: usize,
        pk_seed: *const u8,
        pk_seed_len: usize,
        job: u32,
        answer: *mut u8,
        answer_len: usize,
    ) -> u32;
    /// Writes the secret key that the answers of all jobs make.
    #[must_use]
    pub fn slh_keygen_join(
        set: u32,
        xmss_levels: u32,
        sk_seed: *const u8,
        sk_seed_len: usize,
        sk_prf: *const u8,
        sk_prf_len: usize,
        pk_seed: *const u8,
        pk_seed_len: usize,
        answers: *const u8,
        answers_len: usize,
        sk: *mut u8,
        sk_len: usize,
    ) -> u32;
    /// The version of the library: 1,000,000 times its first number, 1,000 times its second, and its third.
    #[must_use]
    pub fn slh_version() -> u32;
    /// Verifies a signature of the pure form (Algorithm 24).
    #[must_use]
    pub fn slh_verify(
        set: u32,
        pk: *const u8,
        pk_len: usize,
        msg: *const u8,
        msg_len: usize,
        ctx: *const u8,
        ctx_len: usize,
        sig: *const u8,
        sig_len: usize,
    ) -> u32;
    /// Verifies a signature of the pre-hash form, with the digest of the message.
    #[must_use]
    pub fn slh_hash_verify_digest(
        set: u32,
        function: u32,
        pk: *const u8,
        pk_len: usize,
        digest: *const u8,
        digest_len: usize,
        ctx: *const u8,
        ctx_len: usize,
        sig: *const u8,
        sig_len: usize,
    ) -> u32;
    /// Verifies a signature of the pre-hash form, with the message (Algorithm 25).
    #[must_use]
    pub fn slh_hash_verify(
        set: u32,
        function: u32,
        pk: *const u8,
        pk_len: usize,
        msg: *const u8,
        msg_len: usize,
        ctx: *const u8,
        ctx_len: usize,
        sig: *const u8,
        sig_len: usize,
    ) -> u32;
    /// The verdict of `slh_verify` as one of two numbers, each made of two comparisons.
    #[must_use]
    pub fn slh_verify_hardened(
        set: u32,
        pk: *const u8,
        pk_len: usize,
        msg: *const u8,
        msg_len: usize,
        ctx: *const u8,
        ctx_len: usize,
        sig: *const u8,
        sig_len: usize,
    ) -> u32;
    /// The verdict of `slh_hash_verify_digest` as one of these numbers.
    #[must_use]
    pub fn slh_hash_verify_digest_hardened(
        set: u32,
        function: u32,
        pk: *const u8,
        pk_len: usize,
        digest: *const u8,
        digest_len: usize,
        ctx: *const u8,
        ctx_len: usize,
        sig: *const u8,
        sig_len: usize,
    ) -> u32;
}
// tools/call_tables.py has written the lines up to here.
