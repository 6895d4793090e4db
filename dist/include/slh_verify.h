/*
 * Verifying signatures of SLH-DSA (FIPS 205, August 2024) with SHA-2, for the six SHA-2 parameter sets.
 *
 * SPDX-License-Identifier: MIT OR Apache-2.0
 *
 *   slh_verify               a whole message in memory
 *   slh_hash_verify_digest   an image that is read in pieces: hash it yourself, and hand in the digest
 *   slh_hash_verify          a message in memory that was signed by its digest
 *   slh_verify_hardened, slh_hash_verify_digest_hardened
 *                            the first two for boot loaders, on a machine that an attacker may disturb
 *   slh_version              the version of the library
 *
 * A signature is valid only if one of the first three returns SLH_DONE:
 *
 *   if (slh_verify(SLH_DSA_SHA2_128F, pk, sizeof pk, msg, msg_len, NULL, 0, sig, sig_len) != SLH_DONE) return reject();
 *
 * The hardened calls return other numbers, which SLH_IS_VALID tests.
 *
 * Duties of the caller, which nothing checks: the number of bytes, at most PTRDIFF_MAX, follows each pointer. The
 * pointer points to that many bytes. They may be read until the call returns, and nothing else writes to them. If the
 * number is 0, the pointer may be null. The calls check everything else: sets, functions, lengths and bytes may be any.
 *
 * No call allocates memory or stores anything of its arguments. Any number of threads may be in any of the calls at
 * once. In the portable C (docs/MACHINES.md), slh.c allocates the memory of a call. There slh_verify.c has memory for
 * one call: a second call at that time returns SLH_NO_MEMORY.
 *
 * lib/libslh_verify.a has only the calls of this header, for firmware. slh.h has all calls. For boards with pointers of
 * 32 bits libslh_verify_128.a leaves out SHA-512. It refuses all sets except 128s and 128f (SLH_NO_SUCH_SET), and in
 * slh_hash_verify the functions made of SHA-512 (SLH_NO_SUCH_FUNCTION).
 */
#ifndef SLH_VERIFY_H
#define SLH_VERIFY_H

#include <stddef.h>
#include <stdint.h>

/* The version of this header: three numbers, the number that slh_version returns for it, and the text. */
#define SLH_VERSION_MAJOR 1
#define SLH_VERSION_MINOR 0
#define SLH_VERSION_PATCH 0
#define SLH_VERSION_NUMBER (1000000 * SLH_VERSION_MAJOR + 1000 * SLH_VERSION_MINOR + SLH_VERSION_PATCH)
#define SLH_VERSION "1.0.0"

/* Marks each call whose result has to be checked: compilers that can do so warn if it is ignored. */
#if defined(__cplusplus) && __cplusplus >= 201703L
#define SLH_MUST_USE [[nodiscard]]
#elif !defined(__cplusplus) && defined(__STDC_VERSION__) && __STDC_VERSION__ >= 202311L
#define SLH_MUST_USE [[nodiscard]]
#elif defined(__GNUC__)
#define SLH_MUST_USE __attribute__((warn_unused_result))
#else
#define SLH_MUST_USE
#endif

/* Marks each call: a shared object exports it, whatever visibility the program is compiled with. */
#ifndef SLH_API
#if defined(__GNUC__)
#define SLH_API __attribute__((visibility("default")))
#else
#define SLH_API
#endif
#endif

#ifdef __cplusplus
extern "C" {
#endif

/* The parameter sets (FIPS 205, section 11, Table 2). */
enum slh_set {
    SLH_DSA_SHA2_128S = 1,
    SLH_DSA_SHA2_128F = 2,
    SLH_DSA_SHA2_192S = 3,
    SLH_DSA_SHA2_192F = 4,
    SLH_DSA_SHA2_256S = 5,
    SLH_DSA_SHA2_256F = 6
};

/* The pre-hash functions (FIPS 205, section 10.2.2). Each goes with each set. */
enum slh_function {
    SLH_SHA2_224 = 1,
    SLH_SHA2_256 = 2,
    SLH_SHA2_384 = 3,
    SLH_SHA2_512 = 4,
    SLH_SHA2_512_224 = 5,
    SLH_SHA2_512_256 = 6
};

/*
 * The results of the calls of this header and of slh.h. No call returns 1. OpenSSL and BoringSSL return 1 for a valid
 * signature: if SLH_INVALID were 1, their test `== 1` would accept exactly the forgeries. Only the portable C returns
 * SLH_NO_MEMORY (docs/MACHINES.md): malloc refused the memory of the call, the arguments do not fit into the device's
 * memory, or another call uses it. This is checked first, and nothing is written. Only the library of several x86-64
 * levels returns SLH_OLD_PROCESSOR, also first: the processor is below x86-64-v2 (slh.h, slh_level).
 */
enum slh_result {
    SLH_DONE = 0,
    SLH_CONTEXT_TOO_LONG = 2,
    SLH_BAD_LENGTH = 3,
    SLH_BAD_CUTTING = 4,
    SLH_NO_SUCH_SET = 8,
    SLH_NO_SUCH_FUNCTION = 9,
    SLH_BAD_SEED_LENGTH = 10,
    SLH_NOT_A_KEY_FILE = 11,
    SLH_UNKNOWN_SET = 12,
    SLH_BAD_HEX = 13,
    SLH_BAD_KEY_LENGTH = 14,
    SLH_TRAILING_BYTES = 15,
    SLH_BAD_DIGEST_LENGTH = 16,
    SLH_BAD_RANDOMIZER_LENGTH = 17,
    SLH_BAD_OUTPUT_LENGTH = 18,
    SLH_NO_SUCH_REFUSAL = 19,
    SLH_BAD_ANSWERS_LENGTH = 20,
    SLH_ANSWERS_DISAGREE = 25,
    SLH_NO_SUCH_JOB = 26,
    SLH_BAD_START_LENGTH = 27,
    SLH_BAD_START = 28,
    SLH_INVALID = 30,
    SLH_NO_MEMORY = 37,
    SLH_FAULT = 38,
    SLH_OLD_PROCESSOR = 39,
    SLH_SELF_TEST_FAILED = 40,
    SLH_NO_SUCH_KIND = 41
};

/* n of each set: the length of a hash value, of a seed and of a randomizer in bytes. */
#define SLH_DSA_SHA2_128S_N 16
#define SLH_DSA_SHA2_128F_N 16
#define SLH_DSA_SHA2_192S_N 24
#define SLH_DSA_SHA2_192F_N 24
#define SLH_DSA_SHA2_256S_N 32
#define SLH_DSA_SHA2_256F_N 32
#define SLH_MAX_N 32

/* The length of a public key PK.seed || PK.root in bytes, 2n. */
#define SLH_DSA_SHA2_128S_PUBLIC_KEY 32
#define SLH_DSA_SHA2_128F_PUBLIC_KEY 32
#define SLH_DSA_SHA2_192S_PUBLIC_KEY 48
#define SLH_DSA_SHA2_192F_PUBLIC_KEY 48
#define SLH_DSA_SHA2_256S_PUBLIC_KEY 64
#define SLH_DSA_SHA2_256F_PUBLIC_KEY 64
#define SLH_MAX_PUBLIC_KEY 64

/* The length of a signature in bytes. */
#define SLH_DSA_SHA2_128S_SIGNATURE 7856
#define SLH_DSA_SHA2_128F_SIGNATURE 17088
#define SLH_DSA_SHA2_192S_SIGNATURE 16224
#define SLH_DSA_SHA2_192F_SIGNATURE 35664
#define SLH_DSA_SHA2_256S_SIGNATURE 29792
#define SLH_DSA_SHA2_256F_SIGNATURE 49856
#define SLH_MAX_SIGNATURE 49856

/*
 * The bytes of memory that the portable slh_verify.c needs for a set (docs/DEVICES.md). They are for its signature, a
 * context, a digest or a message of 64 bytes, the stack and the constants of the proved code. Add the further bytes of
 * a longer message.
 */
#define SLH_VERIFY_MEMORY_FOR(signature, message) (8192 + ((signature) + 15) / 16 * 16 + ((message) + 15) / 16 * 16)
#define SLH_DSA_SHA2_128S_VERIFY_MEMORY SLH_VERIFY_MEMORY_FOR(SLH_DSA_SHA2_128S_SIGNATURE, 0)
#define SLH_DSA_SHA2_128F_VERIFY_MEMORY SLH_VERIFY_MEMORY_FOR(SLH_DSA_SHA2_128F_SIGNATURE, 0)
#define SLH_DSA_SHA2_192S_VERIFY_MEMORY SLH_VERIFY_MEMORY_FOR(SLH_DSA_SHA2_192S_SIGNATURE, 0)
#define SLH_DSA_SHA2_192F_VERIFY_MEMORY SLH_VERIFY_MEMORY_FOR(SLH_DSA_SHA2_192F_SIGNATURE, 0)
#define SLH_DSA_SHA2_256S_VERIFY_MEMORY SLH_VERIFY_MEMORY_FOR(SLH_DSA_SHA2_256S_SIGNATURE, 0)
#define SLH_DSA_SHA2_256F_VERIFY_MEMORY SLH_VERIFY_MEMORY_FOR(SLH_DSA_SHA2_256F_SIGNATURE, 0)
#define SLH_MAX_VERIFY_MEMORY SLH_DSA_SHA2_256F_VERIFY_MEMORY

/* The most bytes of a context. */
#define SLH_MAX_CONTEXT 255

/*
 * To ask for the version of the library that the program runs with: 1,000,000 times the first number, 1,000 times the
 * second, and the third. If it is not SLH_VERSION_NUMBER, the library and this header have different versions.
 */
SLH_MUST_USE SLH_API
uint32_t slh_version(void);

/*
 * To verify a whole message in memory, in the pure form (Algorithm 24). The public key has 2n bytes. The context has at
 * most 255 bytes, and mostly none. A signature of another length than the set's is invalid, and so is any signature
 * under a context of over 255 bytes.
 * Returns: SLH_DONE if the signature is valid, SLH_INVALID if it is not; or the first refusal in this order:
 * SLH_NO_SUCH_SET, SLH_BAD_LENGTH (of the key).
 */
SLH_MUST_USE SLH_API
uint32_t slh_verify(uint32_t set, const uint8_t *pk, size_t pk_len, const uint8_t *msg, size_t msg_len,
                    const uint8_t *ctx, size_t ctx_len, const uint8_t *sig, size_t sig_len);

/*
 * To verify a message that is read in pieces, as an image that goes to flash: compute its digest under the pre-hash
 * function, and pass that (Algorithm 25 after its pre-hash). A digest has 28 bytes for SHA2-224 and SHA2-512/224, 32
 * for SHA2-256 and SHA2-512/256, 48 for SHA2-384, 64 for SHA2-512. Only signatures of the pre-hash form are valid. The
 * other lengths are those of slh_verify.
 * Returns: SLH_DONE if the signature is valid, SLH_INVALID if it is not; or the first refusal in this order:
 * SLH_NO_SUCH_SET, SLH_NO_SUCH_FUNCTION, SLH_BAD_LENGTH (of the key), SLH_BAD_DIGEST_LENGTH.
 */
SLH_MUST_USE SLH_API
uint32_t slh_hash_verify_digest(uint32_t set, uint32_t function, const uint8_t *pk, size_t pk_len,
                                const uint8_t *digest, size_t digest_len, const uint8_t *ctx, size_t ctx_len,
                                const uint8_t *sig, size_t sig_len);

/*
 * To verify a message in memory that was signed by its digest (Algorithm 25): this computes the digest under the
 * pre-hash function. The lengths are those of slh_verify.
 * Returns: SLH_DONE if the signature is valid, SLH_INVALID if it is not; or the first refusal in this order:
 * SLH_NO_SUCH_SET, SLH_NO_SUCH_FUNCTION, SLH_BAD_LENGTH (of the key).
 */
SLH_MUST_USE SLH_API
uint32_t slh_hash_verify(uint32_t set, uint32_t function, const uint8_t *pk, size_t pk_len, const uint8_t *msg,
                         size_t msg_len, const uint8_t *ctx, size_t ctx_len, const uint8_t *sig, size_t sig_len);

/*
 * The results of the hardened calls. Each number is the sum of two halves. The computed root is compared with PK.root
 * two times, one time for each half: a fault that turns one comparison gives neither number. SLH_IS_VALID tests a
 * variable, which it reads three times, so that skipping one test does not decide. Write it as the whole condition
 * of the `if` that boots. No code behind that `if` may boot. `volatile` keeps both writes:
 *
 *   volatile uint32_t verdict = SLH_HARDENED_INVALID;
 *   verdict = slh_hash_verify_digest_hardened(SLH_DSA_SHA2_128S, SLH_SHA2_256, pk, sizeof pk, digest, sizeof digest,
 *                                             NULL, 0, sig, sig_len);
 *   if (SLH_IS_VALID(verdict)) boot();
 *   stop();
 */
#define SLH_HARDENED_VALID 0x79d617a4u
#define SLH_HARDENED_INVALID 0x7c91d87fu
#define SLH_READ_AGAIN(verdict) (*(const volatile uint32_t *)&(verdict))
#define SLH_IS_VALID(verdict)                                                                                          \
    (SLH_READ_AGAIN(verdict) == SLH_HARDENED_VALID && SLH_READ_AGAIN(verdict) >> 16 == SLH_HARDENED_VALID >> 16 &&     \
     (SLH_READ_AGAIN(verdict) & 0xffffu) == (SLH_HARDENED_VALID & 0xffffu))

/*
 * To verify as slh_verify does, on a machine that an attacker disturbs, as by a pulse on its supply. One comparison
 * that is turned does not turn the verdict. docs/DEVICES.md lists the faults that were tried, and the processor. No
 * other fault is claimed to be harmless.
 * Returns: SLH_HARDENED_VALID if slh_verify returns SLH_DONE, and else SLH_HARDENED_INVALID. slh_verify tells why it
 * refuses a call.
 */
SLH_MUST_USE SLH_API
uint32_t slh_verify_hardened(uint32_t set, const uint8_t *pk, size_t pk_len, const uint8_t *msg, size_t msg_len,
                             const uint8_t *ctx, size_t ctx_len, const uint8_t *sig, size_t sig_len);

/*
 * To verify as slh_hash_verify_digest does, on such a machine.
 * Returns: SLH_HARDENED_VALID if slh_hash_verify_digest returns SLH_DONE, and else SLH_HARDENED_INVALID.
 */
SLH_MUST_USE SLH_API
uint32_t slh_hash_verify_digest_hardened(uint32_t set, uint32_t function, const uint8_t *pk, size_t pk_len,
                                         const uint8_t *digest, size_t digest_len, const uint8_t *ctx, size_t ctx_len,
                                         const uint8_t *sig, size_t sig_len);

#ifdef __cplusplus
}
#endif

#endif
