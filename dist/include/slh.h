/*
 * SLH-DSA (FIPS 205, August 2024) with SHA-2: keys, signing and verifying for the six SHA-2 parameter sets.
 *
 * SPDX-License-Identifier: MIT OR Apache-2.0
 *
 *   slh_keygen, slh_public            to make a secret key, and to give away its public key
 *   slh_check                         to check a secret key that comes from elsewhere, once
 *   slh_key_read, slh_key_write       to read and write key files
 *   slh_der_read, slh_der_write       to read and write keys in DER
 *   slh_pem_read, slh_pem_write       to read and write keys in PEM
 *   slh_self_test                     to test key generation, signing and verifying by known answers
 *   slh_sign_twice, slh_hash_sign_digest_twice, slh_hash_sign_twice
 *                                     to sign two times and compare, as you should: one fault can cost the key
 *   slh_sign, slh_verify              to sign once, and to verify, a message in memory
 *   slh_hash_sign_digest, slh_hash_verify_digest
 *                                     to sign and verify a message that is read in pieces: you compute its digest
 *   slh_hash_sign, slh_hash_verify    to sign and verify the digest of a message in memory, which these compute
 *   slh_verify_front, slh_verify_hashed
 *                                     to verify in the pure form a message that you hash in pieces
 *   slh_verify_many                   to verify many signatures in one call, in less time
 *   slh_verify_hardened, slh_hash_verify_digest_hardened
 *                                     to verify in a boot loader, on a machine that an attacker may disturb
 *   slh_sign_jobs, slh_sign_start, slh_hash_sign_start, slh_answer_place, slh_sign_job, slh_sign_join
 *                                     to compute one signature by threads or processes of your own
 *   slh_keygen_jobs, slh_keygen_job, slh_keygen_join
 *                                     to compute one key by them
 *   slh_erase                         to overwrite seeds, keys and answers in your buffers
 *   slh_level                         to ask for the processor's level whose code runs
 *   slh_lengths, slh_refusal_name, slh_refusal_text, slh_version
 *                                     lengths by a set's number, the name of a refusal and a sentence for it, the
 *                                     library's version
 *
 * slh_verify.h, which this header includes, declares the calls that verify, the numbers and the lengths.
 *
 *
 * Duties of the caller, which nothing checks
 *
 * - The number of bytes follows each pointer to bytes. The pointer points to that many bytes, which may be read, and
 *   for an output also written, until the call returns. It may be null if the number is 0. No number is above
 *   PTRDIFF_MAX.
 * - A pointer to one number (slh_lengths, slh_key_read, the four calls for DER and PEM, slh_sign_jobs,
 *   slh_answer_place, slh_keygen_jobs) is not null, and is aligned as its type. So are the arrays of slh_verify_many,
 *   whose lengths count elements. They may be null if these are 0.
 * - An output overlaps no other argument, and nothing else writes to an argument while the call runs. scratch is an
 *   output, too.
 * - Seeds and randomizers are n fresh bytes from a source that is fit for keys: this library draws none. A randomizer
 *   of n bytes is FIPS 205's opt_rand; one of 0 bytes makes the deterministic variant (section 9.2).
 *
 * The calls check everything else: the numbers of sets, pre-hash functions, kinds of keys and refusals, all lengths,
 * and each byte of a key file, of DER and of PEM.
 *
 * No call allocates memory or stores anything of its arguments. Any number of threads may be in any of the calls at
 * once. Nothing is claimed about the time of a call.
 *
 * A call that takes a secret key, its file, seeds or answers clears its traces before it returns. These are the stack
 * below its caller, and the registers that a call need not preserve. This is tested (SECURITY.md, "What a call
 * leaves"). The caller has to erase his buffers (slh_erase), copies by signals, swap or core dumps, and the stack of
 * the module for WebAssembly. The portable slh.c (docs/MACHINES.md) allocates memory, and erases only that. A library
 * that tools/library.sh built --from-source clears nothing.
 *
 *
 * Calls take their arguments in this order:
 *
 *   1  set             5  message       9  job
 *   2  function        6  context       10 answers
 *   3  levels          7  randomizer    11 scratch
 *   4  key or seeds    8  start         12 output or signature
 *
 * The seeds are SK.seed, SK.prf and PK.seed, in this order. A digest or a hash takes the place of the message, a kind
 * of keys that of the function, and a key file, DER or PEM that of the key. An output follows a signature.
 *
 * A call returns SLH_DONE (0), SLH_INVALID (30, only slh_check and the verify calls), or a refusal's number. The
 * exceptions are slh_version, slh_level, slh_erase, slh_refusal_text, and the two hardened calls, which return
 * SLH_HARDENED_VALID or SLH_HARDENED_INVALID. The other calls check their arguments in the order of this list, and
 * return the first number that applies:
 *
 *   SLH_OLD_PROCESSOR          the library has several levels (slh_level), and the processor is below x86-64-v2
 *   SLH_NO_SUCH_REFUSAL        slh_refusal_name alone: the number is not a result's
 *   SLH_NO_SUCH_SET            the number is not a set's
 *   SLH_NO_SUCH_FUNCTION       the number is not a pre-hash function's
 *   SLH_NO_SUCH_KIND           the number is not a kind of keys
 *   SLH_NOT_A_KEY_FILE         the bytes are not a key in the form that the call reads
 *   SLH_UNKNOWN_SET, SLH_BAD_HEX, SLH_BAD_KEY_LENGTH, SLH_TRAILING_BYTES
 *                              slh_key_read alone: the first fault of the file
 *   SLH_BAD_CUTTING            a number of levels is above 8 or above the height of the trees
 *   SLH_NO_SUCH_JOB            the number is no job's
 *   SLH_BAD_LENGTH             the key has another length than the set's keys
 *   SLH_BAD_SEED_LENGTH        a seed has another length than n bytes
 *   SLH_BAD_DIGEST_LENGTH      the digest has another length than the function's digests, or the hash of
 *                              slh_verify_hashed than the set's
 *   SLH_BAD_RANDOMIZER_LENGTH  the randomizer has neither 0 nor n bytes
 *   SLH_BAD_START_LENGTH       the start has another length than the set's
 *   SLH_BAD_OUTPUT_LENGTH      the output is not as long as what the call writes. In slh_refusal_name and the calls
 *                              for key files, DER and PEM: it has too little room
 *   SLH_BAD_ANSWERS_LENGTH     the answers are not as long as those of all jobs together
 *   SLH_BAD_START              the start does not have its tag under this key
 *   SLH_ANSWERS_DISAGREE       the answers don't fit together
 *   SLH_CONTEXT_TOO_LONG       signing under a context of over 255 bytes
 *   SLH_FAULT                  two computations of one signature differ (the calls whose names end in _twice)
 *   SLH_SELF_TEST_FAILED       slh_self_test alone: an answer is not the known one
 *
 * An output is written if SLH_DONE is returned. For every other number it is unchanged, with three exceptions: scratch
 * is zeros after SLH_FAULT, and may have a signature after SLH_SELF_TEST_FAILED; slh_verify_many writes its verdicts
 * also if it returns another number. Test for SLH_DONE.
 */
#ifndef SLH_H
#define SLH_H

#include <slh_verify.h>

#ifdef __cplusplus
extern "C" {
#endif

/* The length of a secret key SK.seed || SK.prf || PK.seed || PK.root in bytes, 4n. */
#define SLH_DSA_SHA2_128S_SECRET_KEY 64
#define SLH_DSA_SHA2_128F_SECRET_KEY 64
#define SLH_DSA_SHA2_192S_SECRET_KEY 96
#define SLH_DSA_SHA2_192F_SECRET_KEY 96
#define SLH_DSA_SHA2_256S_SECRET_KEY 128
#define SLH_DSA_SHA2_256F_SECRET_KEY 128
#define SLH_MAX_SECRET_KEY 128

/* The length of a start in bytes: R, the digest of the message and a tag, 2n + m. */
#define SLH_DSA_SHA2_128S_START 62
#define SLH_DSA_SHA2_128F_START 66
#define SLH_DSA_SHA2_192S_START 87
#define SLH_DSA_SHA2_192F_START 90
#define SLH_DSA_SHA2_256S_START 111
#define SLH_DSA_SHA2_256F_START 113
#define SLH_MAX_START 113

/* The most bytes of a front (slh_verify_front): 3n + 2, and those of a context. */
#define SLH_MAX_FRONT (3 * SLH_MAX_N + 2 + SLH_MAX_CONTEXT)

/* The most bytes of a refusal's name with the zero byte after it. */
#define SLH_MAX_NAME 20

/*
 * To size buffers by a set's number: writes the lengths of its public keys, secret keys and signatures in bytes, and n.
 * Returns: SLH_DONE; SLH_NO_SUCH_SET.
 */
SLH_MUST_USE SLH_API
uint32_t slh_lengths(uint32_t set, size_t *pk_len, size_t *sk_len, size_t *sig_len, size_t *n);

/*
 * To make a key: writes the secret key of the seeds SK.seed, SK.prf and PK.seed, n fresh random bytes each, into the 4n
 * bytes of sk. This is Algorithm 18. The standard's slh_keygen (Algorithm 21) draws the seeds; here the caller does.
 * The seeds are as secret as the key.
 * Returns: SLH_DONE; SLH_NO_SUCH_SET, SLH_BAD_SEED_LENGTH, SLH_BAD_OUTPUT_LENGTH.
 */
SLH_MUST_USE SLH_API
uint32_t slh_keygen(uint32_t set, const uint8_t *sk_seed, size_t sk_seed_len, const uint8_t *sk_prf,
                    size_t sk_prf_len, const uint8_t *pk_seed, size_t pk_seed_len, uint8_t *sk, size_t sk_len);

/*
 * To publish a key: writes the public key of a secret key of 4n bytes, its last 2n bytes, into pk.
 * Returns: SLH_DONE; SLH_NO_SUCH_SET, SLH_BAD_LENGTH, SLH_BAD_OUTPUT_LENGTH.
 */
SLH_MUST_USE SLH_API
uint32_t slh_public(uint32_t set, const uint8_t *sk, size_t sk_len, uint8_t *pk, size_t pk_len);

/*
 * To check once a secret key from elsewhere, or from slh_keygen_join: whether its PK.root is the root that its seeds
 * give. The other calls check only the length of a key. This takes as long as slh_keygen.
 * Returns: SLH_DONE if it is, SLH_INVALID if it is not; SLH_NO_SUCH_SET, SLH_BAD_LENGTH.
 */
SLH_MUST_USE SLH_API
uint32_t slh_check(uint32_t set, const uint8_t *sk, size_t sk_len);

/* The kinds of keys. */
enum slh_key_kind {
    SLH_PUBLIC_KEY = 1,
    SLH_SECRET_KEY = 2
};

/* The most bytes of a key file that slh_key_write writes, with a zero byte after it. */
#define SLH_MAX_KEY_FILE 293

/*
 * To read a key file of the program `slh` or of a package (docs/FORMATS.md, "Key file"), of either kind and version.
 * file has the whole file, without a zero byte behind it. Writes the number of the key's set, its kind, and the key's
 * bytes, with zeros after them to the end of key. A public key has 2n bytes, a secret one 4n. SLH_MAX_SECRET_KEY bytes
 * have room for each key. Compare kind with the one that you need: a public key and zeros are as long as a secret key.
 * Call slh_check once on a secret key from elsewhere. A set whose label begins with `custom:` has no number: a file of
 * it that has no other fault is refused as SLH_UNKNOWN_SET.
 * Returns: SLH_DONE; SLH_NOT_A_KEY_FILE, SLH_UNKNOWN_SET, SLH_BAD_HEX, SLH_BAD_KEY_LENGTH, SLH_TRAILING_BYTES, the
 * first that applies; SLH_BAD_OUTPUT_LENGTH if key has less room than the key's bytes.
 */
SLH_MUST_USE SLH_API
uint32_t slh_key_read(const uint8_t *file, size_t file_len, uint32_t *set, uint32_t *kind, uint8_t *key,
                      size_t key_len);

/*
 * To write a key file: writes its text of three lines, of version 2, and zeros from there to the end of text, at least
 * one. The file has no zero: strlen(text) is its length. SLH_MAX_KEY_FILE bytes have room for each key. A secret key's
 * file is as secret as the key.
 * Returns: SLH_DONE; SLH_NO_SUCH_SET, SLH_NO_SUCH_KIND, SLH_BAD_LENGTH, SLH_BAD_OUTPUT_LENGTH if text has too little
 * room.
 */
SLH_MUST_USE SLH_API
uint32_t slh_key_write(uint32_t set, uint32_t kind, const uint8_t *key, size_t key_len, char *text, size_t text_len);

/* The most bytes of a key in DER, and of one in PEM with a zero byte after it. */
#define SLH_MAX_DER 150
#define SLH_MAX_PEM 259

/*
 * To read a key of another program in DER (bindings/README.md, "Keys for other programs"): a SubjectPublicKeyInfo, or a
 * PKCS#8 PrivateKeyInfo that has neither attributes nor a public key. der has the whole file. Writes what slh_key_read
 * writes. Call slh_check once on a secret key from elsewhere.
 * Returns: SLH_DONE; SLH_NOT_A_KEY_FILE for any other bytes; SLH_BAD_OUTPUT_LENGTH if key has too little room.
 */
SLH_MUST_USE SLH_API
uint32_t slh_der_read(const uint8_t *der, size_t der_len, uint32_t *set, uint32_t *kind, uint8_t *key, size_t key_len);

/*
 * To read such a key in PEM. Its first and last line name a PUBLIC KEY or a PRIVATE KEY. Lines of base64 stand between
 * them, and each but the last has 64 characters. pem has the whole file, without a zero byte behind it. The last line
 * feed of the file may be missing.
 * Returns: as slh_der_read.
 */
SLH_MUST_USE SLH_API
uint32_t slh_pem_read(const uint8_t *pem, size_t pem_len, uint32_t *set, uint32_t *kind, uint8_t *key, size_t key_len);

/*
 * To write the key `of` in DER: writes its bytes, and zeros from there to the end of der. Writes the number of bytes
 * before these zeros into written. SLH_MAX_DER bytes have room for each key. The DER of a secret key is as secret as
 * the key.
 * Returns: SLH_DONE; SLH_NO_SUCH_SET, SLH_NO_SUCH_KIND, SLH_BAD_LENGTH, SLH_BAD_OUTPUT_LENGTH if der has too little
 * room.
 */
SLH_MUST_USE SLH_API
uint32_t slh_der_write(uint32_t set, uint32_t kind, const uint8_t *of, size_t of_len, uint32_t *written, uint8_t *der,
                       size_t der_len);

/*
 * To write the same in PEM: at least one zero follows the text, which has none. SLH_MAX_PEM bytes have room for each
 * key.
 * Returns: as slh_der_write.
 */
SLH_MUST_USE SLH_API
uint32_t slh_pem_write(uint32_t set, uint32_t kind, const uint8_t *of, size_t of_len, uint32_t *written, uint8_t *pem,
                       size_t pem_len);

/*
 * To test a set on this machine before it is used, as when a service starts: generates a known key, signs a known
 * message, and compares PK.root and the SHA-256 of the signature with the answers of OpenSSL. The signature has to be
 * valid, and invalid for another message. scratch has as many bytes as a signature of the set, and gets this one. The
 * test takes as long as slh_keygen, slh_sign and two slh_verify.
 * Returns: SLH_DONE if all answers are the known ones, SLH_SELF_TEST_FAILED if one is not; SLH_NO_SUCH_SET,
 * SLH_BAD_OUTPUT_LENGTH (scratch).
 */
SLH_MUST_USE SLH_API
uint32_t slh_self_test(uint32_t set, uint8_t *scratch, size_t scratch_len);

/*
 * To sign a message in memory, in the pure form (Algorithm 22). sk has 4n bytes, the context at most
 * 255 (most use none), the randomizer n fresh random bytes or none, and sig as many as a signature of the set.
 * Returns: SLH_DONE; SLH_NO_SUCH_SET, SLH_BAD_LENGTH, SLH_BAD_RANDOMIZER_LENGTH, SLH_BAD_OUTPUT_LENGTH,
 * SLH_CONTEXT_TOO_LONG.
 */
SLH_MUST_USE SLH_API
uint32_t slh_sign(uint32_t set, const uint8_t *sk, size_t sk_len, const uint8_t *msg, size_t msg_len,
                  const uint8_t *ctx, size_t ctx_len, const uint8_t *randomizer, size_t randomizer_len, uint8_t *sig,
                  size_t sig_len);

/*
 * To sign a message that is read in pieces: compute its digest under the pre-hash function, and pass that (Algorithm 23
 * after its pre-hash). Digests have the lengths that slh_hash_verify_digest takes. The other lengths are those of
 * slh_sign. A function weaker than the set makes a weaker signature: docs/LIBRARY.md has a table.
 * Returns: SLH_DONE; SLH_NO_SUCH_SET, SLH_NO_SUCH_FUNCTION, SLH_BAD_LENGTH, SLH_BAD_DIGEST_LENGTH,
 * SLH_BAD_RANDOMIZER_LENGTH, SLH_BAD_OUTPUT_LENGTH, SLH_CONTEXT_TOO_LONG.
 */
SLH_MUST_USE SLH_API
uint32_t slh_hash_sign_digest(uint32_t set, uint32_t function, const uint8_t *sk, size_t sk_len,
                              const uint8_t *digest, size_t digest_len, const uint8_t *ctx, size_t ctx_len,
                              const uint8_t *randomizer, size_t randomizer_len, uint8_t *sig, size_t sig_len);

/*
 * To sign a message in memory by its digest, which this computes under the pre-hash function (Algorithm 23). A device
 * can then verify by slh_hash_verify_digest. The lengths are those of slh_sign.
 * Returns: SLH_DONE; SLH_NO_SUCH_SET, SLH_NO_SUCH_FUNCTION, SLH_BAD_LENGTH, SLH_BAD_RANDOMIZER_LENGTH,
 * SLH_BAD_OUTPUT_LENGTH, SLH_CONTEXT_TOO_LONG.
 */
SLH_MUST_USE SLH_API
uint32_t slh_hash_sign(uint32_t set, uint32_t function, const uint8_t *sk, size_t sk_len, const uint8_t *msg,
                       size_t msg_len, const uint8_t *ctx, size_t ctx_len, const uint8_t *randomizer,
                       size_t randomizer_len, uint8_t *sig, size_t sig_len);

/*
 * An item of slh_verify_many: a public key, a message, a context and a signature, each with its length in bytes. The
 * lengths have 64 bits and the struct 64 bytes on each machine that the library is compiled for.
 */
typedef struct slh_signed {
    const uint8_t *pk;
    uint64_t pk_len;
    const uint8_t *msg;
    uint64_t msg_len;
    const uint8_t *ctx;
    uint64_t ctx_len;
    const uint8_t *sig;
    uint64_t sig_len;
} slh_signed;

/*
 * To verify many signatures of one parameter set, any number in one call, in the pure form: each item has its own key,
 * message, context and signature. Eight signatures are hashed side by side, in the SIMD lanes of the processor, so that
 * this takes less time than a call of slh_verify for each. Writes to verdicts[i] what slh_verify returns for items[i]:
 * SLH_DONE, SLH_INVALID or SLH_BAD_LENGTH. items_len and verdicts_len are equal. If the call is refused, each verdict
 * is the number of the refusal. So no verdict is SLH_DONE unless its signature is valid.
 * Returns: SLH_DONE if all signatures are valid, and else the first verdict that is not SLH_DONE; SLH_NO_SUCH_SET,
 * SLH_BAD_OUTPUT_LENGTH.
 */
SLH_MUST_USE SLH_API
uint32_t slh_verify_many(uint32_t set, const slh_signed *items, size_t items_len, uint32_t *verdicts,
                         size_t verdicts_len);

/*
 * To verify in the pure form a message that you hash in pieces, as by OpenSSL or a device. The signature has to be
 * known first. This writes the front, the bytes that are hashed before the message (section 11.2): R, PK.seed, PK.root,
 * a zero byte, the length of the context as one byte, and the context. So front has 3n + 2 + ctx_len bytes, at most
 * SLH_MAX_FRONT. Then hash the front and the message by SHA-256 for the 128 sets, and by SHA-512 for the others, and
 * pass the hash to slh_verify_hashed. As in slh_verify, a signature of another length than the set's and a context of
 * over 255 bytes are invalid. The other lengths are those of slh_verify. SLH_DONE says that the front is written, and
 * not that the signature is valid: only slh_verify_hashed decides that.
 * Returns: SLH_DONE if the front is written, SLH_INVALID if no message is valid; SLH_NO_SUCH_SET, SLH_BAD_LENGTH,
 * SLH_BAD_OUTPUT_LENGTH.
 */
SLH_MUST_USE SLH_API
uint32_t slh_verify_front(uint32_t set, const uint8_t *pk, size_t pk_len, const uint8_t *ctx, size_t ctx_len,
                          const uint8_t *sig, size_t sig_len, uint8_t *front, size_t front_len);

/*
 * To verify by the hash of the front and the message: 32 bytes of SHA-256 for the 128 sets, 64 of SHA-512 for the
 * others. Pass the key and the signature that slh_verify_front took. The result is that of slh_verify for the message
 * and the context. Compute the hash yourself: of a message that you have not hashed, the result says nothing. If your
 * hash function fails, make no call: the buffer may have the hash of another message.
 * Returns: SLH_DONE if the signature is valid, SLH_INVALID if it is not; SLH_NO_SUCH_SET, SLH_BAD_LENGTH,
 * SLH_BAD_DIGEST_LENGTH.
 */
SLH_MUST_USE SLH_API
uint32_t slh_verify_hashed(uint32_t set, const uint8_t *pk, size_t pk_len, const uint8_t *hash, size_t hash_len,
                           const uint8_t *sig, size_t sig_len);

/*
 * To sign as slh_sign does, and to find a computation that went wrong: signs two times into the two halves of scratch,
 * compares all bytes, and writes the signature to sig only if both are equal. Then it compares the bytes in sig with
 * the second signature, and puts back the bytes that sig had if they differ. scratch has 2 * sig_len bytes, and is
 * zeros after SLH_DONE and SLH_FAULT. SLH_FAULT means that bytes differ: memory or the processor failed. No signature
 * is left then. This takes twice the time of slh_sign.
 * Returns: SLH_DONE; SLH_NO_SUCH_SET, SLH_BAD_LENGTH, SLH_BAD_RANDOMIZER_LENGTH, SLH_BAD_OUTPUT_LENGTH (also for
 * scratch), SLH_CONTEXT_TOO_LONG, SLH_FAULT.
 */
SLH_MUST_USE SLH_API
uint32_t slh_sign_twice(uint32_t set, const uint8_t *sk, size_t sk_len, const uint8_t *msg, size_t msg_len,
                        const uint8_t *ctx, size_t ctx_len, const uint8_t *randomizer, size_t randomizer_len,
                        uint8_t *scratch, size_t scratch_len, uint8_t *sig, size_t sig_len);

/*
 * To sign as slh_hash_sign_digest does, two times, as slh_sign_twice does.
 * Returns: what slh_hash_sign_digest returns, SLH_BAD_OUTPUT_LENGTH also for scratch; SLH_FAULT.
 */
SLH_MUST_USE SLH_API
uint32_t slh_hash_sign_digest_twice(uint32_t set, uint32_t function, const uint8_t *sk, size_t sk_len,
                                    const uint8_t *digest, size_t digest_len, const uint8_t *ctx, size_t ctx_len,
                                    const uint8_t *randomizer, size_t randomizer_len, uint8_t *scratch,
                                    size_t scratch_len, uint8_t *sig, size_t sig_len);

/*
 * To sign as slh_hash_sign does, two times, as slh_sign_twice does. The message is hashed two times, too.
 * Returns: what slh_hash_sign returns, SLH_BAD_OUTPUT_LENGTH also for scratch; SLH_FAULT.
 */
SLH_MUST_USE SLH_API
uint32_t slh_hash_sign_twice(uint32_t set, uint32_t function, const uint8_t *sk, size_t sk_len, const uint8_t *msg,
                             size_t msg_len, const uint8_t *ctx, size_t ctx_len, const uint8_t *randomizer,
                             size_t randomizer_len, uint8_t *scratch, size_t scratch_len, uint8_t *sig,
                             size_t sig_len);

/*
 * To print a refusal: writes the name of its number, as "BadLength", in ASCII, and zero bytes from there to the end of
 * name, at least one. SLH_MAX_NAME bytes are enough for each name. SLH_DONE and SLH_INVALID are not refusals.
 * Returns: SLH_DONE; SLH_NO_SUCH_REFUSAL, SLH_BAD_OUTPUT_LENGTH if name is too short.
 */
SLH_API
uint32_t slh_refusal_name(uint32_t refusal, char *name, size_t name_len);

/*
 * To explain a result to a person: a sentence in English for each result's number, without its number and name. For any
 * other number it is "this number is no result of the library". The library owns the bytes, and they never change.
 */
SLH_MUST_USE SLH_API
const char *slh_refusal_text(uint32_t result);

/*
 * To overwrite seeds, keys and answers in your buffers once you no longer need them: writes zeros into n bytes. A
 * compiler can't omit it, as it may omit a memset before the end of a function.
 */
SLH_API
void slh_erase(void *bytes, size_t n);

/*
 * To ask which code runs. On x86-64: 2, 3 or 4 for x86-64-v2, x86-64-v3 or x86-64-v4, the best level that processor and
 * system have; also 2 if SHA instructions hash all of SHA-256. On Linux on 64-bit ARM: 2 for NEON, 3 for the
 * instructions of SHA-256, and 4 for those of SHA-512, too. All give equal bytes. 0 on a processor below x86-64-v2:
 * there this library has no code, and its calls return SLH_OLD_PROCESSOR. Also 0 if the library has only one level: on
 * other machines, and in libslh-v2.a, libslh-v3.a and libslh-v4.a. These return no SLH_OLD_PROCESSOR.
 */
SLH_MUST_USE SLH_API
uint32_t slh_level(void);

/*
 * One signature, or one key, by threads of your own.
 *
 * Each XMSS tree of a signature is cut into 2^xmss_levels ranges of its leaves, and each FORS tree into 2^fors_levels.
 * A range is a job, and its result is its answer. slh_sign_start makes the start, a few bytes that all jobs of this
 * signature get. slh_sign_job writes the answer of one job, in any thread or process and in any order. slh_sign_join
 * makes the signature of the answers of all jobs, which are end to end in one buffer. Pass equal sets, levels, keys and
 * starts to all these calls. The signature is that of slh_sign.
 *
 * Answers are secret. They contain whole one-time keys: an answer that leaks costs the key. Protect answers as you
 * protect the secret key, also between processes, and erase them after they are joined.
 *
 * The start is no secret: R is a part of the signature, the digest follows from R, the public key and the message, and
 * the third part is a tag. But its writer chooses the message that is signed. So slh_sign_job and slh_sign_join refuse
 * (SLH_BAD_START) each start that does not have its tag under this key. slh_sign_start and slh_hash_sign_start write
 * it.
 *
 * Answers may be any bytes. For any answers, slh_sign_join writes a valid signature, under this key, of the start's
 * message, or it writes nothing. It writes only if the answers fit together:
 *
 * - The node of each answer has its tag.
 * - In every tree the root from the ranges equals the root from the signing leaf's key and path. If a one-time key
 *   signs two different roots, a wrong one and the right one, anyone can forge with it. So the two are compared in
 *   every tree before anything is written, and the compared roots are the signed ones.
 * - The root of the top tree is PK.root.
 *
 * A tag is HMAC with the hash function of the set (FIPS 205, section 11.2) under SK.prf || SK.seed || PK.seed || 1, cut
 * to n bytes. Its text has the kind of the tagged thing, the number of the encoding and those of the set. For a start,
 * PK.root, R and the digest follow; for a node the start (in signing), the levels, the job and the node. Two different
 * things never have one text. So another key, set, R, digest, cutting or job gives another tag, unless two values of
 * HMAC are equal by chance. In tests none were; it is not proved.
 *
 * Bytes of an answer that the signature doesn't need are not read. The layout of an answer may change with the next
 * major version. The number of the encoding is in the text of every tag, so a version with another one refuses these
 * starts and answers.
 *
 *
 * Faults
 *
 * A job tags its node: a node that is computed wrongly inside a job, by bad memory or a bad processor, gets a right
 * tag. Among 300 random bit flips inside jobs, tried once, 227 gave a signature that is wrong but valid: it verifies,
 * and a one-time key has signed a wrong value. slh_sign has this weakness, too, and any library that computes each node
 * once. Verifying before release finds few of these faults.
 *
 * If you must survive faults, run each job twice, on different processors, and compare the bytes of the two answers
 * before joining: SECURITY.md shows it. Signing again after a fault in the deterministic variant is the worst case:
 * the message takes its one-time keys again, with other values to sign. Pass a fresh randomizer for each signature.
 */

/*
 * To plan a signature's jobs: their number, the length of the start and that of the answers of all jobs, in bytes.
 * Levels go from 0 to 8, and at most to the height of the trees. In the order of the sets, this height is 9, 3, 9, 3,
 * 8, 4 for XMSS trees and 12, 6, 14, 8, 14, 9 for FORS trees. A few jobs for each thread are enough.
 * Returns: SLH_DONE; SLH_NO_SUCH_SET, SLH_BAD_CUTTING.
 */
SLH_MUST_USE SLH_API
uint32_t slh_sign_jobs(uint32_t set, uint32_t xmss_levels, uint32_t fors_levels, uint32_t *jobs, size_t *start_len,
                       size_t *answers_len);

/*
 * To find the place of a job's answer: its offset in the answers of all jobs, and its length, in bytes. Jobs are
 * numbered from 0.
 * Returns: SLH_DONE; SLH_NO_SUCH_SET, SLH_BAD_CUTTING, SLH_NO_SUCH_JOB.
 */
SLH_MUST_USE SLH_API
uint32_t slh_answer_place(uint32_t set, uint32_t xmss_levels, uint32_t fors_levels, uint32_t job, size_t *at,
                          size_t *len);

/*
 * To begin the signature of a message in the pure form (Algorithm 22): writes R, the digest and their tag into start.
 * The other lengths are those of slh_sign.
 * Returns: SLH_DONE; SLH_NO_SUCH_SET, SLH_BAD_LENGTH, SLH_BAD_RANDOMIZER_LENGTH, SLH_BAD_OUTPUT_LENGTH,
 * SLH_CONTEXT_TOO_LONG.
 */
SLH_MUST_USE SLH_API
uint32_t slh_sign_start(uint32_t set, const uint8_t *sk, size_t sk_len, const uint8_t *msg, size_t msg_len,
                        const uint8_t *ctx, size_t ctx_len, const uint8_t *randomizer, size_t randomizer_len,
                        uint8_t *start, size_t start_len);

/*
 * To begin the signature of a message by its digest, which this computes under the pre-hash function (Algorithm 23).
 * The lengths are those of slh_sign_start.
 * Returns: SLH_DONE; SLH_NO_SUCH_SET, SLH_NO_SUCH_FUNCTION, SLH_BAD_LENGTH, SLH_BAD_RANDOMIZER_LENGTH,
 * SLH_BAD_OUTPUT_LENGTH, SLH_CONTEXT_TOO_LONG.
 */
SLH_MUST_USE SLH_API
uint32_t slh_hash_sign_start(uint32_t set, uint32_t function, const uint8_t *sk, size_t sk_len, const uint8_t *msg,
                             size_t msg_len, const uint8_t *ctx, size_t ctx_len, const uint8_t *randomizer,
                             size_t randomizer_len, uint8_t *start, size_t start_len);

/*
 * To do one job of the signature that start begins, in any thread: writes its answer, of the length that
 * slh_answer_place writes. Equal arguments give equal bytes. SLH_BAD_START if the start does not have its tag under
 * this key.
 * Returns: SLH_DONE; SLH_NO_SUCH_SET, SLH_BAD_CUTTING, SLH_NO_SUCH_JOB, SLH_BAD_LENGTH, SLH_BAD_START_LENGTH,
 * SLH_BAD_OUTPUT_LENGTH, SLH_BAD_START.
 */
SLH_MUST_USE SLH_API
uint32_t slh_sign_job(uint32_t set, uint32_t xmss_levels, uint32_t fors_levels, const uint8_t *sk, size_t sk_len,
                      const uint8_t *start, size_t start_len, uint32_t job, uint8_t *answer, size_t answer_len);

/*
 * To make the signature that start begins, from the answers of all its jobs. If each answer is that of slh_sign_job,
 * the signature is that of slh_sign or slh_hash_sign. SLH_BAD_START if the start does not have its tag under this key,
 * SLH_ANSWERS_DISAGREE if the answers don't fit together. Under a key of slh_keygen, answers of slh_sign_job always do.
 * Returns: SLH_DONE; SLH_NO_SUCH_SET, SLH_BAD_CUTTING, SLH_BAD_LENGTH, SLH_BAD_START_LENGTH, SLH_BAD_OUTPUT_LENGTH,
 * SLH_BAD_ANSWERS_LENGTH, SLH_BAD_START, SLH_ANSWERS_DISAGREE.
 */
SLH_MUST_USE SLH_API
uint32_t slh_sign_join(uint32_t set, uint32_t xmss_levels, uint32_t fors_levels, const uint8_t *sk, size_t sk_len,
                       const uint8_t *start, size_t start_len, const uint8_t *answers, size_t answers_len,
                       uint8_t *sig, size_t sig_len);

/*
 * To plan a key's jobs: their number, and the length of each answer, 2n bytes. The XMSS tree of the top layer is cut
 * into 2^xmss_levels ranges. The answer of job i begins at i times this length. These answers are nodes of the tree of
 * public keys and their tags, and contain no values of one-time keys.
 * Returns: SLH_DONE; SLH_NO_SUCH_SET, SLH_BAD_CUTTING.
 */
SLH_MUST_USE SLH_API
uint32_t slh_keygen_jobs(uint32_t set, uint32_t xmss_levels, uint32_t *jobs, size_t *answer_len);

/*
 * To do one job of the generation of the key of these seeds, n bytes each, in any thread: writes its answer.
 * Returns: SLH_DONE; SLH_NO_SUCH_SET, SLH_BAD_CUTTING, SLH_NO_SUCH_JOB, SLH_BAD_SEED_LENGTH, SLH_BAD_OUTPUT_LENGTH.
 */
SLH_MUST_USE SLH_API
uint32_t slh_keygen_job(uint32_t set, uint32_t xmss_levels, const uint8_t *sk_seed, size_t sk_seed_len,
                        const uint8_t *sk_prf, size_t sk_prf_len, const uint8_t *pk_seed, size_t pk_seed_len,
                        uint32_t job, uint8_t *answer, size_t answer_len);

/*
 * To make the secret key of these seeds, from the answers of all jobs, into the 4n bytes of sk. If each answer is that
 * of slh_keygen_job, the key is that of slh_keygen. SLH_ANSWERS_DISAGREE if a node does not have the tag of its job
 * under these seeds and levels. A node that was computed wrongly has that tag: call slh_check on the new key.
 * Returns: SLH_DONE; SLH_NO_SUCH_SET, SLH_BAD_CUTTING, SLH_BAD_SEED_LENGTH, SLH_BAD_OUTPUT_LENGTH,
 * SLH_BAD_ANSWERS_LENGTH, SLH_ANSWERS_DISAGREE.
 */
SLH_MUST_USE SLH_API
uint32_t slh_keygen_join(uint32_t set, uint32_t xmss_levels, const uint8_t *sk_seed, size_t sk_seed_len,
                         const uint8_t *sk_prf, size_t sk_prf_len, const uint8_t *pk_seed, size_t pk_seed_len,
                         const uint8_t *answers, size_t answers_len, uint8_t *sk, size_t sk_len);

#ifdef __cplusplus
}
#endif

#endif
