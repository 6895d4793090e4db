/*
 * The calls of slh_verify.h on a machine whose pointers have 32 bits, over the proved exports: tools/targets.py renames
 * these and joins them to this file. Nothing here is proved. A length of 32 bits is handed on as one of 64.
 *
 * SPDX-License-Identifier: MIT OR Apache-2.0
 *
 * With SLH_VERIFY_128 the code for SHA-512 is left out, and what would take it is refused.
 */
#include <slh_verify.h>

#define PROVED(name) __attribute__((visibility("hidden"))) uint32_t name##_proved
#define BYTES(name) const uint8_t *name, uint64_t name##_len

PROVED(slh_verify)(uint32_t set, BYTES(pk), BYTES(msg), BYTES(ctx), BYTES(sig));
PROVED(slh_hash_verify)(uint32_t set, uint32_t function, BYTES(pk), BYTES(msg), BYTES(ctx), BYTES(sig));
PROVED(slh_hash_verify_digest)(uint32_t set, uint32_t function, BYTES(pk), BYTES(digest), BYTES(ctx), BYTES(sig));
PROVED(slh_verify_hardened)(uint32_t set, BYTES(pk), BYTES(msg), BYTES(ctx), BYTES(sig));
PROVED(slh_hash_verify_digest_hardened)(uint32_t set, uint32_t function, BYTES(pk), BYTES(digest), BYTES(ctx),
                                        BYTES(sig));
PROVED(slh_version)(void);

/* Whether a set, or a function, takes SHA-512. */
static inline int is_left_out(uint32_t number, uint32_t first, uint32_t last) {
#ifdef SLH_VERIFY_128
    return number >= first && number <= last;
#else
    (void)number, (void)first, (void)last;
    return 0;
#endif
}

static inline int is_long(uint32_t set) { return is_left_out(set, SLH_DSA_SHA2_192S, SLH_DSA_SHA2_256F); }

#define REFUSE_LONG_SETS(set)                                                                    \
    if (is_long(set)) return SLH_NO_SUCH_SET

/* Called before each layer. A program may have its own, as to feed a watchdog (docs/MACHINES.md). */
void slh_between_layers(void);
__attribute__((weak)) void slh_between_layers(void) {}

uint32_t slh_version(void) { return slh_version_proved(); }

uint32_t slh_verify(uint32_t set, const uint8_t *pk, size_t pk_len, const uint8_t *msg, size_t msg_len,
                    const uint8_t *ctx, size_t ctx_len, const uint8_t *sig, size_t sig_len) {
    REFUSE_LONG_SETS(set);
    return slh_verify_proved(set, pk, pk_len, msg, msg_len, ctx, ctx_len, sig, sig_len);
}

uint32_t slh_hash_verify_digest(uint32_t set, uint32_t function, const uint8_t *pk, size_t pk_len,
                                const uint8_t *digest, size_t digest_len, const uint8_t *ctx, size_t ctx_len,
                                const uint8_t *sig, size_t sig_len) {
    REFUSE_LONG_SETS(set);
    return slh_hash_verify_digest_proved(set, function, pk, pk_len, digest, digest_len, ctx, ctx_len, sig, sig_len);
}

uint32_t slh_verify_hardened(uint32_t set, const uint8_t *pk, size_t pk_len, const uint8_t *msg, size_t msg_len,
                             const uint8_t *ctx, size_t ctx_len, const uint8_t *sig, size_t sig_len) {
    if (is_long(set)) return SLH_HARDENED_INVALID;
    return slh_verify_hardened_proved(set, pk, pk_len, msg, msg_len, ctx, ctx_len, sig, sig_len);
}

uint32_t slh_hash_verify_digest_hardened(uint32_t set, uint32_t function, const uint8_t *pk, size_t pk_len,
                                         const uint8_t *digest, size_t digest_len, const uint8_t *ctx, size_t ctx_len,
                                         const uint8_t *sig, size_t sig_len) {
    if (is_long(set)) return SLH_HARDENED_INVALID;
    return slh_hash_verify_digest_hardened_proved(set, function, pk, pk_len, digest, digest_len, ctx, ctx_len, sig,
                                                  sig_len);
}

/* A number that is no set's is refused as such, whatever the function. */
uint32_t slh_hash_verify(uint32_t set, uint32_t function, const uint8_t *pk, size_t pk_len, const uint8_t *msg,
                         size_t msg_len, const uint8_t *ctx, size_t ctx_len, const uint8_t *sig, size_t sig_len) {
    REFUSE_LONG_SETS(set);
    if ((set == SLH_DSA_SHA2_128S || set == SLH_DSA_SHA2_128F) &&
        is_left_out(function, SLH_SHA2_384, SLH_SHA2_512_256))
        return SLH_NO_SUCH_FUNCTION;
    return slh_hash_verify_proved(set, function, pk, pk_len, msg, msg_len, ctx, ctx_len, sig, sig_len);
}
