uint32_t slh_version(void) { return MODULE_VERSION; }

/* What is refused since its code is left out, or SLH_DONE. */
static uint32_t left_out(uint32_t set, uint32_t function) {
#ifdef SLH_VERIFY_128
    if (set >= SLH_DSA_SHA2_192S && set <= SLH_DSA_SHA2_256F) return SLH_NO_SUCH_SET;
    if ((set == SLH_DSA_SHA2_128S || set == SLH_DSA_SHA2_128F) && function >= SLH_SHA2_384 &&
        function <= SLH_SHA2_512_256)
        return SLH_NO_SUCH_FUNCTION;
#else
    (void)set, (void)function;
#endif
    return SLH_DONE;
}

#define REFUSE_LEFT_OUT(set, function)                                                          \
    do {                                                                                        \
        if (left_out(set, function) != SLH_DONE) return left_out(set, function);                \
    } while (0)

#define INVALID_IF_LEFT_OUT(set)                                                                \
    do {                                                                                        \
        if (left_out(set, SLH_SHA2_256) != SLH_DONE) return SLH_HARDENED_INVALID;               \
    } while (0)

uint32_t slh_verify(uint32_t set, const uint8_t *pk, size_t pk_len, const uint8_t *msg, size_t msg_len,
                    const uint8_t *ctx, size_t ctx_len, const uint8_t *sig, size_t sig_len) {
    REFUSE_LEFT_OUT(set, SLH_SHA2_256);
    struct part parts[] = {READ(pk), READ(msg), READ(ctx), READ(sig)};
    RUN(verify, set, B(0), B(1), B(2), B(3));
    return result;
}

uint32_t slh_hash_verify_digest(uint32_t set, uint32_t function, const uint8_t *pk, size_t pk_len,
                                const uint8_t *digest, size_t digest_len, const uint8_t *ctx, size_t ctx_len,
                                const uint8_t *sig, size_t sig_len) {
    REFUSE_LEFT_OUT(set, SLH_SHA2_256);
    struct part parts[] = {READ(pk), READ(digest), READ(ctx), READ(sig)};
    RUN(hash_verify_digest, set, function, B(0), B(1), B(2), B(3));
    return result;
}

uint32_t slh_verify_hardened(uint32_t set, const uint8_t *pk, size_t pk_len, const uint8_t *msg, size_t msg_len,
                             const uint8_t *ctx, size_t ctx_len, const uint8_t *sig, size_t sig_len) {
    INVALID_IF_LEFT_OUT(set);
    struct part parts[] = {READ(pk), READ(msg), READ(ctx), READ(sig)};
    RUN(verify_hardened, set, B(0), B(1), B(2), B(3));
    return result == SLH_NO_MEMORY ? SLH_HARDENED_INVALID : result;
}

uint32_t slh_hash_verify_digest_hardened(uint32_t set, uint32_t function, const uint8_t *pk, size_t pk_len,
                                         const uint8_t *digest, size_t digest_len, const uint8_t *ctx, size_t ctx_len,
                                         const uint8_t *sig, size_t sig_len) {
    INVALID_IF_LEFT_OUT(set);
    struct part parts[] = {READ(pk), READ(digest), READ(ctx), READ(sig)};
    RUN(hash_verify_digest_hardened, set, function, B(0), B(1), B(2), B(3));
    return result == SLH_NO_MEMORY ? SLH_HARDENED_INVALID : result;
}

uint32_t slh_hash_verify(uint32_t set, uint32_t function, const uint8_t *pk, size_t pk_len, const uint8_t *msg,
                         size_t msg_len, const uint8_t *ctx, size_t ctx_len, const uint8_t *sig, size_t sig_len) {
    REFUSE_LEFT_OUT(set, function);
    struct part parts[] = {READ(pk), READ(msg), READ(ctx), READ(sig)};
    RUN(hash_verify, set, function, B(0), B(1), B(2), B(3));
    return result;
}
