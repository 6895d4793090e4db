
/* Numbers that the proved code writes, as it writes them: those of 64 bits, and those of 32. */
#define NUMBER(i) {NULL, numbers[i], 8, 0}
#define WORD(i) {NULL, numbers[i], 4, 0}
#define SIZE(i) ((size_t)get64(numbers[i]))

/* tools/call_tables.py writes the lines from here on. */

uint32_t slh_lengths(uint32_t set, size_t *pk_len, size_t *sk_len, size_t *sig_len, size_t *n) {
    uint8_t numbers[4][8];
    struct part parts[] = {NUMBER(0), NUMBER(1), NUMBER(2), NUMBER(3)};
    RUN(lengths, set, P(0), P(1), P(2), P(3));
    if (result == SLH_DONE) *pk_len = SIZE(0), *sk_len = SIZE(1), *sig_len = SIZE(2), *n = SIZE(3);
    return result;
}

uint32_t slh_keygen(uint32_t set, const uint8_t *sk_seed, size_t sk_seed_len, const uint8_t *sk_prf, size_t sk_prf_len,
                    const uint8_t *pk_seed, size_t pk_seed_len, uint8_t *sk, size_t sk_len) {
    struct part parts[] = {READ(sk_seed), READ(sk_prf), READ(pk_seed), WRITE(sk)};
    RUN(keygen, set, B(0), B(1), B(2), B(3));
    return result;
}

uint32_t slh_public(uint32_t set, const uint8_t *sk, size_t sk_len, uint8_t *pk, size_t pk_len) {
    struct part parts[] = {READ(sk), WRITE(pk)};
    RUN(public, set, B(0), B(1));
    return result;
}

uint32_t slh_check(uint32_t set, const uint8_t *sk, size_t sk_len) {
    struct part parts[] = {READ(sk)};
    RUN(check, set, B(0));
    return result;
}

uint32_t slh_key_read(const uint8_t *file, size_t file_len, uint32_t *set, uint32_t *kind, uint8_t *key,
                      size_t key_len) {
    uint8_t numbers[2][8];
    struct part parts[] = {READ(file), WORD(0), WORD(1), WRITE(key)};
    RUN(key_read, B(0), P(1), P(2), B(3));
    if (result == SLH_DONE) *set = get32(numbers[0]), *kind = get32(numbers[1]);
    return result;
}

uint32_t slh_key_write(uint32_t set, uint32_t kind, const uint8_t *key, size_t key_len, char *text, size_t text_len) {
    struct part parts[] = {READ(key), WRITE(text)};
    RUN(key_write, set, kind, B(0), B(1));
    return result;
}

uint32_t slh_der_read(const uint8_t *der, size_t der_len, uint32_t *set, uint32_t *kind, uint8_t *key, size_t key_len) {
    uint8_t numbers[2][8];
    struct part parts[] = {READ(der), WORD(0), WORD(1), WRITE(key)};
    RUN(der_read, B(0), P(1), P(2), B(3));
    if (result == SLH_DONE) *set = get32(numbers[0]), *kind = get32(numbers[1]);
    return result;
}

uint32_t slh_pem_read(const uint8_t *pem, size_t pem_len, uint32_t *set, uint32_t *kind, uint8_t *key, size_t key_len) {
    uint8_t numbers[2][8];
    struct part parts[] = {READ(pem), WORD(0), WORD(1), WRITE(key)};
    RUN(pem_read, B(0), P(1), P(2), B(3));
    if (result == SLH_DONE) *set = get32(numbers[0]), *kind = get32(numbers[1]);
    return result;
}

uint32_t slh_der_write(uint32_t set, uint32_t kind, const uint8_t *of, size_t of_len, uint32_t *written, uint8_t *der,
                       size_t der_len) {
    uint8_t numbers[1][8];
    struct part parts[] = {READ(of), WORD(0), WRITE(der)};
    RUN(der_write, set, kind, B(0), P(1), B(2));
    if (result == SLH_DONE) *written = get32(numbers[0]);
    return result;
}

uint32_t slh_pem_write(uint32_t set, uint32_t kind, const uint8_t *of, size_t of_len, uint32_t *written, uint8_t *pem,
                       size_t pem_len) {
    uint8_t numbers[1][8];
    struct part parts[] = {READ(of), WORD(0), WRITE(pem)};
    RUN(pem_write, set, kind, B(0), P(1), B(2));
    if (result == SLH_DONE) *written = get32(numbers[0]);
    return result;
}

uint32_t slh_self_test(uint32_t set, uint8_t *scratch, size_t scratch_len) {
    struct part parts[] = {WRITE(scratch)};
    RUN(self_test, set, B(0));
    return result;
}

uint32_t slh_sign(uint32_t set, const uint8_t *sk, size_t sk_len, const uint8_t *msg, size_t msg_len,
                  const uint8_t *ctx, size_t ctx_len, const uint8_t *randomizer, size_t randomizer_len, uint8_t *sig,
                  size_t sig_len) {
    struct part parts[] = {READ(sk), READ(msg), READ(ctx), READ(randomizer), WRITE(sig)};
    RUN(sign, set, B(0), B(1), B(2), B(3), B(4));
    return result;
}

uint32_t slh_hash_sign_digest(uint32_t set, uint32_t function, const uint8_t *sk, size_t sk_len, const uint8_t *digest,
                              size_t digest_len, const uint8_t *ctx, size_t ctx_len, const uint8_t *randomizer,
                              size_t randomizer_len, uint8_t *sig, size_t sig_len) {
    struct part parts[] = {READ(sk), READ(digest), READ(ctx), READ(randomizer), WRITE(sig)};
    RUN(hash_sign_digest, set, function, B(0), B(1), B(2), B(3), B(4));
    return result;
}

uint32_t slh_hash_sign(uint32_t set, uint32_t function, const uint8_t *sk, size_t sk_len, const uint8_t *msg,
                       size_t msg_len, const uint8_t *ctx, size_t ctx_len, const uint8_t *randomizer,
                       size_t randomizer_len, uint8_t *sig, size_t sig_len) {
    struct part parts[] = {READ(sk), READ(msg), READ(ctx), READ(randomizer), WRITE(sig)};
    RUN(hash_sign, set, function, B(0), B(1), B(2), B(3), B(4));
    return result;
}

uint32_t slh_verify_front(uint32_t set, const uint8_t *pk, size_t pk_len, const uint8_t *ctx, size_t ctx_len,
                          const uint8_t *sig, size_t sig_len, uint8_t *front, size_t front_len) {
    struct part parts[] = {READ(pk), READ(ctx), READ(sig), WRITE(front)};
    RUN(verify_front, set, B(0), B(1), B(2), B(3));
    return result;
}

uint32_t slh_verify_hashed(uint32_t set, const uint8_t *pk, size_t pk_len, const uint8_t *hash, size_t hash_len,
                           const uint8_t *sig, size_t sig_len) {
    struct part parts[] = {READ(pk), READ(hash), READ(sig)};
    RUN(verify_hashed, set, B(0), B(1), B(2));
    return result;
}

uint32_t slh_sign_twice(uint32_t set, const uint8_t *sk, size_t sk_len, const uint8_t *msg, size_t msg_len,
                        const uint8_t *ctx, size_t ctx_len, const uint8_t *randomizer, size_t randomizer_len,
                        uint8_t *scratch, size_t scratch_len, uint8_t *sig, size_t sig_len) {
    struct part parts[] = {READ(sk), READ(msg), READ(ctx), READ(randomizer), WRITE(scratch), WRITE(sig)};
    RUN(sign_twice, set, B(0), B(1), B(2), B(3), B(4), B(5));
    return result;
}

uint32_t slh_hash_sign_digest_twice(uint32_t set, uint32_t function, const uint8_t *sk, size_t sk_len,
                                    const uint8_t *digest, size_t digest_len, const uint8_t *ctx, size_t ctx_len,
                                    const uint8_t *randomizer, size_t randomizer_len, uint8_t *scratch,
                                    size_t scratch_len, uint8_t *sig, size_t sig_len) {
    struct part parts[] = {READ(sk), READ(digest), READ(ctx), READ(randomizer), WRITE(scratch), WRITE(sig)};
    RUN(hash_sign_digest_twice, set, function, B(0), B(1), B(2), B(3), B(4), B(5));
    return result;
}

uint32_t slh_hash_sign_twice(uint32_t set, uint32_t function, const uint8_t *sk, size_t sk_len, const uint8_t *msg,
                             size_t msg_len, const uint8_t *ctx, size_t ctx_len, const uint8_t *randomizer,
                             size_t randomizer_len, uint8_t *scratch, size_t scratch_len, uint8_t *sig,
                             size_t sig_len) {
    struct part parts[] = {READ(sk), READ(msg), READ(ctx), READ(randomizer), WRITE(scratch), WRITE(sig)};
    RUN(hash_sign_twice, set, function, B(0), B(1), B(2), B(3), B(4), B(5));
    return result;
}

uint32_t slh_sign_jobs(uint32_t set, uint32_t xmss_levels, uint32_t fors_levels, uint32_t *jobs, size_t *start_len,
                       size_t *answers_len) {
    uint8_t numbers[3][8];
    struct part parts[] = {WORD(0), NUMBER(1), NUMBER(2)};
    RUN(sign_jobs, set, xmss_levels, fors_levels, P(0), P(1), P(2));
    if (result == SLH_DONE) *jobs = get32(numbers[0]), *start_len = SIZE(1), *answers_len = SIZE(2);
    return result;
}

uint32_t slh_answer_place(uint32_t set, uint32_t xmss_levels, uint32_t fors_levels, uint32_t job, size_t *at,
                          size_t *len) {
    uint8_t numbers[2][8];
    struct part parts[] = {NUMBER(0), NUMBER(1)};
    RUN(answer_place, set, xmss_levels, fors_levels, job, P(0), P(1));
    if (result == SLH_DONE) *at = SIZE(0), *len = SIZE(1);
    return result;
}

uint32_t slh_sign_start(uint32_t set, const uint8_t *sk, size_t sk_len, const uint8_t *msg, size_t msg_len,
                        const uint8_t *ctx, size_t ctx_len, const uint8_t *randomizer, size_t randomizer_len,
                        uint8_t *start, size_t start_len) {
    struct part parts[] = {READ(sk), READ(msg), READ(ctx), READ(randomizer), WRITE(start)};
    RUN(sign_start, set, B(0), B(1), B(2), B(3), B(4));
    return result;
}

uint32_t slh_hash_sign_start(uint32_t set, uint32_t function, const uint8_t *sk, size_t sk_len, const uint8_t *msg,
                             size_t msg_len, const uint8_t *ctx, size_t ctx_len, const uint8_t *randomizer,
                             size_t randomizer_len, uint8_t *start, size_t start_len) {
    struct part parts[] = {READ(sk), READ(msg), READ(ctx), READ(randomizer), WRITE(start)};
    RUN(hash_sign_start, set, function, B(0), B(1), B(2), B(3), B(4));
    return result;
}

uint32_t slh_sign_job(uint32_t set, uint32_t xmss_levels, uint32_t fors_levels, const uint8_t *sk, size_t sk_len,
                      const uint8_t *start, size_t start_len, uint32_t job, uint8_t *answer, size_t answer_len) {
    struct part parts[] = {READ(sk), READ(start), WRITE(answer)};
    RUN(sign_job, set, xmss_levels, fors_levels, B(0), B(1), job, B(2));
    return result;
}

uint32_t slh_sign_join(uint32_t set, uint32_t xmss_levels, uint32_t fors_levels, const uint8_t *sk, size_t sk_len,
                       const uint8_t *start, size_t start_len, const uint8_t *answers, size_t answers_len, uint8_t *sig,
                       size_t sig_len) {
    struct part parts[] = {READ(sk), READ(start), READ(answers), WRITE(sig)};
    RUN(sign_join, set, xmss_levels, fors_levels, B(0), B(1), B(2), B(3));
    return result;
}

uint32_t slh_keygen_jobs(uint32_t set, uint32_t xmss_levels, uint32_t *jobs, size_t *answer_len) {
    uint8_t numbers[2][8];
    struct part parts[] = {WORD(0), NUMBER(1)};
    RUN(keygen_jobs, set, xmss_levels, P(0), P(1));
    if (result == SLH_DONE) *jobs = get32(numbers[0]), *answer_len = SIZE(1);
    return result;
}

uint32_t slh_keygen_job(uint32_t set, uint32_t xmss_levels, const uint8_t *sk_seed, size_t sk_seed_len,
                        const uint8_t *sk_prf, size_t sk_prf_len, const uint8_t *pk_seed, size_t pk_seed_len,
                        uint32_t job, uint8_t *answer, size_t answer_len) {
    struct part parts[] = {READ(sk_seed), READ(sk_prf), READ(pk_seed), WRITE(answer)};
    RUN(keygen_job, set, xmss_levels, B(0), B(1), B(2), job, B(3));
    return result;
}

uint32_t slh_keygen_join(uint32_t set, uint32_t xmss_levels, const uint8_t *sk_seed, size_t sk_seed_len,
                         const uint8_t *sk_prf, size_t sk_prf_len, const uint8_t *pk_seed, size_t pk_seed_len,
                         const uint8_t *answers, size_t answers_len, uint8_t *sk, size_t sk_len) {
    struct part parts[] = {READ(sk_seed), READ(sk_prf), READ(pk_seed), READ(answers), WRITE(sk)};
    RUN(keygen_join, set, xmss_levels, B(0), B(1), B(2), B(3), B(4));
    return result;
}

uint32_t slh_sign_internal(uint32_t set, const uint8_t *sk, size_t sk_len, const uint8_t *msg, size_t msg_len,
                           const uint8_t *randomizer, size_t randomizer_len, uint8_t *sig, size_t sig_len) {
    struct part parts[] = {READ(sk), READ(msg), READ(randomizer), WRITE(sig)};
    RUN(sign_internal, set, B(0), B(1), B(2), B(3));
    return result;
}

uint32_t slh_verify_internal(uint32_t set, const uint8_t *pk, size_t pk_len, const uint8_t *msg, size_t msg_len,
                             const uint8_t *sig, size_t sig_len) {
    struct part parts[] = {READ(pk), READ(msg), READ(sig)};
    RUN(verify_internal, set, B(0), B(1), B(2));
    return result;
}

/* tools/call_tables.py has written the lines up to here. */

/* The proved code of this file has one lane, in which one signature after another takes no longer. */
uint32_t slh_verify_many(uint32_t set, const slh_signed *items, size_t items_len, uint32_t *verdicts,
                         size_t verdicts_len) {
    uint32_t refusal = set < SLH_DSA_SHA2_128S || set > SLH_DSA_SHA2_256F ? SLH_NO_SUCH_SET
                       : verdicts_len != items_len                        ? SLH_BAD_OUTPUT_LENGTH
                                                                          : SLH_DONE;
    uint32_t result = refusal;
    for (size_t i = 0; i < verdicts_len; i++) {
        verdicts[i] = refusal != SLH_DONE ? refusal
                                          : slh_verify(set, items[i].pk, (size_t)items[i].pk_len, items[i].msg,
                                                       (size_t)items[i].msg_len, items[i].ctx, (size_t)items[i].ctx_len,
                                                       items[i].sig, (size_t)items[i].sig_len);
        if (result == SLH_DONE) result = verdicts[i];
    }
    return result;
}

/* The proved code has no name for the refusal that is ours. */
uint32_t slh_refusal_name(uint32_t refusal, char *name, size_t name_len) {
    static const char ours[] = "NoMemory";
    if (refusal == SLH_NO_MEMORY) {
        if (name_len < sizeof ours) return SLH_BAD_OUTPUT_LENGTH;
        memset(name, 0, name_len);
        memcpy(name, ours, sizeof ours);
        return SLH_DONE;
    }
    struct part parts[] = {WRITE(name)};
    RUN(refusal_name, refusal, B(0));
    return result;
}

/* One code for all processors. */
uint32_t slh_level(void) { return 0; }

void slh_erase(void *bytes, size_t n) {
    if (n > 0) erase(bytes, n);
}
