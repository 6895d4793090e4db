/*
 * The proved exports, a line each. SECRET(NAME, PARAMETERS, ARGUMENTS) stands for a call that takes secrets, and OPEN
 * for a call that takes none. One of the former has a kind of its own: READS if it reads a file that names the set. So
 * have some of the latter: SIZES if it writes sizes, HARDENED if it returns a hardened verdict, MANY if it writes
 * verdicts, VERSION if it returns a version, NAME if it writes a refusal's name. The file that includes this one
 * defines these macros. A kind that it does not define is SECRET or OPEN. The compiler compares each line with the
 * headers. a, b and c are SK.seed, SK.prf and PK.seed.
 */
#ifndef READS
#define READS SECRET
#endif
#ifndef SIZES
#define SIZES OPEN
#endif
#ifndef HARDENED
#define HARDENED OPEN
#endif
#ifndef MANY
#define MANY OPEN
#endif
#ifndef VERSION
#define VERSION OPEN
#endif
#ifndef NAME
#define NAME OPEN
#endif
SECRET(keygen,
       (uint32_t set, const uint8_t *a, size_t a_len, const uint8_t *b, size_t b_len, const uint8_t *c, size_t c_len,
        uint8_t *sk, size_t sk_len),
       (set, a, a_len, b, b_len, c, c_len, sk, sk_len))
SECRET(public,
       (uint32_t set, const uint8_t *sk, size_t sk_len, uint8_t *pk, size_t pk_len),
       (set, sk, sk_len, pk, pk_len))
SECRET(check,
       (uint32_t set, const uint8_t *sk, size_t sk_len),
       (set, sk, sk_len))
READS(key_read,
      (const uint8_t *file, size_t file_len, uint32_t *set_read, uint32_t *kind_read, uint8_t *key, size_t key_len),
      (file, file_len, set_read, kind_read, key, key_len))
SECRET(key_write,
       (uint32_t set, uint32_t kind, const uint8_t *key, size_t key_len, char *text, size_t text_len),
       (set, kind, key, key_len, text, text_len))
READS(der_read,
      (const uint8_t *der, size_t der_len, uint32_t *set_read, uint32_t *kind_read, uint8_t *key, size_t key_len),
      (der, der_len, set_read, kind_read, key, key_len))
READS(pem_read,
      (const uint8_t *pem, size_t pem_len, uint32_t *set_read, uint32_t *kind_read, uint8_t *key, size_t key_len),
      (pem, pem_len, set_read, kind_read, key, key_len))
SECRET(der_write,
       (uint32_t set, uint32_t kind, const uint8_t *of, size_t of_len, uint32_t *written, uint8_t *der, size_t der_len),
       (set, kind, of, of_len, written, der, der_len))
SECRET(pem_write,
       (uint32_t set, uint32_t kind, const uint8_t *of, size_t of_len, uint32_t *written, uint8_t *pem, size_t pem_len),
       (set, kind, of, of_len, written, pem, pem_len))
SECRET(sign,
       (uint32_t set, const uint8_t *sk, size_t sk_len, const uint8_t *msg, size_t msg_len, const uint8_t *ctx,
        size_t ctx_len, const uint8_t *random, size_t random_len, uint8_t *sig, size_t sig_len),
       (set, sk, sk_len, msg, msg_len, ctx, ctx_len, random, random_len, sig, sig_len))
SECRET(hash_sign_digest,
       (uint32_t set, uint32_t function, const uint8_t *sk, size_t sk_len, const uint8_t *digest, size_t digest_len,
        const uint8_t *ctx, size_t ctx_len, const uint8_t *random, size_t random_len, uint8_t *sig, size_t sig_len),
       (set, function, sk, sk_len, digest, digest_len, ctx, ctx_len, random, random_len, sig, sig_len))
SECRET(hash_sign,
       (uint32_t set, uint32_t function, const uint8_t *sk, size_t sk_len, const uint8_t *msg, size_t msg_len,
        const uint8_t *ctx, size_t ctx_len, const uint8_t *random, size_t random_len, uint8_t *sig, size_t sig_len),
       (set, function, sk, sk_len, msg, msg_len, ctx, ctx_len, random, random_len, sig, sig_len))
SECRET(sign_twice,
       (uint32_t set, const uint8_t *sk, size_t sk_len, const uint8_t *msg, size_t msg_len, const uint8_t *ctx,
        size_t ctx_len, const uint8_t *random, size_t random_len, uint8_t *scratch, size_t scratch_len, uint8_t *sig,
        size_t sig_len),
       (set, sk, sk_len, msg, msg_len, ctx, ctx_len, random, random_len, scratch, scratch_len, sig, sig_len))
SECRET(hash_sign_digest_twice,
       (uint32_t set, uint32_t function, const uint8_t *sk, size_t sk_len, const uint8_t *digest, size_t digest_len,
        const uint8_t *ctx, size_t ctx_len, const uint8_t *random, size_t random_len, uint8_t *scratch,
        size_t scratch_len, uint8_t *sig, size_t sig_len),
       (set, function, sk, sk_len, digest, digest_len, ctx, ctx_len, random, random_len, scratch, scratch_len, sig,
        sig_len))
SECRET(hash_sign_twice,
       (uint32_t set, uint32_t function, const uint8_t *sk, size_t sk_len, const uint8_t *msg, size_t msg_len,
        const uint8_t *ctx, size_t ctx_len, const uint8_t *random, size_t random_len, uint8_t *scratch,
        size_t scratch_len, uint8_t *sig, size_t sig_len),
       (set, function, sk, sk_len, msg, msg_len, ctx, ctx_len, random, random_len, scratch, scratch_len, sig,
        sig_len))
SECRET(sign_internal,
       (uint32_t set, const uint8_t *sk, size_t sk_len, const uint8_t *msg, size_t msg_len, const uint8_t *random,
        size_t random_len, uint8_t *sig, size_t sig_len),
       (set, sk, sk_len, msg, msg_len, random, random_len, sig, sig_len))
SECRET(sign_start,
       (uint32_t set, const uint8_t *sk, size_t sk_len, const uint8_t *msg, size_t msg_len, const uint8_t *ctx,
        size_t ctx_len, const uint8_t *random, size_t random_len, uint8_t *start, size_t start_len),
       (set, sk, sk_len, msg, msg_len, ctx, ctx_len, random, random_len, start, start_len))
SECRET(hash_sign_start,
       (uint32_t set, uint32_t function, const uint8_t *sk, size_t sk_len, const uint8_t *msg, size_t msg_len,
        const uint8_t *ctx, size_t ctx_len, const uint8_t *random, size_t random_len, uint8_t *start,
        size_t start_len),
       (set, function, sk, sk_len, msg, msg_len, ctx, ctx_len, random, random_len, start, start_len))
SECRET(sign_job,
       (uint32_t set, uint32_t xmss_levels, uint32_t fors_levels, const uint8_t *sk, size_t sk_len,
        const uint8_t *start, size_t start_len, uint32_t job, uint8_t *answer, size_t answer_len),
       (set, xmss_levels, fors_levels, sk, sk_len, start, start_len, job, answer, answer_len))
SECRET(sign_join,
       (uint32_t set, uint32_t xmss_levels, uint32_t fors_levels, const uint8_t *sk, size_t sk_len,
        const uint8_t *start, size_t start_len, const uint8_t *answers, size_t answers_len, uint8_t *sig,
        size_t sig_len),
       (set, xmss_levels, fors_levels, sk, sk_len, start, start_len, answers, answers_len, sig, sig_len))
SECRET(keygen_job,
       (uint32_t set, uint32_t xmss_levels, const uint8_t *a, size_t a_len, const uint8_t *b, size_t b_len,
        const uint8_t *c, size_t c_len, uint32_t job, uint8_t *answer, size_t answer_len),
       (set, xmss_levels, a, a_len, b, b_len, c, c_len, job, answer, answer_len))
SECRET(keygen_join,
       (uint32_t set, uint32_t xmss_levels, const uint8_t *a, size_t a_len, const uint8_t *b, size_t b_len,
        const uint8_t *c, size_t c_len, const uint8_t *answers, size_t answers_len, uint8_t *sk, size_t sk_len),
       (set, xmss_levels, a, a_len, b, b_len, c, c_len, answers, answers_len, sk, sk_len))
OPEN(self_test,
     (uint32_t set, uint8_t *scratch, size_t scratch_len),
     (set, scratch, scratch_len))
VERSION(version,
        (void),
        ())
OPEN(verify,
     (uint32_t set, const uint8_t *pk, size_t pk_len, const uint8_t *msg, size_t msg_len, const uint8_t *ctx,
      size_t ctx_len, const uint8_t *sig, size_t sig_len),
     (set, pk, pk_len, msg, msg_len, ctx, ctx_len, sig, sig_len))
OPEN(hash_verify_digest,
     (uint32_t set, uint32_t function, const uint8_t *pk, size_t pk_len, const uint8_t *digest, size_t digest_len,
      const uint8_t *ctx, size_t ctx_len, const uint8_t *sig, size_t sig_len),
     (set, function, pk, pk_len, digest, digest_len, ctx, ctx_len, sig, sig_len))
OPEN(hash_verify,
     (uint32_t set, uint32_t function, const uint8_t *pk, size_t pk_len, const uint8_t *msg, size_t msg_len,
      const uint8_t *ctx, size_t ctx_len, const uint8_t *sig, size_t sig_len),
     (set, function, pk, pk_len, msg, msg_len, ctx, ctx_len, sig, sig_len))
HARDENED(verify_hardened,
         (uint32_t set, const uint8_t *pk, size_t pk_len, const uint8_t *msg, size_t msg_len, const uint8_t *ctx,
          size_t ctx_len, const uint8_t *sig, size_t sig_len),
         (set, pk, pk_len, msg, msg_len, ctx, ctx_len, sig, sig_len))
HARDENED(hash_verify_digest_hardened,
         (uint32_t set, uint32_t function, const uint8_t *pk, size_t pk_len, const uint8_t *digest, size_t digest_len,
          const uint8_t *ctx, size_t ctx_len, const uint8_t *sig, size_t sig_len),
         (set, function, pk, pk_len, digest, digest_len, ctx, ctx_len, sig, sig_len))
MANY(verify_many,
     (uint32_t set, const slh_signed *items, size_t items_len, uint32_t *verdicts, size_t verdicts_len),
     (set, items, items_len, verdicts, verdicts_len))
OPEN(verify_front,
     (uint32_t set, const uint8_t *pk, size_t pk_len, const uint8_t *ctx, size_t ctx_len, const uint8_t *sig,
      size_t sig_len, uint8_t *front, size_t front_len),
     (set, pk, pk_len, ctx, ctx_len, sig, sig_len, front, front_len))
OPEN(verify_hashed,
     (uint32_t set, const uint8_t *pk, size_t pk_len, const uint8_t *hash, size_t hash_len, const uint8_t *sig,
      size_t sig_len),
     (set, pk, pk_len, hash, hash_len, sig, sig_len))
OPEN(verify_internal,
     (uint32_t set, const uint8_t *pk, size_t pk_len, const uint8_t *msg, size_t msg_len, const uint8_t *sig,
      size_t sig_len),
     (set, pk, pk_len, msg, msg_len, sig, sig_len))
SIZES(lengths,
      (uint32_t set, size_t *pk_len, size_t *sk_len, size_t *sig_len, size_t *n),
      (set, pk_len, sk_len, sig_len, n))
NAME(refusal_name,
     (uint32_t refusal, char *name, size_t name_len),
     (refusal, name, name_len))
SIZES(sign_jobs,
      (uint32_t set, uint32_t xmss_levels, uint32_t fors_levels, uint32_t *jobs, size_t *start_len,
       size_t *answers_len),
      (set, xmss_levels, fors_levels, jobs, start_len, answers_len))
SIZES(answer_place,
      (uint32_t set, uint32_t xmss_levels, uint32_t fors_levels, uint32_t job, size_t *at, size_t *len),
      (set, xmss_levels, fors_levels, job, at, len))
SIZES(keygen_jobs,
      (uint32_t set, uint32_t xmss_levels, uint32_t *jobs, size_t *answer_len),
      (set, xmss_levels, jobs, answer_len))
