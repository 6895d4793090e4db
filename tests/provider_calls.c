/*
 * Stands before libslh and OpenSSL in a process, by LD_PRELOAD, for tests/test_provider.py: it counts what the
 * provider `slh` calls, and makes calls fail or go wrong where a test asks for it. What it answers is libslh's.
 *
 * At the end it appends a line to the file that SLH_CALLS names: how many keys were made and checked, how many
 * signatures were made, by one call or by jobs, and judged, and how many jobs were done. A process that did none of it
 * writes none.
 *
 *     cc -shared -fPIC -pthread -o provider_calls.so tests/provider_calls.c
 */
#define _GNU_SOURCE
#include <slh_internal.h>

#include "provider_calls.h"

#include <dlfcn.h>
#include <errno.h>
#include <pthread.h>
#include <signal.h>
#include <stdio.h>
#include <stdlib.h>

struct provider_calls provider_calls;
static _Thread_local int is_known;

/* The function of libslh, which the provider has loaded, or of another library of this process. */
static void *real(const char *name) {
    void *library = dlopen("libslh.so.1", RTLD_NOW | RTLD_NOLOAD);
    void *found = library == NULL ? NULL : dlsym(library, name);
    if (library != NULL) dlclose(library);
    if (found == NULL) found = dlsym(RTLD_NEXT, name);
    if (found == NULL) abort();
    return found;
}
#define REAL(name) ((__typeof__(name) *)real(#name))

uint32_t slh_keygen(uint32_t set, const uint8_t *a, size_t al, const uint8_t *b, size_t bl, const uint8_t *c, size_t cl,
                    uint8_t *sk, size_t sk_len) {
    provider_calls.keys++;
    return REAL(slh_keygen)(set, a, al, b, bl, c, cl, sk, sk_len);
}

uint32_t slh_check(uint32_t set, const uint8_t *sk, size_t sk_len) {
    provider_calls.checks++;
    return REAL(slh_check)(set, sk, sk_len);
}

uint32_t slh_sign(uint32_t set, const uint8_t *sk, size_t sk_len, const uint8_t *msg, size_t msg_len,
                  const uint8_t *ctx, size_t ctx_len, const uint8_t *randomizer, size_t randomizer_len, uint8_t *sig,
                  size_t sig_len) {
    provider_calls.signatures++;
    return REAL(slh_sign)(set, sk, sk_len, msg, msg_len, ctx, ctx_len, randomizer, randomizer_len, sig, sig_len);
}

uint32_t slh_sign_internal(uint32_t set, const uint8_t *sk, size_t sk_len, const uint8_t *msg, size_t msg_len,
                           const uint8_t *randomizer, size_t randomizer_len, uint8_t *sig, size_t sig_len) {
    provider_calls.signatures++;
    return REAL(slh_sign_internal)(set, sk, sk_len, msg, msg_len, randomizer, randomizer_len, sig, sig_len);
}

uint32_t slh_sign_join(uint32_t set, uint32_t xmss, uint32_t fors, const uint8_t *sk, size_t sk_len,
                       const uint8_t *start, size_t start_len, const uint8_t *answers, size_t answers_len, uint8_t *sig,
                       size_t sig_len) {
    provider_calls.signatures++;
    return REAL(slh_sign_join)(set, xmss, fors, sk, sk_len, start, start_len, answers, answers_len, sig, sig_len);
}

/* Notes threads that had not called before, and those of them that would be handed signals. */
uint32_t slh_sign_job(uint32_t set, uint32_t xmss, uint32_t fors, const uint8_t *sk, size_t sk_len,
                      const uint8_t *start, size_t start_len, uint32_t job, uint8_t *answer, size_t answer_len) {
    unsigned count = ++provider_calls.jobs;
    sigset_t blocked;
    if (!is_known) {
        pthread_sigmask(SIG_BLOCK, NULL, &blocked);
        provider_calls.threads++;
        if (!sigismember(&blocked, SIGTERM)) provider_calls.open_threads++;
    }
    is_known = 1;
    uint32_t result = REAL(slh_sign_job)(set, xmss, fors, sk, sk_len, start, start_len, job, answer, answer_len);
    if (count == provider_calls.wrong_job) answer[answer_len - 1] ^= 1;
    return result;
}

uint32_t slh_verify(uint32_t set, const uint8_t *pk, size_t pk_len, const uint8_t *msg, size_t msg_len,
                    const uint8_t *ctx, size_t ctx_len, const uint8_t *sig, size_t sig_len) {
    provider_calls.verdicts++;
    return REAL(slh_verify)(set, pk, pk_len, msg, msg_len, ctx, ctx_len, sig, sig_len);
}

uint32_t slh_verify_internal(uint32_t set, const uint8_t *pk, size_t pk_len, const uint8_t *msg, size_t msg_len,
                             const uint8_t *sig, size_t sig_len) {
    provider_calls.verdicts++;
    return REAL(slh_verify_internal)(set, pk, pk_len, msg, msg_len, sig, sig_len);
}

uint32_t slh_verify_hashed(uint32_t set, const uint8_t *pk, size_t pk_len, const uint8_t *hash, size_t hash_len,
                           const uint8_t *sig, size_t sig_len) {
    provider_calls.verdicts++;
    return REAL(slh_verify_hashed)(set, pk, pk_len, hash, hash_len, sig, sig_len);
}

static int fails_to_hash(void) { return provider_calls.fails_to_hash != 0 && --provider_calls.fails_to_hash == 0; }

void *EVP_MD_fetch(void *libctx, const char *name, const char *query) {
    return fails_to_hash() ? NULL : REAL(EVP_MD_fetch)(libctx, name, query);
}

int EVP_DigestInit_ex2(void *it, const void *digest, const void *params) {
    return fails_to_hash() ? 0 : REAL(EVP_DigestInit_ex2)(it, digest, params);
}

int EVP_DigestUpdate(void *it, const void *piece, size_t len) {
    return fails_to_hash() ? 0 : REAL(EVP_DigestUpdate)(it, piece, len);
}

int EVP_DigestFinal_ex(void *it, unsigned char *to, unsigned *len) {
    return fails_to_hash() ? 0 : REAL(EVP_DigestFinal_ex)(it, to, len);
}

int RAND_priv_bytes_ex(void *libctx, unsigned char *to, size_t len, unsigned strength) {
    int (*draw)(void *, unsigned char *, size_t, unsigned) = (__typeof__(draw))real("RAND_priv_bytes_ex");
    provider_calls.draws++;
    return provider_calls.fails_to_draw ? 0 : draw(libctx, to, len, strength);
}

int pthread_create(pthread_t *thread, const pthread_attr_t *how, void *(*run)(void *), void *with) {
    if (provider_calls.fails_to_start) return EAGAIN;
    return REAL(pthread_create)(thread, how, run, with);
}

__attribute__((destructor)) static void note(void) {
    const struct provider_calls *it = &provider_calls;
    const char *path = getenv("SLH_CALLS");
    if (path == NULL || it->keys + it->checks + it->signatures + it->verdicts == 0) return;
    FILE *file = fopen(path, "a");
    if (file == NULL) abort();
    fprintf(file, "keys %u checks %u signatures %u verdicts %u jobs %u\n", it->keys, it->checks, it->signatures,
            it->verdicts, it->jobs);
    fclose(file);
}
