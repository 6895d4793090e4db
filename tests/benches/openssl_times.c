/*
 * Times key generation, signing or verifying by OpenSSL 3.5 or later, in one thread: openssl_times TASK RUNS SET, where
 * TASK is keygen, sign or verify. It prints the nanoseconds of the shortest run, as slh_bench does, and works on what
 * slh_bench works on: the key of the seeds 00, 01, 02, .., and the deterministic signature of "abc" with an empty
 * context.
 * A run is one call of EVP_PKEY_keygen, EVP_PKEY_sign or EVP_PKEY_verify. What OpenSSL prepares before, once for many
 * calls, is not timed. The status is 1, and nothing is printed, where a call fails or the words are others.
 *
 *     cc -O2 -o openssl_times tests/benches/openssl_times.c -lcrypto
 *
 * tests/benches/benchmark.py builds and runs it; the test command does not.
 */
#include <openssl/core_names.h>
#include <openssl/evp.h>
#include <stdint.h>
#include <stdio.h>
#include <stdlib.h>
#include <string.h>
#include <time.h>

enum { MOST_SEEDS = 96, MOST_SIG = 49856 };

/* The contexts of the three tasks, prepared, and what the last call made. */
struct work {
    EVP_PKEY_CTX *making, *signing, *verifying;
    EVP_PKEY *key;
    unsigned char sig[MOST_SIG];
    size_t sig_len;
};

static const unsigned char MSG[] = {'a', 'b', 'c'};

static int make(struct work *it) {
    it->key = NULL;
    return EVP_PKEY_keygen(it->making, &it->key) == 1;
}

static int sign(struct work *it) {
    it->sig_len = sizeof it->sig;
    return EVP_PKEY_sign(it->signing, it->sig, &it->sig_len, MSG, sizeof MSG) == 1;
}

static int verify(struct work *it) {
    return EVP_PKEY_verify(it->verifying, it->sig, it->sig_len, MSG, sizeof MSG) == 1;
}

/* Makes the key. The name of a set has n, in bits, after 13 letters. */
static int prepare_key(struct work *it, const char *set) {
    unsigned char seeds[MOST_SEEDS];
    size_t n = strlen(set) > 13 ? (size_t)atoi(set + 13) / 8 : 0;
    OSSL_PARAM given[] = {OSSL_PARAM_octet_string(OSSL_PKEY_PARAM_SLH_DSA_SEED, seeds, 3 * n), OSSL_PARAM_END};
    for (int i = 0; i < MOST_SEEDS; i++) seeds[i] = (unsigned char)i;
    it->making = EVP_PKEY_CTX_new_from_name(NULL, set, NULL);
    return 0 < n && 3 * n <= MOST_SEEDS && it->making != NULL && EVP_PKEY_keygen_init(it->making) == 1 &&
           EVP_PKEY_CTX_set_params(it->making, given) == 1 && make(it);
}

/* Makes the key, and what signing and verifying need beside it, a signature for verifying. */
static int prepare(struct work *it, const char *set, int (*run)(struct work *)) {
    int yes = 1;
    OSSL_PARAM same[] = {OSSL_PARAM_int(OSSL_SIGNATURE_PARAM_DETERMINISTIC, &yes), OSSL_PARAM_END};
    EVP_SIGNATURE *scheme = EVP_SIGNATURE_fetch(NULL, set, NULL);
    if (scheme == NULL || !prepare_key(it, set)) return 0;
    it->signing = EVP_PKEY_CTX_new_from_pkey(NULL, it->key, NULL);
    it->verifying = EVP_PKEY_CTX_new_from_pkey(NULL, it->key, NULL);
    return EVP_PKEY_sign_message_init(it->signing, scheme, same) == 1 &&
           EVP_PKEY_verify_message_init(it->verifying, scheme, NULL) == 1 && (run != verify || sign(it));
}

static int64_t now(void) {
    struct timespec t;
    clock_gettime(CLOCK_MONOTONIC, &t);
    return t.tv_sec * 1000000000LL + t.tv_nsec;
}

int main(int count, char **words) {
    static struct work it;
    static const struct { const char *name; int (*run)(struct work *); } tasks[] = {
        {"keygen", make}, {"sign", sign}, {"verify", verify}};
    int64_t least = INT64_MAX;
    int task = 0;
    while (task < 3 && (count != 4 || strcmp(words[1], tasks[task].name) != 0)) task++;
    if (task == 3 || !prepare(&it, words[3], tasks[task].run)) return 1;
    for (int runs = atoi(words[2]); runs > 0; runs--) {
        int64_t start = now();
        if (!tasks[task].run(&it)) return 1;
        int64_t took = now() - start;
        if (took < least) least = took;
        if (tasks[task].run == make) EVP_PKEY_free(it.key);
    }
    printf("%lld\n", (long long)least);
    return 0;
}
