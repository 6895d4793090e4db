/*
 * Times key generation, signing or verifying by the library for C in one thread: portable_times TASK RUNS SET, where
 * TASK is keygen, sign, twice (slh_sign_twice) or verify, and SET a number. It prints the nanoseconds of the shortest
 * run, on what openssl_times.c beside it works on: the key of the seeds 00, 01, 02, .., and the deterministic signature
 * of "abc" with an empty context. Without runs it prepares alone, so that valgrind can tell the instructions of one.
 *
 *     cc -O2 -o portable_times tests/benches/portable_times.c slh.c
 */
#define _POSIX_C_SOURCE 200809L
#include <slh.h>
#include <stdio.h>
#include <stdlib.h>
#include <string.h>
#include <time.h>

static uint8_t seeds[3 * SLH_MAX_N], sk[SLH_MAX_SECRET_KEY], sig[SLH_MAX_SIGNATURE],
    scratch[2 * SLH_MAX_SIGNATURE];
static const uint8_t message[] = {'a', 'b', 'c'};

static uint64_t now(void) {
    struct timespec it;
    clock_gettime(CLOCK_MONOTONIC, &it);
    return 1000000000u * (uint64_t)it.tv_sec + (uint64_t)it.tv_nsec;
}

static uint32_t run(char task, uint32_t set, size_t n, size_t sig_len) {
    switch (task) {
    case 'k': return slh_keygen(set, seeds, n, seeds + n, n, seeds + 2 * n, n, sk, 4 * n);
    case 's': return slh_sign(set, sk, 4 * n, message, sizeof message, NULL, 0, NULL, 0, sig, sig_len);
    case 't': return slh_sign_twice(set, sk, 4 * n, message, sizeof message, NULL, 0, NULL, 0, scratch, 2 * sig_len, sig,
                                    sig_len);
    default: return slh_verify(set, sk + 2 * n, 2 * n, message, sizeof message, NULL, 0, sig, sig_len);
    }
}

int main(int count, char **words) {
    uint32_t set = count == 4 ? (uint32_t)atoi(words[3]) : 0;
    size_t pk_len, sk_len, sig_len, n;
    uint64_t least = UINT64_MAX;
    if (slh_lengths(set, &pk_len, &sk_len, &sig_len, &n) != SLH_DONE) return 1;
    for (size_t i = 0; i < sizeof seeds; i++) seeds[i] = (uint8_t)i;
    if (run('k', set, n, sig_len) != SLH_DONE) return 1;
    if (*words[1] == 'v' && run('s', set, n, sig_len) != SLH_DONE) return 1;
    for (int left = atoi(words[2]); left > 0; left--) {
        uint64_t before = now();
        if (run(*words[1], set, n, sig_len) != SLH_DONE) return 1;
        uint64_t taken = now() - before;
        if (taken < least) least = taken;
    }
    printf("%llu\n", (unsigned long long)least);
    return 0;
}
