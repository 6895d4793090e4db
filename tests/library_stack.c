/*
 * Measures the most bytes of stack that slh_keygen, slh_sign, slh_verify, slh_hash_verify_digest, slh_sign_job,
 * slh_sign_join and slh_verify_many of each set take: each runs in a thread whose stack was filled with one byte value,
 * and what no longer has it was used. What a thread takes that does nothing is taken off. The last line tells whether
 * all are below the limits, 64 KB, and 32 KB for the two that verify one signature.
 */
#define _GNU_SOURCE
#include <slh.h>

#include <pthread.h>
#include <stdio.h>
#include <stdlib.h>
#include <string.h>
#include <sys/mman.h>

enum { STACK = 1 << 20, PAINT = 0x5c, SETS = 6, EIGHT = 8 };

static uint8_t seeds[3 * SLH_MAX_N], sk[SLH_MAX_SECRET_KEY], sig[SLH_MAX_SIGNATURE], msg[1000], ctx[255];
static size_t pk_len, sk_len, sig_len, n;
static uint8_t start[SLH_MAX_START], *answers;
static size_t start_len, answers_len;
static uint32_t set, result, jobs;

static void *nothing(void *it) { return it; }

static void *keygen(void *it) {
    result = slh_keygen(set, seeds, n, seeds + n, n, seeds + 2 * n, n, sk, sk_len);
    return it;
}

static void *sign(void *it) {
    result = slh_sign(set, sk, sk_len, msg, sizeof msg, ctx, sizeof ctx, seeds, n, sig, sig_len);
    return it;
}

static void *verify(void *it) {
    result = slh_verify(set, sk + 2 * n, pk_len, msg, sizeof msg, ctx, sizeof ctx, sig, sig_len);
    return it;
}

/* The signature is one of the pure form, and so invalid in this one, which shows only when all is computed. */
static void *verify_digest(void *it) {
    uint32_t judged = slh_hash_verify_digest(set, SLH_SHA2_256, sk + 2 * n, pk_len, msg, 32, ctx, sizeof ctx, sig,
                                             sig_len);
    result = judged == SLH_INVALID ? SLH_DONE : SLH_INVALID;
    return it;
}

/* All jobs of a signature, one after the other. */
static void *job(void *it) {
    for (uint32_t number = 0; number < jobs && result == SLH_DONE; number++) {
        size_t at, len;
        result = slh_answer_place(set, 1, 1, number, &at, &len);
        if (result == SLH_DONE)
            result = slh_sign_job(set, 1, 1, sk, sk_len, start, start_len, number, answers + at, len);
    }
    return it;
}

static void *join(void *it) {
    result = slh_sign_join(set, 1, 1, sk, sk_len, start, start_len, answers, answers_len, sig, sig_len);
    return it;
}

/* Eight are hashed side by side. */
static void *verify_many(void *it) {
    static slh_signed items[EIGHT];
    static uint32_t verdicts[EIGHT];
    for (size_t i = 0; i < EIGHT; i++)
        items[i] = (slh_signed){sk + 2 * n, pk_len, msg, sizeof msg, ctx, sizeof ctx, sig, sig_len};
    result = slh_verify_many(set, items, EIGHT, verdicts, EIGHT);
    return it;
}

static void begin(void) {
    if (slh_sign_jobs(set, 1, 1, &jobs, &start_len, &answers_len) != SLH_DONE ||
        slh_sign_start(set, sk, sk_len, msg, sizeof msg, ctx, sizeof ctx, seeds, n, start, start_len) != SLH_DONE ||
        (answers = malloc(answers_len)) == NULL)
        exit(2);
}

static size_t used(void *(*run)(void *)) {
    uint8_t *stack = mmap(NULL, STACK, PROT_READ | PROT_WRITE, MAP_PRIVATE | MAP_ANONYMOUS | MAP_STACK, -1, 0);
    pthread_attr_t attributes;
    pthread_t thread;
    if (stack == MAP_FAILED) exit(2);
    memset(stack, PAINT, STACK);
    result = SLH_DONE;
    if (pthread_attr_init(&attributes) || pthread_attr_setstack(&attributes, stack, STACK) ||
        pthread_create(&thread, &attributes, run, NULL) || pthread_join(thread, NULL) || result != SLH_DONE)
        exit(2);
    size_t untouched = 0;
    while (untouched < STACK && stack[untouched] == PAINT) untouched++;
    pthread_attr_destroy(&attributes);
    munmap(stack, STACK);
    return STACK - untouched;
}

int main(void) {
    static const char *names[SETS] = {"128s", "128f", "192s", "192f", "256s", "256f"};
    int is_within = 1;
    size_t thread = used(nothing);
    for (size_t i = 0; i < sizeof seeds; i++) seeds[i] = (uint8_t)i;
    puts("set   keygen   sign   verify   verify_digest   sign_job   sign_join   verify_many   bytes");
    for (set = 1; set <= SETS; set++) {
        if (slh_lengths(set, &pk_len, &sk_len, &sig_len, &n) != SLH_DONE) return 2;
        size_t made = used(keygen) - thread, signed_ = used(sign) - thread, verified = used(verify) - thread;
        size_t by_digest = used(verify_digest) - thread;
        begin();
        size_t worked = used(job) - thread, joined = used(join) - thread, many = used(verify_many) - thread;
        free(answers);
        printf("%s  %6zu %6zu   %6zu          %6zu     %6zu      %6zu        %6zu\n", names[set - 1], made, signed_,
               verified, by_digest, worked, joined, many);
        is_within &= made < 65536 && signed_ < 65536 && verified < 32768 && by_digest < 32768;
        is_within &= worked < 65536 && joined < 65536 && many < 65536;
    }
    puts(is_within ? "below the limits" : "over a limit");
    return !is_within;
}
