// Calls of the library for C, of which valgrind counts the instructions: key generation, signing and verifying, and the
// jobs of a signature. Each is made once before it is counted. Under valgrind each count has the label `TASK SET`. The
// messages, keys and randomizers are fixed, so that a count depends on the code alone.
#include <slh.h>

#include <stdio.h>
#include <stdlib.h>
#include <string.h>
#include <valgrind/callgrind.h>

static const struct {
    const char *name;
    uint32_t set;
    uint32_t fors_levels;
    int signs;
} sets[] = {
    {"128s", SLH_DSA_SHA2_128S, 0, 0}, {"128f", SLH_DSA_SHA2_128F, 1, 1}, {"192s", SLH_DSA_SHA2_192S, 0, 0},
    {"192f", SLH_DSA_SHA2_192F, 1, 1}, {"256s", SLH_DSA_SHA2_256S, 0, 0}, {"256f", SLH_DSA_SHA2_256F, 1, 1},
};

static uint8_t sk[4 * SLH_MAX_N], pk[SLH_MAX_PUBLIC_KEY], sig[SLH_MAX_SIGNATURE], start[512];
static uint8_t scratch[2 * SLH_MAX_SIGNATURE];
static const uint8_t msg[] = "abc";
static size_t pk_len, sk_len, sig_len, n;

static void must(uint32_t result, uint32_t wanted, const char *call) {
    if (result == wanted) return;
    fprintf(stderr, "%s: %u\n", call, (unsigned)result);
    exit(2);
}

static void keygen(uint32_t set) {
    uint8_t seeds[3 * SLH_MAX_N];
    for (size_t i = 0; i < sizeof seeds; i++) seeds[i] = (uint8_t)i;
    must(slh_keygen(set, seeds, n, seeds + n, n, seeds + 2 * n, n, sk, sk_len), SLH_DONE, "slh_keygen");
}

static void sign(uint32_t set) {
    must(slh_sign(set, sk, sk_len, msg, 3, msg, 0, msg, 0, sig, sig_len), SLH_DONE, "slh_sign");
}

// As packages and the provider sign.
static void sign_twice(uint32_t set) {
    must(slh_sign_twice(set, sk, sk_len, msg, 3, msg, 0, msg, 0, scratch, 2 * sig_len, sig, sig_len), SLH_DONE,
         "slh_sign_twice");
}

// Any bytes serve as a signature and as a key: how many hashes it takes follows from the digits, and these are fixed.
static void verify(uint32_t set) {
    must(slh_verify(set, pk, pk_len, msg, 3, msg, 0, sig, sig_len), SLH_INVALID, "slh_verify");
}

// All jobs of a signature whose FORS trees are cut in two, and the join of their answers.
static void jobs(uint32_t set, uint32_t fors_levels) {
    uint32_t count;
    size_t start_len, answers_len, at, len;
    must(slh_sign_jobs(set, 0, fors_levels, &count, &start_len, &answers_len), SLH_DONE, "slh_sign_jobs");
    uint8_t *answers = malloc(answers_len);
    if (!answers || start_len > sizeof start) exit(2);
    must(slh_sign_start(set, sk, sk_len, msg, 3, msg, 0, msg, 0, start, start_len), SLH_DONE, "slh_sign_start");
    for (uint32_t job = 0; job < count; job++) {
        must(slh_answer_place(set, 0, fors_levels, job, &at, &len), SLH_DONE, "slh_answer_place");
        must(slh_sign_job(set, 0, fors_levels, sk, sk_len, start, start_len, job, answers + at, len), SLH_DONE,
             "slh_sign_job");
    }
    must(slh_sign_join(set, 0, fors_levels, sk, sk_len, start, start_len, answers, answers_len, sig, sig_len), SLH_DONE,
         "slh_sign_join");
    free(answers);
}

// Makes the call of a task and counts it, or makes it alone.
static void make(const char *task, size_t i, int counts) {
    char label[32];
    snprintf(label, sizeof label, "%s %s", task, sets[i].name);
    if (counts) CALLGRIND_ZERO_STATS;
    if (!strcmp(task, "keygen")) keygen(sets[i].set);
    if (!strcmp(task, "sign")) sign(sets[i].set);
    if (!strcmp(task, "twice")) sign_twice(sets[i].set);
    if (!strcmp(task, "verify")) verify(sets[i].set);
    if (!strcmp(task, "jobs")) jobs(sets[i].set, sets[i].fors_levels);
    if (counts) CALLGRIND_DUMP_STATS_AT(label);
}

int main(void) {
    static const char *const tasks[] = {"keygen", "sign", "jobs"};
    for (size_t i = 0; i < sizeof sets / sizeof *sets; i++) {
        must(slh_lengths(sets[i].set, &pk_len, &sk_len, &sig_len, &n), SLH_DONE, "slh_lengths");
        memset(sig, 0x5a, sizeof sig);
        memset(pk, 0xa5, sizeof pk);
        for (int counts = 0; counts < 2; counts++) make("verify", i, counts);
        for (size_t task = 0; sets[i].signs && task < 3; task++)
            for (int counts = 0; counts < 2; counts++) make(tasks[task], i, counts);
        if (sets[i].set == SLH_DSA_SHA2_128F) make("twice", i, 1);
    }
}
