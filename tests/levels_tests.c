/*
 * Tries what the library chooses for a processor (c/exports/chosen.c): by tests/processors.h and by processors that
 * lack one thing; by 64 threads whose first calls come at once; and the time of a call. Below x86-64-v2 each call has to
 * be refused. It is linked with a libslh.a whose slh_ask_processor and slh_choice are to be seen, the first of them weak
 * (tests/machines.py makes it so).
 *
 * usage: levels_tests LEVEL [PROCESSOR..]      LEVEL is the best that this processor runs: 2, 3 or 4
 *
 * With names of processors.h the threads alone are tried, as if it were these: for such with SHA instructions, which an
 * emulator or tests/sha_by_signals.c runs.
 *
 * The last line is 'N passed, M failed', and the status is 0 where nothing failed.
 */
#define _GNU_SOURCE
#include "processors.h"
#include <slh.h>
#include <slh_internal.h>

#include <pthread.h>
#include <sched.h>
#include <stdio.h>
#include <stdlib.h>
#include <string.h>
#include <time.h>

enum { THREADS = 64, ROUNDS = 40, ROUNDS_EMULATED = 2 };
enum { SET = SLH_DSA_SHA2_128F, KEY = SLH_DSA_SHA2_128F_SECRET_KEY, N = SLH_DSA_SHA2_128F_N };
enum { BATCHES = 200, CALLS = 10000, MOST_NANOSECONDS = 20 };

extern uint32_t slh_choice; /* 0 before anybody asked */
enum { V2_SHA = 5 };        /* as in c/exports/exports.h */

static unsigned passed, failed;
static struct slh_processor processor;
static int asked;

/* It stands in place of the library's. Other threads run meanwhile. */
struct slh_processor slh_ask_processor(void) {
    __atomic_fetch_add(&asked, 1, __ATOMIC_RELAXED);
    sched_yield();
    return processor;
}

static void tell(const char *what, int is_right) {
    if (!is_right) printf("%s: no\n", what);
    is_right ? passed++ : failed++;
}

static uint32_t level_for(struct slh_processor it) {
    processor = it;
    slh_choice = 0;
    asked = 0;
    return slh_level();
}

static void test_processors(void) {
    for (int i = 0; i < PROCESSORS; i++) {
        tell(processors[i].name, level_for(processors[i].it) == processors[i].level);
        tell("its vectors", (slh_choice >> 8 & 0xff) == processors[i].vectors);
        tell("its single messages", slh_choice >> 16 == (processors[i].by_sha != NOTHING));
        tell("its chains", ((slh_choice & 0xff) == V2_SHA) == (processors[i].by_sha == ALL));
        tell("it is asked once", asked == 1);
    }
}

/*
 * Each feature that a level needs is taken away in turn. Without one of x86-64-v2 there is no level. The numbers of bits
 * are of Intel's manual, volume 2, CPUID.
 */
static void test_lacking(void) {
    static const struct {
        size_t word;
        uint32_t bit, level;
    } rows[] = {
        {0, 0, 0},  {0, 9, 0},  {0, 13, 0}, {0, 19, 0}, {0, 20, 0},  /* SSE3, SSSE3, CMPXCHG16B, SSE4.1, SSE4.2 */
        {0, 23, 0}, {2, 0, 0},                                       /* POPCNT, LAHF */
        {0, 12, 2}, {0, 22, 2}, {0, 27, 2}, {0, 28, 2}, {0, 29, 2},  /* FMA, MOVBE, OSXSAVE, AVX, F16C */
        {1, 3, 2},  {1, 5, 2},  {1, 8, 2},                           /* BMI1, AVX2, BMI2 */
        {1, 16, 3}, {1, 17, 3}, {1, 28, 3}, {1, 30, 3}, {1, 31, 3},  /* AVX-512 F, DQ, CD, BW, VL */
        {2, 5, 2},                                                   /* LZCNT */
        {3, 1, 2},  {3, 2, 2},  {3, 5, 3},  {3, 6, 3},  {3, 7, 3},   /* XCR0: xmm, ymm; masks, zmm in two parts */
    };
    for (size_t i = 0; i < sizeof rows / sizeof *rows; i++) {
        char what[64];
        uint32_t words[5];
        struct slh_processor it = processors[SKYLAKE].it;
        memcpy(words, &it, sizeof words);
        words[1 + rows[i].word] &= ~((uint32_t)1 << rows[i].bit);
        memcpy(&it, words, sizeof words);
        snprintf(what, sizeof what, "without bit %u of word %zu", (unsigned)rows[i].bit, rows[i].word);
        tell(what, level_for(it) == rows[i].level);
    }
    tell("nothing at all", level_for((struct slh_processor){0, 0, 0, 0, 0}) == 0);
    struct slh_processor it = processors[EPYC_ROME].it;
    it.leaf_7_ebx &= ~((uint32_t)1 << 29);
    tell("EPYC without SHA", level_for(it) == 3 && slh_choice >> 16 == 0);
    it = processors[EPYC_ROME].it;
    it.leaf_7_ebx &= ~((uint32_t)1 << 5);
    tell("EPYC without AVX2", level_for(it) == 2 && (slh_choice & 0xff) == V2_SHA);
}

/*
 * Below x86-64-v2 each call of c/exports/calls.h is refused, whatever its arguments are. They have the names that they
 * have there, and all outputs are in one array, which has to stay as it is.
 */
static uint8_t painted[KEY], outputs[KEY];
static size_t numbers[3];
static uint32_t jobs_of[1], verdicts_of[3] = {5, 5, 5};
static const slh_signed items_of[2];

static void refused(const char *name, uint32_t result) {
    tell(name, result == SLH_OLD_PROCESSOR && memcmp(outputs, painted, KEY) == 0);
}

#define SECRET(name, parameters, arguments) refused("slh_" #name, slh_##name arguments);
#define OPEN SECRET
#define SIZES(name, parameters, arguments)
#define HARDENED(name, parameters, arguments) tell("slh_" #name, slh_##name arguments == SLH_HARDENED_INVALID);
#define VERSION(name, parameters, arguments) tell("slh_" #name, slh_##name arguments == SLH_VERSION_NUMBER);
/* The refusal is in each verdict, too. */
#define MANY(name, parameters, arguments)                                                                              \
    refused("slh_" #name, slh_##name arguments);                                                                       \
    tell("verdicts", verdicts[0] == SLH_OLD_PROCESSOR && verdicts[1] == SLH_OLD_PROCESSOR && verdicts[2] == 5);

static void test_calls_below_v2(void) {
    const uint32_t set = SET, function = SLH_SHA2_256, xmss_levels = 1, fors_levels = 1, job = 0, refusal = SLH_INVALID;
    const uint8_t *const a = painted, *const b = painted, *const c = painted, *const msg = painted;
    const uint8_t *const ctx = painted, *const random = painted, *const digest = painted, *const hash = painted;
    const uint8_t *const answers = painted;
    uint8_t *const sk = outputs, *const pk = outputs, *const start = outputs, *const answer = outputs;
    uint8_t *const sig = outputs, *const scratch = outputs, *const front = outputs;
    char *const name = (char *)outputs;
    const slh_signed *const items = items_of;
    uint32_t *const verdicts = verdicts_of;
    const size_t items_len = 2, verdicts_len = 2;
    const uint32_t kind = SLH_SECRET_KEY;
    const uint8_t *const file = painted, *const of = painted;
    uint8_t *const key = outputs, *const der = outputs, *const pem = outputs;
    char *const text = (char *)outputs;
    uint32_t *const set_read = jobs_of, *const kind_read = jobs_of, *const written = jobs_of;
    const size_t file_len = KEY, key_len = KEY, text_len = KEY, der_len = KEY, pem_len = KEY, of_len = KEY;
    const size_t a_len = KEY, b_len = KEY, c_len = KEY, msg_len = KEY, ctx_len = KEY, random_len = KEY;
    const size_t digest_len = KEY, hash_len = KEY, answers_len = KEY, sk_len = KEY, pk_len = KEY, start_len = KEY;
    const size_t answer_len = KEY, sig_len = KEY, scratch_len = KEY, front_len = KEY, name_len = KEY;
#include "../c/exports/calls.h"
}

#undef SECRET
#undef OPEN
#undef SIZES
#undef HARDENED
#undef MANY
#undef VERSION
#define SECRET(name, parameters, arguments)
#define OPEN SECRET
#define SIZES(name, parameters, arguments) refused("slh_" #name, slh_##name arguments);

static void test_sizes_below_v2(void) {
    const uint32_t set = SET, xmss_levels = 1, fors_levels = 1, job = 0;
    uint32_t *const jobs = jobs_of;
    size_t *const pk_len = &numbers[0], *const sk_len = &numbers[1], *const sig_len = &numbers[2], *const n = numbers;
    size_t *const start_len = numbers, *const answers_len = numbers, *const answer_len = numbers, *const at = numbers;
    size_t *const len = numbers;
#include "../c/exports/calls.h"
    tell("no number is written", numbers[0] + numbers[1] + numbers[2] + jobs_of[0] == 0);
}

/* What needs no code of a level works there. */
static void test_below_v2(void) {
    char name[SLH_MAX_NAME];
    uint8_t bytes[] = {1, 2, 3};
    level_for(processors[MEROM].it);
    test_calls_below_v2();
    test_sizes_below_v2();
    tell("its name", slh_refusal_name(SLH_OLD_PROCESSOR, name, sizeof name) == SLH_DONE &&
                         strcmp(name, "OldProcessor") == 0);
    tell("its text", strstr(slh_refusal_text(SLH_OLD_PROCESSOR), "below x86-64-v2") != NULL);
    slh_erase(bytes, 2);
    tell("slh_erase", bytes[0] == 0 && bytes[1] == 0 && bytes[2] == 3);
}

static pthread_barrier_t barrier;
static const uint8_t seeds[3 * N] = {1, 2, 3, 4, 5, 6, 7};

struct seen {
    uint32_t first, then, result;
    uint8_t sk[KEY];
};

/* The first call of every second thread makes a key. */
static void *call_at_once(void *to) {
    struct seen *seen = to;
    pthread_barrier_wait(&barrier);
    seen->first = seen->first ? slh_level() : 0;
    seen->result = slh_keygen(SET, seeds, N, seeds + N, N, seeds + 2 * N, N, seen->sk, KEY);
    seen->then = slh_level();
    return NULL;
}

/* The SHA instructions of the row are chosen, and none otherwise. */
static int is_chosen(const struct processor *row) {
    return ((slh_choice & 0xff) == V2_SHA) == (row->by_sha == ALL) && slh_choice >> 16 == (row->by_sha != NOTHING);
}

static int is_whole(const struct processor *row, const uint8_t *sk) {
    static struct seen seen[THREADS];
    pthread_t threads[THREADS];
    int is_right = 1;
    processor = row->it;
    slh_choice = 0;
    for (int i = 0; i < THREADS; i++) {
        memset(&seen[i], 0, sizeof seen[i]);
        seen[i].first = i % 2;
        if (pthread_create(&threads[i], NULL, call_at_once, &seen[i])) exit(2);
    }
    for (int i = 0; i < THREADS; i++) {
        if (pthread_join(threads[i], NULL)) exit(2);
        is_right &= seen[i].result == SLH_DONE && memcmp(seen[i].sk, sk, KEY) == 0;
        is_right &= seen[i].first == (i % 2 ? row->level : 0) && seen[i].then == row->level;
    }
    return is_right && is_chosen(row);
}

static void test_threads(const struct processor *row, int rounds) {
    uint8_t sk[KEY];
    int is_right = 1;
    level_for(processors[NEHALEM].it);
    if (slh_keygen(SET, seeds, N, seeds + N, N, seeds + 2 * N, N, sk, KEY) != SLH_DONE) exit(2);
    if (pthread_barrier_init(&barrier, NULL, THREADS)) exit(2);
    for (int round = 0; round < rounds; round++) is_right &= is_whole(row, sk);
    tell("first calls at once", is_right);
}

static const struct processor *named(const char *name) {
    for (int i = 0; i < PROCESSORS; i++)
        if (strcmp(processors[i].name, name) == 0) return &processors[i];
    exit(2);
}

/* The choice is made once: after it nobody asks again. */
static void test_once(void) {
    level_for(processors[HASWELL].it);
    asked = 0;
    for (int i = 0; i < 1000; i++)
        if (slh_level() != 3 || slh_version() != SLH_VERSION_NUMBER) break;
    tell("nobody asks twice", asked == 0);
}

static double nanoseconds_of(uint32_t (*call)(void)) {
    double least = 1e9;
    for (int batch = 0; batch < BATCHES; batch++) {
        struct timespec from, to;
        volatile uint32_t sum = 0;
        clock_gettime(CLOCK_MONOTONIC, &from);
        for (int i = 0; i < CALLS; i++) sum += call();
        clock_gettime(CLOCK_MONOTONIC, &to);
        double it = ((double)(to.tv_sec - from.tv_sec) * 1e9 + (double)(to.tv_nsec - from.tv_nsec)) / CALLS;
        if (it < least) least = it;
    }
    return least;
}

static void test_time(void) {
    static uint32_t (*const calls[])(void) = {slh_level, slh_version};
    for (int i = 0; i < 2; i++) {
        double it = nanoseconds_of(calls[i]);
        printf("%s: %.1f ns\n", i ? "slh_version" : "slh_level", it);
        tell("at most 20 ns a call", it <= MOST_NANOSECONDS);
    }
}

int main(int argc, char **argv) {
    uint32_t best = argc > 1 ? (uint32_t)atoi(argv[1]) : 0;
    if (best < 2 || best > 4) return 2;
    for (int i = 2; i < argc; i++) test_threads(named(argv[i]), ROUNDS_EMULATED);
    if (argc == 2) {
        test_processors();
        test_lacking();
        test_below_v2();
        test_once();
        for (int i = NEHALEM; i <= SKYLAKE && processors[i].level <= best; i++) test_threads(&processors[i], ROUNDS);
        test_time();
    }
    printf("%u passed, %u failed\n", passed, failed);
    return failed != 0;
}
