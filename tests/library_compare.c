/*
 * Lets valgrind's callgrind count the instructions of calls that refuse a wrong tag. The first byte of the tag is
 * wrong, its middle byte, its last byte, or all bytes. A comparison that ends early takes fewer instructions for
 * some of them. tests/test_compare.py compiles it, runs it and compares the counts.
 *
 * usage: library_compare make FILE                 writes keys, starts and answers, which any build may do
 *        valgrind --tool=callgrind library_compare FILE [CALL]
 *
 * The first count of each call is repeated at the end, so that a count that depends on the heap is found. Each count is
 * named "CALL SET PLACE". The status is 0 if each call was refused as it should be. With -DEARLY sign_job compares the
 * tag itself before the call, and ends at the first wrong byte: then the counts must differ.
 */
#include <slh.h>

#include <stdio.h>
#include <stdlib.h>
#include <string.h>
#include <valgrind/callgrind.h>

enum { SETS = 3, PLACES = 5, WARM = 4, MOST_ANSWERS = 1 << 20 };

static const struct {
    uint32_t number;
    const char *name;
} sets[SETS] = {{SLH_DSA_SHA2_128F, "128f"}, {SLH_DSA_SHA2_192F, "192f"}, {SLH_DSA_SHA2_256F, "256f"}};

/* All that a set's calls take. A key has one answer: a node and its tag. */
struct taken {
    uint8_t seeds[3 * SLH_MAX_N], sk[SLH_MAX_SECRET_KEY], start[SLH_MAX_START], key_answer[2 * SLH_MAX_N];
    uint8_t answers[MOST_ANSWERS];
};

static struct taken all[SETS], *it;
static uint32_t set;
static size_t n, sk_len, sig_len, start_len, answers_len, answer_len;
static uint8_t out[MOST_ANSWERS];

static void must(int holds, const char *what) {
    if (holds) return;
    fprintf(stderr, "library_compare: %s\n", what);
    exit(2);
}

/* Sets the lengths of a set, and its bytes. Each tree has one range, which is one job. */
static uint32_t take(int number) {
    size_t pk_len, at;
    uint32_t jobs;
    set = sets[number].number;
    it = &all[number];
    must(slh_lengths(set, &pk_len, &sk_len, &sig_len, &n) == SLH_DONE &&
         slh_sign_jobs(set, 0, 0, &jobs, &start_len, &answers_len) == SLH_DONE && answers_len <= MOST_ANSWERS &&
         slh_answer_place(set, 0, 0, 0, &at, &answer_len) == SLH_DONE, "lengths");
    return jobs;
}

static void make(void) {
    const uint8_t *s = it->seeds;
    size_t at, len;
    uint32_t jobs = take((int)(it - all));
    for (size_t i = 0; i < sizeof it->seeds; i++) it->seeds[i] = (uint8_t)(7 * i + set);
    must(slh_keygen(set, s, n, s + n, n, s + 2 * n, n, it->sk, sk_len) == SLH_DONE &&
         slh_keygen_job(set, 0, s, n, s + n, n, s + 2 * n, n, 0, it->key_answer, 2 * n) == SLH_DONE &&
         slh_sign_start(set, it->sk, sk_len, s, 3, s, 0, s, 0, it->start, start_len) == SLH_DONE, "key and start");
    for (uint32_t job = 0; job < jobs; job++)
        must(slh_answer_place(set, 0, 0, job, &at, &len) == SLH_DONE &&
             slh_sign_job(set, 0, 0, it->sk, sk_len, it->start, start_len, job, it->answers + at, len) == SLH_DONE,
             "jobs");
}

#ifdef EARLY
/* A comparison with the right tag that ends at the first wrong byte, before the call. */
static volatile uint8_t kept[SLH_MAX_N];
static int ends_early(const uint8_t *tag) {
    size_t i = 0;
    while (i < n && tag[i] == kept[i]) i++;
    return i < n;
}
#endif

static uint32_t sign_job(void) {
#ifdef EARLY
    if (!ends_early(it->start + start_len - n)) return SLH_DONE;
#endif
    return slh_sign_job(set, 0, 0, it->sk, sk_len, it->start, start_len, 0, out, answer_len);
}

static uint32_t sign_join(void) {
    return slh_sign_join(set, 0, 0, it->sk, sk_len, it->start, start_len, it->answers, answers_len, out, sig_len);
}

static uint32_t keygen_join(void) {
    const uint8_t *s = it->seeds;
    return slh_keygen_join(set, 0, s, n, s + n, n, s + 2 * n, n, it->key_answer, 2 * n, out, sk_len);
}

/* The tag is the last of a start's three parts, and the second part of an answer. */
static uint8_t *start_tag(void) { return it->start + start_len - n; }
static uint8_t *answer_tag(void) { return it->answers + n; }
static uint8_t *key_tag(void) { return it->key_answer + n; }

static const struct call {
    const char *name;
    uint32_t (*run)(void), refusal;
    uint8_t *(*tag)(void);
} calls[] = {{"sign_job", sign_job, SLH_BAD_START, start_tag},
             {"keygen_join", keygen_join, SLH_ANSWERS_DISAGREE, key_tag},
             {"sign_join", sign_join, SLH_ANSWERS_DISAGREE, answer_tag}};
enum { CALLS = sizeof calls / sizeof calls[0] };

/* Turns the lowest bit of a tag's bytes from one to another. */
static void turn(uint8_t *tag, size_t from, size_t to) {
    for (size_t i = from; i < to; i++) tag[i] ^= 1;
}

/* The first runs are not counted: each build that asks for memory has the same heap then. */
static void count(const struct call *call, const char *name_of_set) {
#ifdef EARLY
    for (size_t i = 0; i < n; i++) kept[i] = call->tag()[i];
#endif
    const struct { const char *name; size_t from, to; } places[PLACES] = {
        {"first", 0, 1}, {"middle", n / 2, n / 2 + 1}, {"last", n - 1, n}, {"all", 0, n}, {"again", 0, 1}};
    char label[64];
    for (int run = 0; run < WARM + PLACES; run++) {
        int i = run < WARM ? 0 : run - WARM;
        snprintf(label, sizeof label, "%s %s %s", call->name, name_of_set, places[i].name);
        turn(call->tag(), places[i].from, places[i].to);
        CALLGRIND_ZERO_STATS;
        uint32_t result = call->run();
        if (run >= WARM) CALLGRIND_DUMP_STATS_AT(label);
        turn(call->tag(), places[i].from, places[i].to);
        must(result == call->refusal, label);
    }
}

static void makes_file(FILE *file) {
    for (int number = 0; number < SETS; number++) {
        it = &all[number];
        make();
    }
    must(fwrite(all, sizeof all, 1, file) == 1 && fclose(file) == 0, "the file can't be written");
}

int main(int argc, char **argv) {
    must(argc == 2 || argc == 3, "usage: library_compare make FILE, or FILE [CALL]");
    int makes = argc == 3 && strcmp(argv[1], "make") == 0;
    FILE *file = fopen(argv[makes ? 2 : 1], makes ? "wb" : "rb");
    must(file != NULL, "no file");
    if (makes) {
        makes_file(file);
        return 0;
    }
    must(fread(all, sizeof all, 1, file) == 1, "the file is too short");
    for (int number = 0; number < SETS; number++) {
        take(number);
        for (int i = 0; i < CALLS; i++)
            if (argc == 2 || strcmp(argv[2], calls[i].name) == 0) count(&calls[i], sets[number].name);
    }
    return 0;
}
