/*
 * Calls the library for C for signatures and keys as jobs: in rule, with numbers and lengths that are not valid, with
 * answers that were changed or exchanged, and with starts and answers of other keys, sets and messages. The last line has
 * the counts, and the status is 0 where nothing failed. tests/test_library.py compiles and runs it.
 */
#include <slh_internal.h>

#include <stdio.h>
#include <stdlib.h>
#include <string.h>

/* ENCODING is the number of the encoding of starts and answers. */
enum { SETS = 6, PAINT = 0xa5, MOST_ANSWERS = 64000000, MOST_TEXT = 256, ENCODING = 2 };

/* Of each set the numbers of FIPS 205's Table 2 that say how many trees there are and how high, and a start's length. */
static const struct {
    uint32_t d, hp, a, k;
    size_t start;
} sets[SETS] = {{7, 9, 12, 14, SLH_DSA_SHA2_128S_START}, {22, 3, 6, 33, SLH_DSA_SHA2_128F_START},
                {7, 9, 14, 17, SLH_DSA_SHA2_192S_START}, {22, 3, 8, 33, SLH_DSA_SHA2_192F_START},
                {8, 8, 14, 22, SLH_DSA_SHA2_256S_START}, {17, 4, 9, 35, SLH_DSA_SHA2_256F_START}};

/* A signature as jobs: its numbers, what the calls are given, and the signature that slh_sign makes. */
struct work {
    uint32_t set, xmss, fors, jobs;
    size_t pk_len, sk_len, sig_len, n, start_len, answers_len;
    uint8_t seeds[3 * SLH_MAX_N], sk[SLH_MAX_SECRET_KEY], start[SLH_MAX_START];
    uint8_t *answers;
    const uint8_t *whole;
};

static uint8_t sig[SLH_MAX_SIGNATURE + 1], paint[SLH_MAX_SIGNATURE + 1], msg[] = "a message";
static int passed, failed;

static void expect(int holds, const char *what, uint32_t set, size_t detail) {
    holds ? passed++ : failed++;
    if (!holds) printf("failed: %s, set %u, %zu\n", what, (unsigned)set, detail);
}

static uint8_t *room(size_t len) {
    uint8_t *made = len <= MOST_ANSWERS ? malloc(len) : NULL;
    if (made == NULL) exit(2);
    return made;
}

static int is_painted(const uint8_t *bytes, size_t len) {
    if (paint[0] != PAINT) memset(paint, PAINT, sizeof paint);
    return memcmp(bytes, paint, len) == 0;
}

/* Where the answer of a job is, and its length. */
static uint8_t *place(const struct work *w, uint32_t job, size_t *len) {
    size_t at = 0;
    int done = slh_answer_place(w->set, w->xmss, w->fors, job, &at, len) == SLH_DONE && at + *len <= w->answers_len;
    if (!done) exit(2);
    return w->answers + at;
}

/* Joins, and expects this result; the output must be the signature where that is SLH_DONE, and else be as it was. */
static void expect_join(const struct work *w, uint32_t wanted, const char *what, size_t detail) {
    memset(sig, PAINT, sizeof sig);
    uint32_t result = slh_sign_join(w->set, w->xmss, w->fors, w->sk, w->sk_len, w->start, w->start_len, w->answers,
                                    w->answers_len, sig, w->sig_len);
    int right = wanted == SLH_DONE ? memcmp(sig, w->whole, w->sig_len) == 0 : is_painted(sig, w->sig_len);
    expect(result == wanted && right && is_painted(sig + w->sig_len, 1), what, w->set, detail);
}

/* The start is refused by the first job, by the last one and by the join, and the outputs are as they were. */
static void expect_bad_start(const struct work *w, const char *what, size_t detail) {
    const uint32_t jobs[] = {0, w->jobs - 1};
    for (int i = 0; i < 2; i++) {
        size_t len;
        place(w, jobs[i], &len);
        memset(sig, PAINT, len);
        uint32_t result = slh_sign_job(w->set, w->xmss, w->fors, w->sk, w->sk_len, w->start, w->start_len, jobs[i], sig,
                                       len);
        expect(result == SLH_BAD_START && is_painted(sig, len), what, w->set, detail);
    }
    expect_join(w, SLH_BAD_START, what, detail);
}

static void begin(struct work *w, uint8_t first) {
    msg[0] = first;
    expect(slh_sign_start(w->set, w->sk, w->sk_len, msg, sizeof msg, NULL, 0, NULL, 0, w->start, w->start_len) == SLH_DONE,
           "start", w->set, first);
}

static void do_job(const struct work *w, uint32_t job) {
    size_t len;
    uint8_t *at = place(w, job, &len);
    expect(slh_sign_job(w->set, w->xmss, w->fors, w->sk, w->sk_len, w->start, w->start_len, job, at, len) == SLH_DONE,
           "job", w->set, job);
}

/* Begins a signature and does all jobs, the last one first. */
static void answer_all(struct work *w, uint8_t first) {
    w->answers = room(w->answers_len);
    begin(w, first);
    for (uint32_t job = w->jobs; job-- > 0;) do_job(w, job);
}

/* The signature that slh_sign makes of the message. */
static void sign(const struct work *w, uint8_t *whole) {
    msg[0] = 'a';
    expect(slh_sign(w->set, w->sk, w->sk_len, msg, sizeof msg, NULL, 0, NULL, 0, whole, w->sig_len) == SLH_DONE, "sign",
           w->set, 0);
}

/* A signature with the seeds 00, 01, 02, .., before its answers are made. */
static struct work numbered(uint32_t set, uint32_t xmss, uint32_t fors) {
    static uint8_t keys[SETS][SLH_MAX_SECRET_KEY], wholes[SETS][SLH_MAX_SIGNATURE];
    static int are_made[SETS];
    struct work w = {.set = set, .xmss = xmss, .fors = fors, .whole = wholes[set - 1]};
    for (size_t i = 0; i < sizeof w.seeds; i++) w.seeds[i] = (uint8_t)i;
    if (slh_lengths(set, &w.pk_len, &w.sk_len, &w.sig_len, &w.n) != SLH_DONE) exit(2);
    expect(slh_sign_jobs(set, xmss, fors, &w.jobs, &w.start_len, &w.answers_len) == SLH_DONE, "numbers", set, xmss);
    expect(w.start_len == sets[set - 1].start && w.start_len <= SLH_MAX_START, "a macro", set, w.start_len);
    expect(w.jobs == (sets[set - 1].d << xmss) + (sets[set - 1].k << fors), "jobs", set, w.jobs);
    if (!are_made[set - 1]) {
        const uint8_t *seeds = w.seeds;
        size_t n = w.n;
        expect(slh_keygen(set, seeds, n, seeds + n, n, seeds + 2 * n, n, w.sk, w.sk_len) == SLH_DONE, "keygen", set, 0);
        memcpy(keys[set - 1], w.sk, w.sk_len);
        sign(&w, wholes[set - 1]);
        are_made[set - 1] = 1;
    }
    memcpy(w.sk, keys[set - 1], w.sk_len);
    return w;
}

static struct work made(uint32_t set, uint32_t xmss, uint32_t fors) {
    struct work w = numbered(set, xmss, fors);
    answer_all(&w, 'a');
    return w;
}

/* Flips a bit of a byte of an answer, and joins. A byte that the signature needs must be found. */
static void flip(const struct work *w, uint8_t *byte, int is_needed, const char *what, size_t job) {
    *byte ^= 1;
    expect_join(w, is_needed ? SLH_ANSWERS_DISAGREE : SLH_DONE, what, job);
    *byte ^= 1;
}

/* One bit off in each field of the answer of a job: the node, the tag, and where this range signs, which is where what
   follows is not zero, the path, and the FORS secret or the values of the chains. */
static void fields(const struct work *w, uint32_t job) {
    size_t len;
    uint8_t *at = place(w, job, &len);
    int is_xmss = job < sets[w->set - 1].d << w->xmss, signs = 0;
    size_t path = w->n * (is_xmss ? sets[w->set - 1].hp - w->xmss : sets[w->set - 1].a - w->fors);
    for (size_t i = 2 * w->n; i < len; i++) signs |= at[i] != 0;
    flip(w, at, 1, "a bit of the node", job);
    flip(w, at + 2 * w->n - 1, 1, "a bit of the tag", job);
    if (path > 0) flip(w, at + 2 * w->n, signs, "a bit of the path", job);
    if (!is_xmss) flip(w, at + len - 1, signs, "a bit of the secret", job);
    for (size_t i = 2 * w->n + path; is_xmss && i < len; i++) at[i] ^= 1;
    if (is_xmss) expect_join(w, signs ? SLH_ANSWERS_DISAGREE : SLH_DONE, "a bit of each byte of the chains", job);
    for (size_t i = 2 * w->n + path; is_xmss && i < len; i++) at[i] ^= 1;
}

/* Takes over the answers of other work in the places of some jobs: of those from `first` on whose bits are set. */
static void take(const struct work *w, const uint8_t *from, uint32_t first, uint32_t count, uint32_t bits) {
    for (uint32_t i = 0; i < count; i++) {
        size_t len;
        uint8_t *at = place(w, first + i, &len);
        if (bits >> i & 1) memcpy(at, from + (at - w->answers), len);
    }
}

/* Answers of other work among the right ones are refused: those of each choice of ranges of each tree (one of them, all
   but one, the whole tree), those of one worker of four, and all. */
static void mixed(const struct work *w, const uint8_t *others, const char *what) {
    uint32_t xmss_jobs = sets[w->set - 1].d << w->xmss;
    uint8_t *own = room(w->answers_len);
    memcpy(own, w->answers, w->answers_len);
    for (uint32_t first = 0, ranges; first < w->jobs; first += ranges) {
        ranges = 1u << (first < xmss_jobs ? w->xmss : w->fors);
        for (uint32_t bits = 1; bits < 1u << ranges; bits++) {
            take(w, others, first, ranges, bits);
            expect_join(w, SLH_ANSWERS_DISAGREE, what, first * 16 + bits);
            take(w, own, first, ranges, bits);
        }
    }
    for (uint32_t worker = 0; worker < 4; worker++) {
        for (uint32_t job = worker; job < w->jobs; job += 4) take(w, others, job, 1, 1);
        expect_join(w, SLH_ANSWERS_DISAGREE, what, worker);
        memcpy(w->answers, own, w->answers_len);
    }
    memcpy(w->answers, others, w->answers_len);
    expect_join(w, SLH_ANSWERS_DISAGREE, what, w->jobs);
    memcpy(w->answers, own, w->answers_len);
    free(own);
}

/* Keys that differ in one bit of one part. Each refuses a start of the other, and the answers of one are not joined under
   the other. Under the changed key in all calls the top root is not PK.root, unless it is SK.prf that differs: then it is
   a generated key, too. */
static void of_other_keys(const struct work *w) {
    static const struct {
        const char *name;
        uint32_t alone;
    } parts[] = {{"SK.seed", SLH_ANSWERS_DISAGREE}, {"SK.prf", SLH_DONE}, {"PK.seed", SLH_ANSWERS_DISAGREE},
                 {"PK.root", SLH_ANSWERS_DISAGREE}};
    for (size_t part = 0; part < sizeof parts / sizeof parts[0]; part++) {
        static uint8_t whole[SLH_MAX_SIGNATURE];
        struct work other = *w, crossed = *w;
        other.sk[part * w->n + w->n / 2] ^= 4;
        other.whole = whole;
        answer_all(&other, 'a');
        if (parts[part].alone == SLH_DONE) sign(&other, whole);
        expect_join(&other, parts[part].alone, parts[part].name, 0);
        mixed(w, other.answers, parts[part].name);
        memcpy(crossed.start, other.start, w->start_len);
        expect_bad_start(&crossed, parts[part].name, 1);
        crossed.answers = other.answers;
        expect_bad_start(&crossed, parts[part].name, 2);
        crossed = other;
        memcpy(crossed.start, w->start, w->start_len);
        expect_bad_start(&crossed, parts[part].name, 3);
        crossed.answers = w->answers;
        expect_bad_start(&crossed, parts[part].name, 4);
        free(other.answers);
    }
}

/* Answers of another message are refused, too, and each that was made under another cutting or for the next job. */
static void of_others(const struct work *w) {
    struct work other = *w, cut = numbered(w->set, w->xmss, w->fors ^ 1);
    answer_all(&other, 'b');
    mixed(w, other.answers, "another message");
    uint8_t *own = other.answers;
    memcpy(own, w->answers, w->answers_len);
    cut.answers = room(cut.answers_len);
    begin(&cut, 'a');
    for (uint32_t job = 0; job < w->jobs && job < cut.jobs; job++) {
        size_t len, cut_len, next_len = 0;
        uint8_t *at = place(w, job, &len), *next = job + 1 < w->jobs ? place(w, job + 1, &next_len) : NULL;
        const uint8_t *of_cut = place(&cut, job, &cut_len);
        if (len == cut_len) {
            do_job(&cut, job);
            memcpy(at, of_cut, len);
            expect_join(w, SLH_ANSWERS_DISAGREE, "an answer of another cutting", job);
        }
        if (len == next_len) {
            memcpy(at, next, len);
            expect_join(w, SLH_ANSWERS_DISAGREE, "the next answer twice", job);
            memcpy(next, own + (at - w->answers), len);
            expect_join(w, SLH_ANSWERS_DISAGREE, "answers exchanged", job);
        }
        memcpy(w->answers, own, w->answers_len);
    }
    free(cut.answers);
    free(other.answers);
}

/* Starts that were not made under this key: each byte of a right one changed, and R and the digest of another message
   with each tag that one can have who has not the key. */
static void bad_starts(const struct work *w) {
    struct work bad = *w, other = *w;
    size_t body = w->start_len - w->n, len;
    uint8_t zeros[SLH_MAX_N], ones[SLH_MAX_N];
    memset(zeros, 0, sizeof zeros), memset(ones, 0xff, sizeof ones);
    for (size_t at = 0; at < w->start_len; at++) {
        bad.start[at] ^= (uint8_t)(1 << at % 8);
        expect_bad_start(&bad, "a bit of the start", at);
        bad.start[at] ^= (uint8_t)(1 << at % 8);
    }
    begin(&other, 'b');
    const uint8_t *tags[] = {zeros, ones, other.start, other.start + w->n, w->start + body, w->sk + 2 * w->n,
                             w->sk + 3 * w->n, place(w, 0, &len) + w->n};
    memcpy(bad.start, other.start, body);
    for (size_t i = 0; i < sizeof tags / sizeof tags[0]; i++) {
        memcpy(bad.start + body, tags[i], w->n);
        expect_bad_start(&bad, "R and a digest without their tag", i);
    }
    memcpy(bad.start + body, other.start + body, w->n);
    expect_join(&bad, SLH_ANSWERS_DISAGREE, "the start of another message", 0);
}

/* Starts and answers of the set of the same n whose name ends in s, cut so that its answers have the same lengths. */
static void of_other_set(const struct work *w) {
    uint32_t slow = w->set - 1, above_xmss = sets[slow - 1].hp - sets[slow].hp, above_fors = sets[slow - 1].a - sets[slow].a;
    struct work other = numbered(slow, w->xmss + above_xmss, w->fors + above_fors), bad = *w;
    uint8_t *others = room(w->answers_len);
    uint32_t xmss_jobs = sets[slow].d << w->xmss, others_xmss = sets[slow - 1].d << other.xmss;
    size_t len, other_len;
    other.answers = room(other.answers_len);
    begin(&other, 'a');
    for (uint32_t job = 0; job < w->jobs; job++) {
        uint8_t *at = place(w, job, &len);
        uint32_t theirs = job < xmss_jobs ? job : others_xmss + (job - xmss_jobs) % (sets[slow - 1].k << other.fors);
        do_job(&other, theirs);
        const uint8_t *from = place(&other, theirs, &other_len);
        expect(len == other_len, "lengths of two sets", w->set, job);
        if (len == other_len) memcpy(others + (at - w->answers), from, len);
    }
    mixed(w, others, "another set");
    memset(bad.start, 0, sizeof bad.start);
    memcpy(bad.start, other.start, other.start_len < w->start_len ? other.start_len : w->start_len);
    expect_bad_start(&bad, "the start of another set", slow);
    memcpy(other.start, w->start, other.start_len);
    expect_bad_start(&other, "the start of another set", w->set);
    free(other.answers);
    free(others);
}

/* Whether these n bytes are the tag of the start or of an answer. */
static int is_tag(const struct work *w, const uint8_t *bytes) {
    size_t len;
    int found = memcmp(bytes, w->start + w->start_len - w->n, w->n) == 0;
    for (uint32_t job = 0; job < w->jobs; job++) found |= memcmp(bytes, place(w, job, &len) + w->n, w->n) == 0;
    return found;
}

/* Who has messages of his choice signed gets no tag by it. R is PRF_msg under SK.prf of the randomizer and M'. So the
   randomizer is an old R, for many messages; and then randomizer and M' together are the text of a tag, as
   crates/slh_jobs/specs/Tags has it or as it was before tags had a key of their own. */
static void oracle(const struct work *w) {
    enum { MESSAGES = 2000 };
    size_t n = w->n, body = w->start_len - n, len;
    uint8_t made[SLH_MAX_START];
    for (uint32_t i = 0; i < MESSAGES; i++) {
        const uint8_t many[] = {(uint8_t)(i >> 8), (uint8_t)i};
        uint32_t result = slh_sign_start(w->set, w->sk, w->sk_len, many, sizeof many, NULL, 0, w->start, n, made,
                                         w->start_len);
        expect(result == SLH_DONE && !is_tag(w, made), "R is a tag", w->set, i);
    }
    const uint8_t numbers[] = {ENCODING, (uint8_t)n, 4, (uint8_t)sets[w->set - 1].hp, (uint8_t)sets[w->set - 1].d,
                               (uint8_t)sets[w->set - 1].a, (uint8_t)sets[w->set - 1].k};
    const uint8_t cut[] = {(uint8_t)w->xmss, (uint8_t)w->fors};
    for (uint32_t kind = 0; kind < 3; kind++)
        for (uint32_t job = 0; job < w->jobs; job += w->jobs - 1) {
            const uint8_t number[] = {0, 0, (uint8_t)(job >> 8), (uint8_t)job}, first = (uint8_t)kind;
            const struct {
                const void *bytes;
                size_t len;
            } node = {place(w, job, &len), n},
              parts[3][6] = {{{w->start, body}, {cut, 2}, {number, 4}, node},
                             {{&first, 1}, {numbers, 7}, {w->sk + 3 * n, n}, {w->start, body}},
                             {{&first, 1}, {numbers, 7}, {w->start, w->start_len}, {cut, 2}, {number, 4}, node}};
            uint8_t text[MOST_TEXT];
            size_t at = 0;
            for (size_t i = 0; i < 6; at += parts[kind][i].len, i++)
                if (parts[kind][i].len > 0) memcpy(text + at, parts[kind][i].bytes, parts[kind][i].len);
            uint32_t result = slh_sign_internal(w->set, w->sk, w->sk_len, text + n, at - n, text, n, sig, w->sig_len);
            expect(result == SLH_DONE && !is_tag(w, sig), "R of the text of a tag is a tag", w->set, kind * 1000 + job);
        }
}

/* The same with SK.seed and PK.seed of zeros. HMAC fills up SK.prf, the key of PRF_msg, with zeros: so if the key of the
   tags were SK.prf, SK.seed and PK.seed alone, R of the text of a tag would be that tag. */
static void oracle_of_zeros(uint32_t set) {
    struct work w = numbered(set, 1, 1);
    size_t n = w.n;
    uint8_t *seeds = w.seeds;
    memset(seeds, 0, n);
    memset(seeds + 2 * n, 0, n);
    expect(slh_keygen(set, seeds, n, seeds + n, n, seeds + 2 * n, n, w.sk, w.sk_len) == SLH_DONE, "a key of zeros", set, 0);
    answer_all(&w, 'a');
    oracle(&w);
    free(w.answers);
}

static void refusals(const struct work *w) {
    struct work bad = *w;
    static const struct {
        uint32_t set, xmss, fors, wanted;
        int sk, start, answers, sig, flip;
    } rows[] = {
        {0, 9, 9, SLH_NO_SUCH_SET, 1, 1, 1, 1, 1},       {2, 4, 1, SLH_BAD_CUTTING, 1, 1, 1, 1, 1},
        {2, 1, 7, SLH_BAD_CUTTING, 1, 1, 1, 1, 1},       {2, 0xffffffffu, 1, SLH_BAD_CUTTING, 1, 1, 1, 1, 1},
        {2, 1, 1, SLH_BAD_LENGTH, -1, 1, 1, 1, 1},       {2, 1, 1, SLH_BAD_START_LENGTH, 0, -1, 1, 1, 1},
        {2, 1, 1, SLH_BAD_START_LENGTH, 0, 1, 1, 1, 1},  {2, 1, 1, SLH_BAD_OUTPUT_LENGTH, 0, 0, 1, -1, 1},
        {2, 1, 1, SLH_BAD_OUTPUT_LENGTH, 0, 0, 1, 1, 1}, {2, 1, 1, SLH_BAD_ANSWERS_LENGTH, 0, 0, -1, 0, 1},
        {2, 1, 1, SLH_BAD_ANSWERS_LENGTH, 0, 0, 1, 0, 1}, {2, 2, 1, SLH_BAD_ANSWERS_LENGTH, 0, 0, 0, 0, 1},
        {2, 1, 1, SLH_BAD_START, 0, 0, 0, 0, 1},         {2, 1, 1, SLH_ANSWERS_DISAGREE, 0, 0, 0, 0, 2},
        {2, 1, 1, SLH_DONE, 0, 0, 0, 0, 0},
    };
    bad.answers = room(w->answers_len + 1);
    for (size_t i = 0; i < sizeof rows / sizeof rows[0]; i++) {
        memcpy(bad.answers, w->answers, w->answers_len);
        memcpy(bad.start, w->start, w->start_len);
        if (rows[i].flip > 0) bad.answers[0] ^= 1;
        if (rows[i].flip == 1) bad.start[0] ^= 1;
        bad.set = rows[i].set, bad.xmss = rows[i].xmss, bad.fors = rows[i].fors;
        bad.sk_len = w->sk_len + (size_t)rows[i].sk, bad.start_len = w->start_len + (size_t)rows[i].start;
        bad.answers_len = w->answers_len + (size_t)rows[i].answers, bad.sig_len = w->sig_len + (size_t)rows[i].sig;
        memset(sig, PAINT, sizeof sig);
        uint32_t said = slh_sign_join(bad.set, bad.xmss, bad.fors, bad.sk, bad.sk_len, bad.start, bad.start_len, bad.answers,
                                      bad.answers_len, sig, bad.sig_len);
        expect(said == rows[i].wanted && is_painted(sig, sizeof sig) == (said != SLH_DONE), "a row of join", 2, i);
    }
    free(bad.answers);
    size_t at = 5, len = 6, first_len;
    uint32_t none[] = {w->jobs, w->jobs + 1, 0xffffffffu};
    place(w, 0, &first_len);
    for (int i = 0; i < 3; i++) {
        memset(sig, PAINT, sizeof sig);
        expect(slh_answer_place(w->set, w->xmss, w->fors, none[i], &at, &len) == SLH_NO_SUCH_JOB && at == 5 && len == 6,
               "a number of no job", w->set, none[i]);
        expect(slh_sign_job(w->set, w->xmss, w->fors, w->sk, w->sk_len - 1, w->start, 0, none[i], sig, first_len) ==
                       SLH_NO_SUCH_JOB && is_painted(sig, sizeof sig),
               "a number of no job", w->set, none[i]);
    }
    static const struct {
        int sk, start, out, flip;
        uint32_t wanted;
    } job_rows[] = {{-1, 1, 1, 1, SLH_BAD_LENGTH}, {0, -1, 1, 1, SLH_BAD_START_LENGTH}, {0, 0, 1, 1, SLH_BAD_OUTPUT_LENGTH},
                    {0, 0, -1, 1, SLH_BAD_OUTPUT_LENGTH}, {0, 0, 0, 1, SLH_BAD_START}, {0, 0, 0, 0, SLH_DONE}};
    for (size_t i = 0; i < sizeof job_rows / sizeof job_rows[0]; i++) {
        memset(sig, PAINT, sizeof sig);
        memcpy(bad.start, w->start, w->start_len);
        bad.start[0] ^= (uint8_t)job_rows[i].flip;
        uint32_t said = slh_sign_job(w->set, w->xmss, w->fors, w->sk, w->sk_len + (size_t)job_rows[i].sk, bad.start,
                                     w->start_len + (size_t)job_rows[i].start, 0, sig, first_len + (size_t)job_rows[i].out);
        expect(said == job_rows[i].wanted && is_painted(sig, sizeof sig) == (said != SLH_DONE), "a row of job", 2, i);
    }
}

/* The answers of all jobs of a key's generation, end to end, 2n bytes each. How many jobs there are. */
static uint32_t key_answers(const struct work *w, uint8_t *answers) {
    uint32_t jobs = 0;
    size_t len = 0, n = w->n;
    const uint8_t *seeds = w->seeds;
    int done = slh_keygen_jobs(w->set, w->xmss, &jobs, &len) == SLH_DONE;
    expect(done && jobs == 1u << w->xmss && len == 2 * n, "key jobs", w->set, jobs);
    for (uint32_t job = 0; job < jobs; job++)
        expect(slh_keygen_job(w->set, w->xmss, seeds, n, seeds + n, n, seeds + 2 * n, n, job, answers + job * len, len) ==
                   SLH_DONE,
               "key job", w->set, job);
    expect(slh_keygen_job(w->set, w->xmss, seeds, n, seeds + n, n, seeds + 2 * n, n, jobs, answers, len) == SLH_NO_SUCH_JOB,
           "a number of no key job", w->set, jobs);
    return jobs;
}

/* A key from the answers of all jobs is that of slh_keygen, and none where an answer or a seed is changed or missing, or
   answers are those of the other set of this n. */
static void key(const struct work *w) {
    size_t n = w->n, len = 2 * n;
    uint8_t sk[SLH_MAX_SECRET_KEY], answers[256 * 2 * SLH_MAX_N], seeds[3 * SLH_MAX_N];
    uint32_t jobs = key_answers(w, answers);
    memcpy(seeds, w->seeds, 3 * n);
#define JOIN(seed_len, answers_len, out_len) \
    slh_keygen_join(w->set, w->xmss, seeds, seed_len, seeds + n, n, seeds + 2 * n, n, answers, answers_len, sk, out_len)
    expect(JOIN(n, jobs * len, w->sk_len) == SLH_DONE && memcmp(sk, w->sk, w->sk_len) == 0, "key", w->set, jobs);
    memset(sk, PAINT, sizeof sk);
    expect(JOIN(n - 1, 0, 0) == SLH_BAD_SEED_LENGTH, "seeds of a key", w->set, jobs);
    expect(JOIN(n, 0, w->sk_len - 1) == SLH_BAD_OUTPUT_LENGTH, "room for a key", w->set, jobs);
    expect(JOIN(n, jobs * len - 1, w->sk_len) == SLH_BAD_ANSWERS_LENGTH, "answers of a key", w->set, jobs);
    for (size_t at = 0; at < 3 * n; at++) {
        seeds[at] ^= 1;
        expect(JOIN(n, jobs * len, w->sk_len) == SLH_ANSWERS_DISAGREE, "a bit of a seed", w->set, at);
        seeds[at] ^= 1;
    }
    for (size_t at = 0; at < jobs * len; at++) {
        answers[at] ^= 1;
        expect(JOIN(n, jobs * len, w->sk_len) == SLH_ANSWERS_DISAGREE, "a bit of a key's answers", w->set, at);
        answers[at] ^= 1;
    }
    struct work other = *w;
    uint8_t own[sizeof answers];
    other.set = w->set % 2 == 0 ? w->set - 1 : w->set + 1;
    memcpy(own, answers, sizeof own);
    key_answers(&other, answers);
    expect(JOIN(n, jobs * len, w->sk_len) == SLH_ANSWERS_DISAGREE, "a key's answers of another set", w->set, other.set);
    memcpy(answers + len, own + len, jobs * len - len);
    expect(JOIN(n, jobs * len, w->sk_len) == SLH_ANSWERS_DISAGREE, "a key's first answer of another set", w->set, other.set);
    expect(is_painted(sk, sizeof sk), "no key", w->set, jobs);
}

int main(void) {
    for (uint32_t set = 1; set <= SETS; set++)
        for (uint32_t level = 0; level <= (set % 2 == 0 ? sets[set - 1].hp : 1); level++) {
            struct work w = made(set, level, level);
            expect_join(&w, SLH_DONE, "the signature of slh_sign", level);
            key(&w);
            free(w.answers);
        }
    static const uint32_t cuttings[][2] = {{0, 0}, {1, 1}, {2, 0}};
    for (uint32_t set = 2; set <= SETS; set += 2)
        for (size_t i = 0; i < sizeof cuttings / sizeof cuttings[0]; i++) {
            struct work w = made(set, cuttings[i][0], cuttings[i][1]);
            of_other_keys(&w);
            of_others(&w);
            bad_starts(&w);
            if (i == 1) oracle(&w);
            expect_join(&w, SLH_DONE, "all answers as they were", i);
            if (i == 2) of_other_set(&w);
            free(w.answers);
        }
    for (uint32_t set = 2; set <= SETS; set += 2) oracle_of_zeros(set);
    struct work w = made(SLH_DSA_SHA2_128F, 1, 1);
    for (uint32_t job = 0; job < w.jobs; job++) fields(&w, job);
    refusals(&w);
    expect_join(&w, SLH_DONE, "all answers as they were", 0);
    free(w.answers);
    printf("%d passed, %d failed\n", passed, failed);
    return failed != 0;
}
