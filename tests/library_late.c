/*
 * Writes into answers and starts while slh_sign_join, slh_sign_job and slh_keygen_join run, which is against the duties
 * of slh.h, and looks at what they make of it. What decides is to be read once:
 *
 * - no signature is valid and another than slh_sign makes, and none has a one-time key that signed another root;
 * - no job answers for a start that does not have its tag, and no key has another PK.root.
 *
 * A signature that is not valid is allowed: verifying before release finds it.
 *
 * First without chance: the page is closed, each access to it is stopped and run as a single step, and the bytes change
 * right after the k-th access to them, for each k. Then by a thread that writes after times that are drawn.
 *
 * usage: library_late JOINS      the number of joins, jobs and keys with a writing thread, in all
 *
 * For Linux on x86-64. The last line has the counts, and the status is 0 where nothing failed.
 */
#define _GNU_SOURCE
#include <slh.h>

#include <pthread.h>
#include <signal.h>
#include <stdatomic.h>
#include <stdio.h>
#include <stdlib.h>
#include <string.h>
#include <sys/mman.h>
#include <time.h>
#include <ucontext.h>

enum { PAGE = 4096, PAINT = 0xa5, STEP = 0x100, REACH = 64, MOST_PARTS = 4, START_TIME = 20000 };

/* Of each set the numbers of FIPS 205's Table 2, and the number of values of a WOTS+ signature. */
static const struct {
    uint32_t d, hp, a, k, len;
} sets[7] = {{0, 0, 0, 0, 0},    {7, 9, 12, 14, 35}, {22, 3, 6, 33, 35}, {7, 9, 14, 17, 51},
             {22, 3, 8, 33, 51}, {8, 8, 14, 22, 67}, {17, 4, 9, 35, 67}};

/* A signature as jobs, and what is right: the answers, the start and the signature. */
struct work {
    uint32_t set, xmss, fors, jobs, xmss_jobs;
    size_t pk_len, sk_len, sig_len, n, start_len, answers_len;
    uint8_t seeds[3 * SLH_MAX_N], sk[SLH_MAX_SECRET_KEY];
    uint8_t *answers, *start, *right_answers, right_start[SLH_MAX_START], right[SLH_MAX_SIGNATURE];
    uint8_t *key_answers, right_key_answers[512 * SLH_MAX_N];
    size_t key_answers_len;
};

/* What came of calls that were written into. Wrong is what is not allowed, valid the signatures among it that are. */
struct tally {
    long runs, right, refused, spoiled, wrong, valid;
};

static const uint8_t msg[] = "a message that is signed";
static uint8_t sig[SLH_MAX_SIGNATURE], answer[65536];
static int passed, failed;

static void must(int holds, const char *what) {
    if (holds) return;
    printf("library_late: %s\n0 passed, 1 failed\n", what);
    exit(2);
}

/* Tells of a kind of writes. Where nothing was run, nothing was shown. */
static void tell(const char *what, const struct work *w, const struct tally *it) {
    int holds = it->runs > 0 && it->wrong == 0;
    holds ? passed++ : failed++;
    printf("%s: set %u, levels %u and %u: %ld runs, %ld right, %ld refused, %ld spoiled, %ld wrong "
           "(%ld valid): %s\n", what, (unsigned)w->set, (unsigned)w->xmss, (unsigned)w->fors, it->runs, it->right,
           it->refused, it->spoiled, it->wrong, it->valid, holds ? "yes" : "no");
}

/* Pages of their own, so that closing them stops accesses to these bytes alone. */
static uint8_t *pages(size_t len) {
    size_t whole = (len + PAGE - 1) / PAGE * PAGE;
    uint8_t *it = mmap(NULL, whole, PROT_READ | PROT_WRITE, MAP_PRIVATE | MAP_ANONYMOUS, -1, 0);
    must(it != MAP_FAILED, "no memory");
    return it;
}

static uint8_t *place(const struct work *w, uint32_t job, size_t *len) {
    size_t at = 0;
    must(slh_answer_place(w->set, w->xmss, w->fors, job, &at, len) == SLH_DONE, "no place");
    return w->answers + at;
}

static uint32_t do_job(const struct work *w, uint32_t job, uint8_t *out, size_t len) {
    return slh_sign_job(w->set, w->xmss, w->fors, w->sk, w->sk_len, w->start, w->start_len, job, out, len);
}

static uint32_t join_key(const struct work *w, uint8_t *sk) {
    const uint8_t *seeds = w->seeds;
    return slh_keygen_join(w->set, w->xmss, seeds, w->n, seeds + w->n, w->n, seeds + 2 * w->n, w->n, w->key_answers,
                           w->key_answers_len, sk, w->sk_len);
}

static void make_key_answers(struct work *w) {
    const uint8_t *seeds = w->seeds;
    uint32_t jobs = 1u << w->xmss;
    w->key_answers_len = 2 * w->n * jobs;
    w->key_answers = pages(w->key_answers_len);
    for (uint32_t job = 0; job < jobs; job++)
        must(slh_keygen_job(w->set, w->xmss, seeds, w->n, seeds + w->n, w->n, seeds + 2 * w->n, w->n, job,
                            w->key_answers + 2 * w->n * job, 2 * w->n) == SLH_DONE, "keygen_job");
    memcpy(w->right_key_answers, w->key_answers, w->key_answers_len);
}

/* Makes all that is right, and looks that without a late write it is what comes. */
static struct work *make(uint32_t set, uint32_t xmss, uint32_t fors) {
    struct work *w = calloc(1, sizeof *w);
    size_t len;
    must(w != NULL, "no memory");
    *w = (struct work){.set = set, .xmss = xmss, .fors = fors, .xmss_jobs = sets[set].d << xmss};
    for (size_t i = 0; i < sizeof w->seeds; i++) w->seeds[i] = (uint8_t)(7 * i + 1);
    must(slh_lengths(set, &w->pk_len, &w->sk_len, &w->sig_len, &w->n) == SLH_DONE, "lengths");
    must(slh_sign_jobs(set, xmss, fors, &w->jobs, &w->start_len, &w->answers_len) == SLH_DONE, "jobs");
    must(slh_keygen(set, w->seeds, w->n, w->seeds + w->n, w->n, w->seeds + 2 * w->n, w->n, w->sk, w->sk_len) ==
         SLH_DONE, "keygen");
    w->answers = pages(w->answers_len);
    w->start = pages(w->start_len);
    w->right_answers = malloc(w->answers_len);
    must(w->right_answers != NULL, "no memory");
    must(slh_sign(set, w->sk, w->sk_len, msg, sizeof msg, NULL, 0, NULL, 0, w->right, w->sig_len) == SLH_DONE &&
         slh_sign_start(set, w->sk, w->sk_len, msg, sizeof msg, NULL, 0, NULL, 0, w->start, w->start_len) == SLH_DONE,
         "sign");
    for (uint32_t job = 0; job < w->jobs; job++) {
        uint8_t *at = place(w, job, &len);
        must(do_job(w, job, at, len) == SLH_DONE, "job");
    }
    memcpy(w->right_answers, w->answers, w->answers_len);
    memcpy(w->right_start, w->start, w->start_len);
    make_key_answers(w);
    return w;
}

static void restore(struct work *w) {
    memcpy(w->answers, w->right_answers, w->answers_len);
    memcpy(w->start, w->right_start, w->start_len);
    memcpy(w->key_answers, w->right_key_answers, w->key_answers_len);
}

/* Whether the values of the one-time keys, or the FORS secrets, are others than the right ones. */
static int signs_otherwise(const struct work *w) {
    size_t n = w->n, part = n * (sets[w->set].len + sets[w->set].hp);
    size_t first = n + n * sets[w->set].k * (1 + sets[w->set].a);
    for (uint32_t layer = 0; layer < sets[w->set].d; layer++)
        if (memcmp(sig + first + layer * part, w->right + first + layer * part, n * sets[w->set].len) != 0) return 1;
    return 0;
}

static int is_painted(const uint8_t *bytes, size_t len) {
    while (len > 0 && bytes[len - 1] == PAINT) len--;
    return len == 0;
}

/* A call that is written into: runs it, and judges what came. */
typedef void attempt(struct work *w, uint32_t job, struct tally *it);

/* A join. Where nodes or the start alone change, no one-time key may sign another value. */
static void join(struct work *w, uint32_t nodes_alone, struct tally *it) {
    memset(sig, PAINT, w->sig_len);
    uint32_t result = slh_sign_join(w->set, w->xmss, w->fors, w->sk, w->sk_len, w->start, w->start_len, w->answers,
                                    w->answers_len, sig, w->sig_len);
    it->runs++;
    if (result != SLH_DONE)
        is_painted(sig, w->sig_len) ? it->refused++ : it->wrong++;
    else if (memcmp(sig, w->right, w->sig_len) == 0)
        it->right++;
    else if (slh_verify(w->set, w->sk + 2 * w->n, w->pk_len, msg, sizeof msg, NULL, 0, sig, w->sig_len) == SLH_DONE)
        it->wrong++, it->valid++;
    else
        nodes_alone && signs_otherwise(w) ? it->wrong++ : it->spoiled++;
}

static void one_job(struct work *w, uint32_t job, struct tally *it) {
    size_t len;
    const uint8_t *right = w->right_answers + (place(w, job, &len) - w->answers);
    memset(answer, PAINT, len);
    uint32_t result = do_job(w, job, answer, len);
    it->runs++;
    if (result != SLH_DONE)
        is_painted(answer, len) ? it->refused++ : it->wrong++;
    else
        memcmp(answer, right, len) == 0 ? it->right++ : it->wrong++;
}

static void one_key(struct work *w, uint32_t unused, struct tally *it) {
    uint8_t sk[SLH_MAX_SECRET_KEY];
    (void)unused;
    memset(sk, PAINT, w->sk_len);
    uint32_t result = join_key(w, sk);
    it->runs++;
    if (result != SLH_DONE)
        is_painted(sk, w->sk_len) ? it->refused++ : it->wrong++;
    else
        memcmp(sk, w->sk, w->sk_len) == 0 ? it->right++ : it->wrong++;
}

/*
 * Without chance. The pages round `target` are closed. The handler of the access opens them and has the processor stop
 * after this instruction; the handler of that stop counts the access where it was to the target, changes the target
 * after the access `change_at`, changes it back after `back_at`, and closes the pages again while there is more to do.
 */
static struct {
    uint8_t *target, *first;
    size_t len, closed_len;
    uintptr_t accessed;
    long accesses, change_at, back_at;
    int is_armed;
} trap;

static void close_pages(int is_closed) {
    if (mprotect(trap.first, trap.closed_len, is_closed ? PROT_NONE : PROT_READ | PROT_WRITE) != 0) _exit(3);
}

static void flip(uint8_t *bytes, size_t len) {
    for (size_t i = 0; i < len; i++) ((volatile uint8_t *)bytes)[i] ^= 0xff;
}

static void on_access(int number, siginfo_t *info, void *context) {
    (void)number;
    trap.accessed = (uintptr_t)info->si_addr;
    if (!trap.is_armed || trap.accessed - (uintptr_t)trap.first >= trap.closed_len) _exit(4);
    close_pages(0);
    ((ucontext_t *)context)->uc_mcontext.gregs[REG_EFL] |= STEP;
}

static void on_step(int number, siginfo_t *info, void *context) {
    (void)number;
    (void)info;
    ((ucontext_t *)context)->uc_mcontext.gregs[REG_EFL] &= ~(greg_t)STEP;
    if (trap.accessed + REACH > (uintptr_t)trap.target && trap.accessed < (uintptr_t)trap.target + trap.len) {
        trap.accesses++;
        if (trap.accesses == trap.change_at || trap.accesses == trap.back_at) flip(trap.target, trap.len);
    }
    int is_done = trap.change_at != 0 && trap.accesses >= trap.change_at && trap.accesses >= trap.back_at;
    if (!is_done) close_pages(1);
}

/* Runs a call with the target closed, and gives how often it was accessed up to the last change. */
static long stopped(struct work *w, uint8_t *target, size_t len, long change_at, long back_at, attempt *run,
                    uint32_t job, struct tally *it) {
    trap.target = target, trap.len = len, trap.accesses = 0;
    trap.first = (uint8_t *)((uintptr_t)target / PAGE * PAGE);
    trap.closed_len = (size_t)(target + len - trap.first + PAGE - 1) / PAGE * PAGE;
    trap.change_at = change_at, trap.back_at = back_at, trap.is_armed = 1;
    close_pages(1);
    run(w, job, it);
    trap.is_armed = 0;
    close_pages(0);
    restore(w);
    return trap.accesses;
}

/* Changes a target after each access to it in turn, for `pairs` also back after each later one. */
static void each_access(struct work *w, uint8_t *target, size_t len, int pairs, attempt *run, uint32_t job,
                        struct tally *it) {
    struct tally as_is = {0, 0, 0, 0, 0, 0};
    long accesses = stopped(w, target, len, 0, 0, run, job, &as_is);
    must(accesses > 0 && as_is.right == 1, "bytes that were not read, or a call that failed without a write");
    for (long at = 1; at <= accesses; at++) {
        stopped(w, target, len, at, 0, run, job, it);
        for (long back = at + 1; pairs && back <= accesses; back++) stopped(w, target, len, at, back, run, job, it);
    }
}

/* The nodes of each `stride`-th answer, those of some also there and back, and of some all that stands behind. */
static void nodes_in_turn(struct work *w, uint32_t stride) {
    struct tally nodes = {0, 0, 0, 0, 0, 0}, back = nodes, rest = nodes;
    size_t len;
    for (uint32_t job = 0; job < w->jobs; job += stride)
        each_access(w, place(w, job, &len), w->n, 0, join, 1, &nodes);
    for (uint32_t job = 0; job < w->jobs; job += stride * 7)
        each_access(w, place(w, job, &len), w->n, 1, join, 1, &back);
    for (uint32_t job = 0; job < w->jobs; job += stride * 9 + 4) {
        uint8_t *at = place(w, job, &len);
        each_access(w, at + w->n, len - w->n, 0, join, 0, &rest);
    }
    tell("a node changes after each access", w, &nodes);
    tell("a node changes for a while", w, &back);
    tell("what stands behind a node changes after each access", w, &rest);
}

/* Of a start: R, the digest, the tag, and all of it. */
static size_t parts_of(const struct work *w, size_t from[MOST_PARTS], size_t len[MOST_PARTS]) {
    size_t tag = w->start_len - w->n;
    from[0] = 0, len[0] = w->n;
    from[1] = w->n, len[1] = tag - w->n;
    from[2] = tag, len[2] = w->n;
    from[3] = 0, len[3] = w->start_len;
    return MOST_PARTS;
}

/* The start, under jobs of all kinds and under the join. */
static void starts_in_turn(struct work *w) {
    struct tally jobs = {0, 0, 0, 0, 0, 0}, joins = jobs;
    size_t from[MOST_PARTS], len[MOST_PARTS], count = parts_of(w, from, len);
    uint32_t xmss = 1u << w->xmss, fors = 1u << w->fors;
    for (size_t part = 0; part < count; part++) {
        uint8_t *target = w->start + from[part];
        for (uint32_t job = 0; job < xmss; job++) each_access(w, target, len[part], 0, one_job, job, &jobs);
        for (uint32_t job = 0; job < fors && job < 8; job++)
            each_access(w, target, len[part], 0, one_job, w->xmss_jobs + job, &jobs);
        each_access(w, target, len[part], 0, join, 1, &joins);
    }
    tell("a start changes after each access of a job", w, &jobs);
    tell("a start changes after each access of a join", w, &joins);
}

static void keys_in_turn(struct work *w) {
    struct tally keys = {0, 0, 0, 0, 0, 0};
    for (uint32_t job = 0; job < 1u << w->xmss; job++)
        each_access(w, w->key_answers + 2 * w->n * job, w->n, 1, one_key, 0, &keys);
    tell("a node of a key changes after each access", w, &keys);
}

/* By chance. A thread flips bytes a while after a call began. */
static struct {
    atomic_long wanted, done;
    atomic_int is_over, is_back;
    uint8_t *target;
    size_t len;
    long delay;
    long in_time;
} writer;

static long now(void) {
    struct timespec it;
    clock_gettime(CLOCK_MONOTONIC, &it);
    return it.tv_sec * 1000000000 + it.tv_nsec;
}

static void *writes(void *it) {
    for (long turn = 1; !atomic_load(&writer.is_over); turn++) {
        while (atomic_load(&writer.wanted) < turn)
            if (atomic_load(&writer.is_over)) return it;
        long until = now() + writer.delay;
        while (now() < until && !atomic_load(&writer.is_back)) {}
        flip(writer.target, writer.len);
        writer.in_time += !atomic_load(&writer.is_back);
        atomic_store(&writer.done, turn);
    }
    return it;
}

/* One call with a write a drawn time after its begin, up to `most` nanoseconds. */
static void raced(struct work *w, uint8_t *target, size_t len, long most, attempt *run, uint32_t job,
                  struct tally *it) {
    static long turn;
    writer.target = target, writer.len = len, writer.delay = (long)(drand48() * (double)most);
    atomic_store(&writer.is_back, 0);
    atomic_store(&writer.wanted, ++turn);
    run(w, job, it);
    atomic_store(&writer.is_back, 1);
    while (atomic_load(&writer.done) < turn) {}
    restore(w);
}

/* How long a call takes, in nanoseconds. */
static long time_of(struct work *w, attempt *run, uint32_t job) {
    struct tally unused = {0, 0, 0, 0, 0, 0};
    long least = 1000000000;
    for (int i = 0; i < 20; i++) {
        long begin = now();
        run(w, job, &unused);
        if (now() - begin < least) least = now() - begin;
    }
    return least;
}

static void races(struct work *w, long joins) {
    struct tally nodes = {0, 0, 0, 0, 0, 0}, any = nodes, starts = nodes, keys = nodes;
    long time = time_of(w, join, 1), key_time = time_of(w, one_key, 0), in_time = writer.in_time;
    size_t len, from[MOST_PARTS], lens[MOST_PARTS];
    parts_of(w, from, lens);
    for (long i = 0; i < joins; i++) {
        uint32_t job = (uint32_t)lrand48() % w->jobs, part = (uint32_t)lrand48() % MOST_PARTS;
        if (i % 4 < 2)
            raced(w, place(w, job, &len), w->n, time, join, 1, &nodes);
        else if (i % 4 == 2)
            raced(w, w->answers + (size_t)lrand48() % (w->answers_len - 64), 1 + (size_t)lrand48() % 64, time, join, 0,
                  &any);
        else if (i % 8 == 3)
            raced(w, w->start + from[part], lens[part], START_TIME, one_job,
                  w->xmss_jobs + job % (w->jobs - w->xmss_jobs), &starts);
        else
            raced(w, w->key_answers + 2 * w->n * (job % (1u << w->xmss)), w->n, key_time, one_key, 0, &keys);
    }
    printf("of %ld writes %ld came while the call ran\n", joins, writer.in_time - in_time);
    if (writer.in_time - in_time < joins / 50 + 1 && nodes.wrong + any.wrong + starts.wrong + keys.wrong == 0) {
        puts("late writes by a thread: SKIPPED, since it came too late: the processor is busy");
        return;
    }
    tell("nodes, by a thread", w, &nodes);
    tell("any bytes, by a thread", w, &any);
    tell("starts, by a thread", w, &starts);
    tell("keys, by a thread", w, &keys);
}

static void on(int number, void (*handler)(int, siginfo_t *, void *)) {
    struct sigaction action;
    memset(&action, 0, sizeof action);
    action.sa_sigaction = handler;
    action.sa_flags = SA_SIGINFO;
    must(sigaction(number, &action, NULL) == 0, "no handler");
}

int main(int argc, char **argv) {
    static const uint32_t levels[][2] = {{0, 0}, {1, 1}, {3, 6}};
    long joins = argc == 2 ? atol(argv[1]) : 0;
    pthread_t thread;
    must(joins >= 30, "usage: library_late JOINS, at least 30");
    setvbuf(stdout, NULL, _IOLBF, 0);
    on(SIGSEGV, on_access);
    on(SIGTRAP, on_step);
    for (uint32_t set = SLH_DSA_SHA2_128F; set <= SLH_DSA_SHA2_256F; set += 2) {
        struct work *w = make(set, 1, 1);
        nodes_in_turn(w, 1);
        starts_in_turn(w);
        keys_in_turn(w);
    }
    must(pthread_create(&thread, NULL, writes, NULL) == 0, "no thread");
    for (size_t i = 0; i < 3; i++) {
        struct work *w = make(SLH_DSA_SHA2_128F, levels[i][0], levels[i][1]);
        nodes_in_turn(w, i == 2 ? 31 : 5);
        races(w, joins / 3);
    }
    atomic_store(&writer.is_over, 1);
    must(pthread_join(thread, NULL) == 0, "no join");
    printf("%d passed, %d failed\n", passed, failed);
    return failed > 0;
}
