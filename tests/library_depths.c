/*
 * Measures how deep each call that takes secrets goes below its caller's stack pointer, and compares it with the depth
 * that c/exports/depths/ has for it and for the set: no call goes deeper, and each reaches the last 256 bytes.
 *
 * It is linked with a libslh.a whose slh_clear is weak (tests/machines.py makes it so), and brings an slh_clear
 * that clears nothing, and keeps the depth that it is asked to clear and the stack pointer where that begins. The calls
 * run on a stack that was filled with one byte value: the lowest byte that no longer has it was used.
 *
 * usage: library_depths SHIFTS [few|write]
 *
 * Code with vectors of more than 16 bytes aligns its stack, so what it takes depends on where the stack begins: SHIFTS
 * is 1, or 2 or 4 for vectors of 32 or 64 bytes. With `few` the sets whose names end in s sign by slh_sign alone: for
 * an emulator. With `write` it tries all pre-hash functions under the sets whose names end in f, and prints the lines
 * of a file of c/exports/depths/; else it tries two, SHA2-256 and SHA2-512, and the last line is 'N passed, M failed'.
 *
 * Jobs and joins are tried with the levels 0 and 1: a range of eight leaves or more goes another way.
 */
#define _GNU_SOURCE
#include <slh_internal.h>

#include <stdio.h>
#include <stdlib.h>
#include <string.h>
#ifndef _WIN32
#include <ucontext.h>
#endif

/* What is cleared beyond a depth, for SHA instructions that do not run here (SLH_MORE_DEPTH in c/exports/exports.c). */
#ifdef _WIN32
enum { BEYOND = 256 };
#else
enum { BEYOND = 0 };
#endif
enum { STACK = 1 << 18, PAINT = 0x5c, SETS = 6, FUNCTIONS = 6, CUTTINGS = 2, SHIFT = 16, ROOM = 128, MOST_UNUSED = 256 };

static _Alignas(64) uint8_t stack[STACK];
static uint8_t seeds[3 * SLH_MAX_N], sk[SLH_MAX_SECRET_KEY], pk[SLH_MAX_PUBLIC_KEY], sig[SLH_MAX_SIGNATURE];
static uint8_t scratch[2 * SLH_MAX_SIGNATURE];
static uint8_t msg[1000], ctx[255], start[SLH_MAX_START], *answers, *key_answers;
static size_t pk_len, sk_len, sig_len, n, start_len, answers_len, key_answer_len;
static uint32_t set, levels, function, functions, job, jobs, key_jobs, result;
static uint8_t *begin, key_read_to[SLH_MAX_SECRET_KEY];
static char key_file[SLH_MAX_KEY_FILE];
static uint8_t der[SLH_MAX_DER], pem[SLH_MAX_PEM];
static uint32_t der_len, pem_len;
static size_t asked;

uint32_t slh_clear(uint32_t result_, size_t depth, uint32_t vectors);

/* It stands in place of the library's. On x86-64 the stack pointer is below the address to which a call returns. */
uint32_t slh_clear(uint32_t result_, size_t depth, uint32_t vectors) {
    (void)vectors;
    begin = __builtin_dwarf_cfa();
#if defined(__x86_64__)
    begin -= 8;
#endif
    asked = depth - BEYOND;
    return result_;
}

static void keygen(void) { result = slh_keygen(set, seeds, n, seeds + n, n, seeds + 2 * n, n, sk, sk_len); }

static void public(void) { result = slh_public(set, sk, sk_len, pk, pk_len); }

static void check(void) { result = slh_check(set, sk, sk_len); }

static void key_write(void) {
    result = slh_key_write(set, SLH_SECRET_KEY, sk, sk_len, key_file, sizeof key_file);
}

/* Of no set there is no file: that of the last one is read again. */
static void key_read(void) {
    uint32_t set_read, kind_read;
    result = slh_key_read((const uint8_t *)key_file, strlen(key_file), &set_read, &kind_read, key_read_to,
                          sizeof key_read_to);
    if (result == SLH_DONE && set > SETS) result = SLH_NO_SUCH_SET;
}

static void der_write(void) {
    result = slh_der_write(set, SLH_SECRET_KEY, sk, sk_len, &der_len, der, sizeof der);
}

static void pem_write(void) {
    result = slh_pem_write(set, SLH_SECRET_KEY, sk, sk_len, &pem_len, pem, sizeof pem);
}

static void der_read(void) {
    uint32_t set_read, kind_read;
    result = slh_der_read(der, der_len, &set_read, &kind_read, key_read_to, sizeof key_read_to);
    if (result == SLH_DONE && set > SETS) result = SLH_NO_SUCH_SET;
}

static void pem_read(void) {
    uint32_t set_read, kind_read;
    result = slh_pem_read(pem, pem_len, &set_read, &kind_read, key_read_to, sizeof key_read_to);
    if (result == SLH_DONE && set > SETS) result = SLH_NO_SUCH_SET;
}

static void sign(void) {
    result = slh_sign(set, sk, sk_len, msg, sizeof msg, ctx, sizeof ctx, seeds, n, sig, sig_len);
}

static void sign_internal(void) {
    result = slh_sign_internal(set, sk, sk_len, msg, sizeof msg, seeds, n, sig, sig_len);
}

static void hash_sign_digest(void) {
    static const size_t lens[FUNCTIONS + 1] = {0, 28, 32, 48, 64, 28, 32};
    result = slh_hash_sign_digest(set, function, sk, sk_len, msg, lens[function], ctx, sizeof ctx, seeds, n, sig,
                                  sig_len);
}

static void hash_sign(void) {
    result = slh_hash_sign(set, function, sk, sk_len, msg, sizeof msg, ctx, sizeof ctx, seeds, n, sig, sig_len);
}

static void sign_twice(void) {
    result = slh_sign_twice(set, sk, sk_len, msg, sizeof msg, ctx, sizeof ctx, seeds, n, scratch, 2 * sig_len, sig,
                            sig_len);
}

static void hash_sign_digest_twice(void) {
    static const size_t lens[FUNCTIONS + 1] = {0, 28, 32, 48, 64, 28, 32};
    result = slh_hash_sign_digest_twice(set, function, sk, sk_len, msg, lens[function], ctx, sizeof ctx, seeds, n,
                                        scratch, 2 * sig_len, sig, sig_len);
}

static void hash_sign_twice(void) {
    result = slh_hash_sign_twice(set, function, sk, sk_len, msg, sizeof msg, ctx, sizeof ctx, seeds, n, scratch,
                                 2 * sig_len, sig, sig_len);
}

static void sign_start(void) {
    result = slh_sign_start(set, sk, sk_len, msg, sizeof msg, ctx, sizeof ctx, seeds, n, start, start_len);
}

static void hash_sign_start(void) {
    result = slh_hash_sign_start(set, function, sk, sk_len, msg, sizeof msg, ctx, sizeof ctx, seeds, n, start,
                                 start_len);
}

static void sign_job(void) {
    size_t at = 0, len = 0;
    if (set <= SETS && slh_answer_place(set, levels, levels, job, &at, &len) != SLH_DONE) exit(2);
    result = slh_sign_job(set, levels, levels, sk, sk_len, start, start_len, job, answers + at, len);
}

static void sign_join(void) {
    result = slh_sign_join(set, levels, levels, sk, sk_len, start, start_len, answers, answers_len, sig, sig_len);
}

static void keygen_job(void) {
    result = slh_keygen_job(set, levels, seeds, n, seeds + n, n, seeds + 2 * n, n, job,
                            key_answers + job * key_answer_len, key_answer_len);
}

static void keygen_join(void) {
    result = slh_keygen_join(set, levels, seeds, n, seeds + n, n, seeds + 2 * n, n, key_answers,
                             key_jobs * key_answer_len, sk, sk_len);
}

/* The calls, in an order in which each finds what it takes, and what each is tried with beside the set. */
enum over { NOTHING, FUNCTIONS_TRIED, CUTTINGS_TRIED, ALL_JOBS, ALL_KEY_JOBS };
static const struct row {
    const char *name;
    void (*call)(void);
    enum over over;
    int is_of_few; /* whether it is tried with `few` where it takes long */
} rows[] = {
    {"keygen", keygen, NOTHING, 1},
    {"public", public, NOTHING, 1},
    {"check", check, NOTHING, 1},
    {"key_write", key_write, NOTHING, 1},
    {"key_read", key_read, NOTHING, 1},
    {"der_write", der_write, NOTHING, 1},
    {"der_read", der_read, NOTHING, 1},
    {"pem_write", pem_write, NOTHING, 1},
    {"pem_read", pem_read, NOTHING, 1},
    {"sign", sign, NOTHING, 1},
    {"hash_sign_digest", hash_sign_digest, FUNCTIONS_TRIED, 0},
    {"hash_sign", hash_sign, FUNCTIONS_TRIED, 0},
    {"sign_twice", sign_twice, NOTHING, 0},
    {"hash_sign_digest_twice", hash_sign_digest_twice, FUNCTIONS_TRIED, 0},
    {"hash_sign_twice", hash_sign_twice, FUNCTIONS_TRIED, 0},
    {"sign_internal", sign_internal, NOTHING, 0},
    {"sign_start", sign_start, NOTHING, 1},
    {"hash_sign_start", hash_sign_start, FUNCTIONS_TRIED, 1},
    {"sign_job", sign_job, ALL_JOBS, 0},
    {"sign_join", sign_join, CUTTINGS_TRIED, 0},
    {"keygen_job", keygen_job, ALL_KEY_JOBS, 1},
    {"keygen_join", keygen_join, CUTTINGS_TRIED, 1},
};
enum { ROWS = sizeof rows / sizeof *rows };

/* Runs a call on a stack that ends at this address. */
#ifdef _WIN32
void run_on(void (*call)(void), uint8_t *top);
__asm__(".text\n.globl run_on\nrun_on:\n"
        "push %rbp\nmov %rsp,%rbp\nmov %rdx,%rsp\nsub $32,%rsp\ncall *%rcx\nmov %rbp,%rsp\npop %rbp\nret\n");
#else
static void run_on(void (*call)(void), uint8_t *top) {
    ucontext_t inner, outer;
    if (getcontext(&inner)) exit(2);
    inner.uc_stack.ss_sp = stack;
    inner.uc_stack.ss_size = (size_t)(top - stack);
    inner.uc_link = &outer;
    makecontext(&inner, call, 0);
    if (swapcontext(&outer, &inner)) exit(2);
}
#endif

/* Runs a call on the painted stack, which begins up to `shifts` times 16 bytes lower, and returns how deep it went. */
static size_t used(void (*call)(void), unsigned shift, unsigned shifts, uint32_t wanted) {
    memset(stack, PAINT, STACK);
    begin = NULL;
    run_on(call, stack + STACK - SHIFT * (shift % shifts));
    size_t untouched = 0;
    while (untouched < STACK && stack[untouched] == PAINT) untouched++;
    if (result != wanted || begin == NULL || (size_t)(begin - stack) < untouched) {
        fprintf(stderr, "set %u: %u in place of %u, or slh_clear was not called\n", set, result, wanted);
        exit(2);
    }
    return (size_t)(begin - stack) - untouched;
}

/* The most that a call uses. Each is tried at each shift; of signing jobs there are more than shifts. */
static size_t deepest(const struct row *row, unsigned shifts, uint32_t wanted) {
    static const uint32_t in_order[FUNCTIONS] = {SLH_SHA2_256, SLH_SHA2_512, SLH_SHA2_224, SLH_SHA2_384,
                                                 SLH_SHA2_512_224, SLH_SHA2_512_256};
    size_t most = 0;
    uint32_t counts[] = {1, functions, 1, jobs, key_jobs}, count = counts[row->over];
    uint32_t runs = row->over == ALL_JOBS && count > shifts ? count : count * shifts;
    for (uint32_t i = 0; i < runs; i++) {
        job = i % count;
        function = in_order[i % count % FUNCTIONS];
        size_t it = used(row->call, i / count + i % count, shifts, wanted);
        if (it > most) most = it;
    }
    return most;
}

static int begin_set(void) {
    if (slh_lengths(set, &pk_len, &sk_len, &sig_len, &n) != SLH_DONE ||
        slh_sign_jobs(set, levels, levels, &jobs, &start_len, &answers_len) != SLH_DONE ||
        slh_keygen_jobs(set, levels, &key_jobs, &key_answer_len) != SLH_DONE)
        return 0;
    free(answers);
    free(key_answers);
    answers = malloc(answers_len);
    key_answers = malloc(key_jobs * key_answer_len);
    return answers != NULL && key_answers != NULL;
}

int main(int argc, char **argv) {
    static size_t found[ROWS][SETS + 1], had[ROWS][SETS + 1];
    unsigned shifts = argc > 1 ? (unsigned)atoi(argv[1]) : 0, passed = 0, failed = 0;
    const char *how = argc > 2 ? argv[2] : "";
    if (shifts < 1 || shifts > 4) return 2;
    for (size_t i = 0; i < sizeof seeds; i++) seeds[i] = (uint8_t)i;
    for (set = 1; set <= SETS; set++) {
        functions = strcmp(how, "write") == 0 && set % 2 == 0 ? FUNCTIONS : 2;
        for (levels = 0; levels < CUTTINGS; levels++) {
            if (!begin_set()) return 2;
            for (size_t i = 0; i < ROWS; i++) {
                if (strcmp(how, "few") == 0 && set % 2 == 1 && !rows[i].is_of_few) continue;
                if (levels > 0 && rows[i].over < CUTTINGS_TRIED) continue;
                size_t it = deepest(&rows[i], shifts, SLH_DONE);
                if (it > found[i][set]) found[i][set] = it;
                had[i][set] = asked;
            }
        }
    }
    /* With a number of no set, and all else of the last one. */
    for (size_t i = 0; i < ROWS; i++) {
        set = SETS + 1;
        jobs = key_jobs = 1;
        found[i][0] = deepest(&rows[i], shifts, SLH_NO_SUCH_SET);
        had[i][0] = asked;
    }
    for (size_t i = 0; i < ROWS; i++) {
        if (strcmp(how, "write") == 0) printf("DEPTHS(%s", rows[i].name);
        for (set = 0; set <= SETS; set++) {
            size_t it = found[i][set];
            if (strcmp(how, "write") == 0) {
                printf(", %zu", (it + ROOM) / 16 * 16);
            } else if (it > 0) {
                int is_right = it <= had[i][set] && had[i][set] <= it + MOST_UNUSED;
                if (!is_right) printf("slh_%s, set %u: %zu deep, cleared %zu\n", rows[i].name, set, it, had[i][set]);
                is_right ? passed++ : failed++;
            }
        }
        if (strcmp(how, "write") == 0) puts(")");
    }
    if (strcmp(how, "write") != 0) printf("%u passed, %u failed\n", passed, failed);
    return failed != 0;
}
