/*
 * Flips one bit while a signature is made, as bad memory or a bad processor may, and counts the endings. A third of the
 * bits are in general registers, a third in vector registers, a third in the stack between the stack pointer and the
 * caller's frame. A timer interrupts the call at a moment that is uniform over its time. The handler copies the process
 * by fork. The copy goes on with the flipped bit; the original waits for it, and goes on to the next moment.
 *
 * A signature that is valid, but not the right one of its randomizer, shows two values of a one-time key. Other
 * messages can be forged from it. slh_sign must give some: else the flips have no teeth. The calls that sign twice must
 * give none, whatever they return, and also if they trap.
 *
 * usage: library_faults LEVEL FLIPS SEED              all calls; the registers are those of x86-64-vLEVEL, 2, 3 or 4
 *        library_faults LEVEL FLIPS SEED CALL NUMBER  one draw of a call, FLIPS times, each some microseconds later
 *
 * For Linux on x86-64, with an archive that is linked statically. With -DONCE the calls that sign twice are replaced by
 * those that sign once. The last line has the counts, and the status is 0 if nothing failed.
 */
#define _GNU_SOURCE
#include <slh.h>

#include <cpuid.h>
#include <signal.h>
#include <stdio.h>
#include <stdlib.h>
#include <string.h>
#include <sys/mman.h>
#include <sys/resource.h>
#include <sys/time.h>
#include <sys/wait.h>
#include <time.h>
#include <ucontext.h>
#include <unistd.h>

enum { SET = SLH_DSA_SHA2_128F, N = 16, SIGNATURE = SLH_DSA_SHA2_128F_SIGNATURE, PAINT = 0xa5 };
enum { RED_ZONE = 128, MEASURED = 9, LONGER = 5, BATCH = 25, TEETH = 50 };
enum kind { GENERAL, VECTOR, STACK, KINDS };

/* A draw: `where` picks the register, or the byte of the stack, and the bit. `moment` is a part of the call's time. */
struct fault {
    uint64_t number;
    enum kind kind;
    uint64_t where;
    double moment;
};

/* The end of a flip: the result, if the call returned, and the signature's bytes in any case. */
struct outcome {
    uint32_t result;
    int has_returned, is_hit, is_cleared; /* whether scratch is zeros after the call */
    uintptr_t instruction;
    uint8_t sig[SIGNATURE];
};

/* Shared by the processes: the bytes that the call writes, and the end of each flip of a batch. */
struct shared {
    uint8_t sig[SIGNATURE];
    struct outcome of[BATCH];
};

struct call {
    const char *name;
    uint32_t (*sign)(uint8_t *sig);
    uint32_t (*once)(uint8_t *sig); /* the call that signs once and gives the same bytes */
    uint32_t (*verify)(const uint8_t *sig);
    unsigned share; /* of the flips, one in so many */
    int is_twice;
};

/* How a flip ended. FAULTS are those that SLH_FAULT ended, STOPPED other refusals and traps. LEFT are faults that left
   the output written or bytes in scratch: a flip of an address can do that, a flip of a vector register can't. */
enum ending { RIGHT, INVALID, FAULTS, STOPPED, WRONG, LEFT, ENDINGS };

static const int general[16] = {REG_RAX, REG_RBX, REG_RCX, REG_RDX, REG_RSI, REG_RDI, REG_RBP, REG_RSP,
                                     REG_R8,  REG_R9,  REG_R10, REG_R11, REG_R12, REG_R13, REG_R14, REG_R15};
static const uint8_t msg[] = "a message that is signed", ctx[] = "context";
static uint8_t sk[4 * N], pk[2 * N], seeds[3 * N], digest[32], randomizer[N], scratch[2 * SIGNATURE];
static uint8_t right[SIGNATURE], paint[SIGNATURE], handler_stack[1 << 16];
static struct shared *shared;
static unsigned level;
static int passed, failed;

/* Read by the handler: the batch in the order of its moments, and the index of the next one. */
static const struct fault *batch;
static size_t batch_len, next;
static double call_time;
static timer_t timer;
static volatile sig_atomic_t is_in_call, is_flipped;
static volatile uintptr_t frame;

static void must(int holds, const char *what) {
    if (holds) return;
    printf("library_faults: %s\n0 passed, 1 failed\n", what);
    exit(2);
}

#define KEY_AND_MESSAGE SET, sk, sizeof sk, msg, sizeof msg, ctx, sizeof ctx, randomizer, sizeof randomizer
#define KEY_AND_DIGEST SET, SLH_SHA2_256, sk, sizeof sk, digest, sizeof digest, ctx, sizeof ctx, randomizer, \
                       sizeof randomizer
#define KEY_AND_HASHED SET, SLH_SHA2_256, sk, sizeof sk, msg, sizeof msg, ctx, sizeof ctx, randomizer, sizeof randomizer
static uint32_t sign(uint8_t *sig) { return slh_sign(KEY_AND_MESSAGE, sig, SIGNATURE); }
static uint32_t sign_digest(uint8_t *sig) { return slh_hash_sign_digest(KEY_AND_DIGEST, sig, SIGNATURE); }
static uint32_t hash_sign(uint8_t *sig) { return slh_hash_sign(KEY_AND_HASHED, sig, SIGNATURE); }
#ifdef ONCE
static uint32_t sign_twice(uint8_t *sig) { return (void)scratch, sign(sig); }
static uint32_t sign_digest_twice(uint8_t *sig) { return sign_digest(sig); }
static uint32_t hash_sign_twice(uint8_t *sig) { return hash_sign(sig); }
#else
static uint32_t sign_twice(uint8_t *sig) {
    return slh_sign_twice(KEY_AND_MESSAGE, scratch, sizeof scratch, sig, SIGNATURE);
}
static uint32_t sign_digest_twice(uint8_t *sig) {
    return slh_hash_sign_digest_twice(KEY_AND_DIGEST, scratch, sizeof scratch, sig, SIGNATURE);
}
static uint32_t hash_sign_twice(uint8_t *sig) {
    return slh_hash_sign_twice(KEY_AND_HASHED, scratch, sizeof scratch, sig, SIGNATURE);
}
#endif
static uint32_t verify(const uint8_t *sig) {
    return slh_verify(SET, pk, sizeof pk, msg, sizeof msg, ctx, sizeof ctx, sig, SIGNATURE);
}
static uint32_t verify_digest(const uint8_t *sig) {
    return slh_hash_verify_digest(SET, SLH_SHA2_256, pk, sizeof pk, digest, sizeof digest, ctx, sizeof ctx, sig,
                                  SIGNATURE);
}
static uint32_t hash_verify(const uint8_t *sig) {
    return slh_hash_verify(SET, SLH_SHA2_256, pk, sizeof pk, msg, sizeof msg, ctx, sizeof ctx, sig, SIGNATURE);
}

static const struct call calls[] = {
    {"slh_sign", sign, sign, verify, 1, 0},
    {"slh_sign_twice", sign_twice, sign, verify, 1, 1},
    {"slh_hash_sign_digest_twice", sign_digest_twice, sign_digest, verify_digest, 5, 1},
    {"slh_hash_sign_twice", hash_sign_twice, hash_sign, hash_verify, 5, 1},
};
enum { CALLS = sizeof calls / sizeof calls[0] };

/* ---- the flip ---- */

/* The place of a component in XSAVE's area. If the processor had it in its first state, its bytes become zeros. */
static uint8_t *component(uint8_t *saved, unsigned number) {
    unsigned size = 0, at = 0, c, d;
    uint64_t present;
    must(__get_cpuid_count(0xd, number, &size, &at, &c, &d), "no XSAVE");
    memcpy(&present, saved + 512, sizeof present);
    if ((present >> number & 1) == 0) memset(saved + at, 0, size);
    present |= (uint64_t)1 << number;
    memcpy(saved + 512, &present, sizeof present);
    return saved + at;
}

/* The saved byte of a vector register: of zmm0 to zmm15 in three places, of zmm16 to zmm31 in one. */
static uint8_t *vector_byte(uint8_t *saved, unsigned number, unsigned byte) {
    if (number >= 16) return component(saved, 7) + 64 * (number - 16) + byte;
    if (byte >= 32) return component(saved, 6) + 32 * number + byte - 32;
    if (byte >= 16) return component(saved, 2) + 16 * number + byte - 16;
    return saved + 160 + 16 * number + byte;
}

static void flip_vector(ucontext_t *context, uint64_t where) {
    unsigned registers = level == 4 ? 32 : 16, bytes = 4u << level;
    unsigned bit = (unsigned)(where % 8), byte = (unsigned)(where / 8 % bytes);
    *vector_byte((uint8_t *)context->uc_mcontext.fpregs, (unsigned)(where / 8 / bytes % registers), byte) ^=
        (uint8_t)(1u << bit);
}

static void flip_stack(const ucontext_t *context, uint64_t where) {
    uintptr_t low = (uintptr_t)context->uc_mcontext.gregs[REG_RSP] - RED_ZONE;
    *(volatile uint8_t *)(low + where / 8 % (frame - low)) ^= (uint8_t)(1u << where % 8);
}

static void flip(ucontext_t *context, const struct fault *it) {
    if (it->kind == GENERAL)
        context->uc_mcontext.gregs[general[it->where / 64 % 16]] ^= (greg_t)((uint64_t)1 << it->where % 64);
    else if (it->kind == VECTOR)
        flip_vector(context, it->where);
    else
        flip_stack(context, it->where);
}

/* Sets the timer to the moment of the next flip, if there is one. */
static void await_next(void) {
    double before = next == 0 ? 0 : batch[next - 1].moment;
    struct itimerspec after = {{0, 0}, {0, 0}};
    if (next == batch_len) return;
    after.it_value.tv_nsec = (long)((batch[next].moment - before) * call_time * 1e9) + 1;
    timer_settime(timer, 0, &after, NULL);
}

/* A process that takes far longer than the call is ended by SIGPROF. */
static void limit_time(void) {
    double most = LONGER * call_time;
    struct itimerval limit = {{0, 0}, {(long)most, (long)((most - (double)(long)most) * 1e6) + 1}};
    setitimer(ITIMER_PROF, &limit, NULL);
}

/* Runs on a stack of its own, so that the call's stack is unchanged. The copy returns into the call. */
static void flips(int number, siginfo_t *info, void *given) {
    static uint8_t written[SIGNATURE];
    struct outcome *it = &shared->of[next];
    (void)number, (void)info;
    if (!is_in_call || is_flipped) return;
    memcpy(written, shared->sig, SIGNATURE);
    it->is_hit = 1;
    it->instruction = (uintptr_t)((ucontext_t *)given)->uc_mcontext.gregs[REG_RIP];
    pid_t child = fork();
    if (child == 0) {
        is_flipped = 1;
        limit_time();
        flip(given, &batch[next]);
        return;
    }
    if (child < 0 || waitpid(child, NULL, 0) != child) _exit(1);
    memcpy(it->sig, shared->sig, SIGNATURE);
    memcpy(shared->sig, written, SIGNATURE);
    next++;
    await_next();
}

/* ---- a batch ---- */

static void make_timer(void) {
    struct sigevent event = {.sigev_notify = SIGEV_SIGNAL, .sigev_signo = SIGALRM};
    struct sigaction action = {.sa_sigaction = flips, .sa_flags = SA_SIGINFO | SA_ONSTACK};
    stack_t apart = {.ss_sp = handler_stack, .ss_size = sizeof handler_stack};
    must(sigaltstack(&apart, NULL) == 0 && sigaction(SIGALRM, &action, NULL) == 0 &&
         timer_create(CLOCK_MONOTONIC, &event, &timer) == 0, "no timer");
}

static int is_zero(const uint8_t *bytes, size_t len) {
    uint8_t all = 0;
    for (size_t i = 0; i < len; i++) all |= bytes[i];
    return all == 0;
}

/* The process that signs without a flip, and each of its copies with one. */
static _Noreturn void signs(const struct call *call) {
    frame = (uintptr_t)__builtin_frame_address(0);
    make_timer();
    await_next();
    is_in_call = 1;
    uint32_t result = call->sign(shared->sig);
    is_in_call = 0;
    if (!is_flipped) _exit(result != SLH_DONE || memcmp(shared->sig, right, SIGNATURE) != 0);
    shared->of[next].result = result;
    shared->of[next].is_cleared = is_zero(scratch, sizeof scratch);
    shared->of[next].has_returned = 1;
    _exit(0);
}

static int is_later(const void *left, const void *other) {
    const struct fault *a = left, *b = other;
    return (a->moment > b->moment) - (a->moment < b->moment);
}

/* Makes one signature with the flips of a batch. A moment after the call's end is not hit. */
static void runs(const struct call *call, struct fault *faults, size_t len) {
    int status = 0;
    memset(shared, 0, sizeof *shared);
    memset(shared->sig, PAINT, SIGNATURE);
    qsort(faults, len, sizeof *faults, is_later);
    batch = faults, batch_len = len, next = 0;
    pid_t child = fork();
    must(child >= 0, "no process");
    if (child == 0) signs(call);
    must(waitpid(child, &status, 0) == child && status == 0, "the call without a flip went wrong");
}

/* The bytes in the buffer count, whatever the call returned. */
static enum ending ending_of(const struct call *call, const struct outcome *it) {
    int is_right = memcmp(it->sig, right, SIGNATURE) == 0, is_written = memcmp(it->sig, paint, SIGNATURE) != 0;
    if (is_written && !is_right && call->verify(it->sig) == SLH_DONE) return WRONG;
    if (!it->has_returned) return STOPPED;
    if (it->result == SLH_FAULT) return !is_written && it->is_cleared ? FAULTS : LEFT;
    if (it->result != SLH_DONE) return STOPPED;
    return is_right ? RIGHT : INVALID;
}

/* ---- the draws ---- */

static uint64_t mixed(uint64_t it) {
    it = (it ^ it >> 30) * 0xbf58476d1ce4e5b9;
    it = (it ^ it >> 27) * 0x94d049bb133111eb;
    return it ^ it >> 31;
}

/* The draw of a number follows from the seed and the call alone. A moment after the call's end is drawn again. */
static struct fault draw(uint64_t seed, uint64_t call, uint64_t number, uint64_t again) {
    uint64_t first = mixed(mixed(mixed(seed) + call) + number), other = mixed(first + 0x9e3779b97f4a7c15 * (again + 1));
    return (struct fault){number, (enum kind)(number % KINDS), mixed(first + 1), (double)(other >> 11) / 0x1p53};
}

static double now(void) {
    struct timespec it;
    clock_gettime(CLOCK_MONOTONIC, &it);
    return (double)it.tv_sec + 1e-9 * (double)it.tv_nsec;
}

static int is_longer(const void *left, const void *other) {
    double a = *(const double *)left, b = *(const double *)other;
    return (a > b) - (a < b);
}

/* A little more than the median of some undisturbed runs of a call, in seconds, so that its end is hit, too. */
static double time_of(const struct call *call) {
    double times[MEASURED];
    for (int i = 0; i < MEASURED; i++) {
        double begin = now();
        must(call->sign(shared->sig) == SLH_DONE && memcmp(shared->sig, right, SIGNATURE) == 0, "not right");
        times[i] = now() - begin;
    }
    qsort(times, MEASURED, sizeof times[0], is_longer);
    return 1.1 * times[MEASURED / 2];
}

static void tell_place(const struct call *call, const struct fault *fault, const struct outcome *it) {
    static const char *const names[KINDS] = {"general register", "vector register", "stack"};
    printf("valid and wrong: %s %llu: %s, %#llx, after %.3f of the time, at %#lx\n", call->name,
           (unsigned long long)fault->number, names[fault->kind], (unsigned long long)fault->where, fault->moment,
           (unsigned long)it->instruction);
}

/* Counts a batch by kind and ending, and says how many of its flips were hit. */
static size_t counts(const struct call *call, const struct fault *faults, size_t len, int is_told,
                     unsigned long found[KINDS][ENDINGS]) {
    size_t hits = 0;
    for (size_t i = 0; i < len && shared->of[i].is_hit; i++, hits++) {
        enum ending ending = ending_of(call, &shared->of[i]);
        found[faults[i].kind][ending]++;
        if (ending == WRONG && is_told) tell_place(call, &faults[i], &shared->of[i]);
    }
    return hits;
}

static void tell(const struct call *call, unsigned long count, unsigned long found[KINDS][ENDINGS]) {
    unsigned long sum[ENDINGS] = {0};
    for (int kind = 0; kind < KINDS; kind++)
        for (int it = 0; it < ENDINGS; it++) sum[it] += found[kind][it];
    int holds = count > 0 && found[VECTOR][LEFT] == 0 &&
                (call->is_twice ? sum[WRONG] == 0 : sum[WRONG] * TEETH >= count);
    holds ? passed++ : failed++;
    printf("%s: %lu flips: %lu right, %lu invalid, %lu refused as faults (%lu more left bytes), %lu trapped or refused, "
           "%lu valid and wrong (%lu by general registers, %lu by vectors, %lu by the stack): %s\n", call->name, count,
           sum[RIGHT], sum[INVALID], sum[FAULTS], sum[LEFT], sum[STOPPED], sum[WRONG], found[GENERAL][WRONG],
           found[VECTOR][WRONG], found[STACK][WRONG], holds ? "yes" : "no");
}

static void make_right(const struct call *call) {
    must(call->once(right) == SLH_DONE && call->verify(right) == SLH_DONE, "sign");
}

/* All draws of a call, or one many times. A moment that was not hit is drawn again in the next batch. */
static void tries(const struct call *call, uint64_t seed, unsigned long count, const char *one) {
    unsigned long found[KINDS][ENDINGS] = {{0}}, first = 0;
    struct fault faults[BATCH];
    size_t left = 0;
    make_right(call);
    call_time = time_of(call);
    for (uint64_t round = 0; first < count || left > 0; round++) {
        for (size_t i = 0; i < left; i++) faults[i] = draw(seed, (uint64_t)(call - calls), faults[i].number, round);
        for (; left < BATCH && first < count; first++)
            faults[left++] = draw(seed, (uint64_t)(call - calls), one == NULL ? first : strtoull(one, NULL, 0), 0);
        runs(call, faults, left);
        size_t hits = counts(call, faults, left, call->is_twice || one != NULL, found);
        memmove(faults, faults + hits, (left -= hits) * sizeof *faults);
    }
    tell(call, count, found);
}

int main(int argc, char **argv) {
    must(argc == 4 || argc == 6, "usage: library_faults LEVEL FLIPS SEED [CALL NUMBER]");
    level = (unsigned)atoi(argv[1]);
    must(level >= 2 && level <= 4, "no such level");
    struct rlimit none = {0, 0};
    shared = mmap(NULL, sizeof *shared, PROT_READ | PROT_WRITE, MAP_SHARED | MAP_ANONYMOUS, -1, 0);
    must(shared != MAP_FAILED && setrlimit(RLIMIT_CORE, &none) == 0, "no memory");
    for (size_t i = 0; i < sizeof seeds; i++) seeds[i] = (uint8_t)(7 * i + 1);
    for (size_t i = 0; i < sizeof digest; i++) digest[i] = (uint8_t)(5 * i + 3);
    for (size_t i = 0; i < sizeof randomizer; i++) randomizer[i] = (uint8_t)(3 * i + 2);
    memset(paint, PAINT, sizeof paint);
    must(slh_keygen(SET, seeds, N, seeds + N, N, seeds + 2 * N, N, sk, sizeof sk) == SLH_DONE &&
         slh_public(SET, sk, sizeof sk, pk, sizeof pk) == SLH_DONE, "keygen");
    for (int it = 0; it < CALLS; it++) {
        if (argc == 6 && strcmp(calls[it].name, argv[4]) != 0) continue;
        unsigned long count = strtoul(argv[2], NULL, 0);
        if (argc == 4) count /= calls[it].share;
        tries(&calls[it], strtoull(argv[3], NULL, 0), count, argc == 6 ? argv[5] : NULL);
        fflush(stdout);
    }
    printf("%d passed, %d failed\n", passed, failed);
    return failed != 0;
}
