/*
 * Disturbs the end of a verification, one instruction at a time, as tests/glitches.py does on emulated processors, and
 * counts the disturbances that let a program boot. The signature has a flipped bit. Its last node, which only the last
 * hash reads, is in a page that cannot be read. So that hash traps, and from there on the processor stops before each
 * instruction, until the program refuses: what comes later, as the loader's search for _exit, can turn no verdict. The
 * handler copies the process by fork, once for each disturbance, and goes on to the next instruction.
 *
 * Disturbances: the instruction is skipped; a general register is cleared or filled with ones; the low half of a vector
 * register is cleared; a flag is flipped. Stack pointer and program counter are left alone.
 *
 * The calls that return SLH_DONE must be turned by some, so that a test which finds nothing fails. The hardened calls
 * must be turned by none. With -DPLAIN the plain calls replace the hardened ones, and the test has to fail.
 *
 * usage: library_glitches STEPS      disturbs the last STEPS instructions before it refuses, or all from the trap on
 *
 * For Linux on x86-64, with an archive that is linked statically. The last line has the counts, and the status is 0 if
 * nothing failed.
 */
#define _GNU_SOURCE
#include <slh.h>

#include <signal.h>
#include <stdio.h>
#include <stdlib.h>
#include <string.h>
#include <sys/mman.h>
#include <sys/resource.h>
#include <sys/time.h>
#include <sys/wait.h>
#include <ucontext.h>
#include <unistd.h>

enum { SET = SLH_DSA_SHA2_128F, N = 16, SIGNATURE = SLH_DSA_SHA2_128F_SIGNATURE, PAGE = 4096 };
enum { MOST_STEPS = 1 << 16, GENERALS = 15, VECTORS = 16, FLAGS = 5, TRAP_FLAG = 0x100, MOST_MICROSECONDS = 200000 };
enum { SKIP, CLEAR, FILL = CLEAR + GENERALS, EMPTY = FILL + GENERALS, FLIP = EMPTY + VECTORS, KINDS = FLIP + FLAGS };
enum { REFUSED, BOOTED = 7 };

/* Shared by the processes: the address of each instruction from the trap on, and what let the program boot. */
struct shared {
    uintptr_t at[MOST_STEPS + 1];
    unsigned steps, tried, turned, last_turned, last_kind;
};

struct call {
    const char *name;
    void (*decides)(void);
    uint32_t (*sign)(void);
    int is_hardened;
};

static const int general[GENERALS] = {REG_RAX, REG_RBX, REG_RCX, REG_RDX, REG_RSI, REG_RDI, REG_RBP, REG_R8,
                                      REG_R9,  REG_R10, REG_R11, REG_R12, REG_R13, REG_R14, REG_R15};
static const unsigned flag_bits[FLAGS] = {0, 2, 6, 7, 11}; /* carry, parity, zero, sign, overflow */
static const uint8_t msg[] = "an image that boots", ctx[] = "context";
static uint8_t sk[4 * N], pk[2 * N], seeds[3 * N], digest[32], handler_stack[1 << 16];
static uint8_t *sig, *last_page; /* the last node of the signature fills the begin of the page */
static struct shared *shared;
static int passed, failed;

/* Read by the handlers: the first step that is disturbed, and how many steps there are. */
static unsigned first_step, last_step;
static int is_disturbed; /* such a process may come to any code */

static void must(int holds, const char *what) {
    if (holds) return;
    printf("library_glitches: %s\n0 passed, 1 failed\n", what);
    exit(2);
}

/* ---- what a boot loader decides ---- */

#define MESSAGE SET, pk, sizeof pk, msg, sizeof msg, ctx, sizeof ctx, sig, SIGNATURE
#define DIGEST SET, SLH_SHA2_256, pk, sizeof pk, digest, sizeof digest, ctx, sizeof ctx, sig, SIGNATURE
#define ALONE static __attribute__((noinline))

#ifdef PLAIN
ALONE uint32_t by_plain(uint32_t result) { return result == SLH_DONE ? SLH_HARDENED_VALID : SLH_HARDENED_INVALID; }
#define slh_verify_hardened(...) by_plain(slh_verify(__VA_ARGS__))
#define slh_hash_verify_digest_hardened(...) by_plain(slh_hash_verify_digest(__VA_ARGS__))
#endif

/* These are not static, so that they come first in memory: behind a skipped call of refuse nothing boots. */
__attribute__((noinline)) _Noreturn void boot(void);
__attribute__((noinline)) _Noreturn void boot(void) { _exit(BOOTED); }
__attribute__((noinline)) _Noreturn void refuse(void);
__attribute__((noinline)) _Noreturn void refuse(void) { _exit(REFUSED); }

ALONE void message_plain(void) {
    if (slh_verify(MESSAGE) == SLH_DONE) boot();
    refuse();
}

ALONE void message_hardened(void) {
    volatile uint32_t verdict = SLH_HARDENED_INVALID;
    verdict = slh_verify_hardened(MESSAGE);
    if (SLH_IS_VALID(verdict)) boot();
    refuse();
}

ALONE void digest_plain(void) {
    if (slh_hash_verify_digest(DIGEST) == SLH_DONE) boot();
    refuse();
}

ALONE void digest_hardened(void) {
    volatile uint32_t verdict = SLH_HARDENED_INVALID;
    verdict = slh_hash_verify_digest_hardened(DIGEST);
    if (SLH_IS_VALID(verdict)) boot();
    refuse();
}

static uint32_t sign_message(void) {
    return slh_sign(SET, sk, sizeof sk, msg, sizeof msg, ctx, sizeof ctx, NULL, 0, sig, SIGNATURE);
}

static uint32_t sign_digest(void) {
    return slh_hash_sign_digest(SET, SLH_SHA2_256, sk, sizeof sk, digest, sizeof digest, ctx, sizeof ctx, NULL, 0, sig,
                                SIGNATURE);
}

static const struct call calls[] = {{"slh_verify", message_plain, sign_message, 0},
                                    {"slh_verify_hardened", message_hardened, sign_message, 1},
                                    {"slh_hash_verify_digest", digest_plain, sign_digest, 0},
                                    {"slh_hash_verify_digest_hardened", digest_hardened, sign_digest, 1}};
enum { CALLS = sizeof calls / sizeof calls[0] };

/* ---- a disturbance ---- */

/* The length of an instruction that may not be followed by the next one in memory: a jump, a call or a return. For any
   other it is 0. */
static unsigned jump_len(const uint8_t *at) {
    unsigned before = 0, mode, low;
    while (at[before] == 0xf2 || at[before] == 0x3e || (at[before] & 0xf0) == 0x40) before++;
    const uint8_t *it = at + before;
    if ((it[0] & 0xf0) == 0x70 || it[0] == 0xeb || it[0] == 0xe3) return before + 2;
    if (it[0] == 0x0f && (it[1] & 0xf0) == 0x80) return before + 6;
    if (it[0] == 0xe8 || it[0] == 0xe9) return before + 5;
    if (it[0] == 0xc3) return before + 1;
    if (it[0] != 0xff || ((it[1] >> 3 & 7) != 2 && (it[1] >> 3 & 7) != 4)) return 0;
    mode = it[1] >> 6, low = it[1] & 7;
    if (mode == 3) return before + 2;
    if (mode == 0 && low == 5) return before + 6;
    return before + 2 + (low == 4) + (mode == 1 ? 1 : mode == 2 ? 4 : low == 4 && (it[2] & 7) == 5 ? 4 : 0);
}

/* The length of the instruction of a step. One that repeats stops after each turn. */
static unsigned len_of(unsigned step) {
    uintptr_t at = shared->at[step];
    unsigned len = jump_len((const uint8_t *)at), next = step + 1;
    if (len > 0) return len;
    while (next < last_step && shared->at[next] == at) next++;
    return (unsigned)(shared->at[next] - at);
}

static void disturb(ucontext_t *context, unsigned kind, unsigned step) {
    greg_t *registers = context->uc_mcontext.gregs;
    if (kind == SKIP)
        registers[REG_RIP] += (greg_t)len_of(step);
    else if (kind < FILL)
        registers[general[kind - CLEAR]] = 0;
    else if (kind < EMPTY)
        registers[general[kind - FILL]] = -1;
    else if (kind < FLIP)
        memset(&context->uc_mcontext.fpregs->_xmm[kind - EMPTY], 0, 16);
    else
        registers[REG_EFL] ^= (greg_t)1 << flag_bits[kind - FLIP];
}

/* A process that takes far longer than the call is ended by SIGPROF. */
static void limit_time(void) {
    struct itimerval limit = {{0, 0}, {0, MOST_MICROSECONDS}};
    setitimer(ITIMER_PROF, &limit, NULL);
}

/* Tries each disturbance of a step in a copy of the process, of which the handler returns. Whether this is the copy. */
static int try_step(ucontext_t *context, unsigned step) {
    for (unsigned kind = 0; kind < KINDS; kind++) {
        int status = 0;
        pid_t child = fork();
        if (child == 0) {
            is_disturbed = 1;
            close(STDOUT_FILENO);
            signal(SIGTRAP, SIG_DFL);
            context->uc_mcontext.gregs[REG_EFL] &= ~(greg_t)TRAP_FLAG;
            limit_time();
            disturb(context, kind, step);
            return 1;
        }
        if (child < 0 || waitpid(child, &status, 0) != child) _exit(2);
        shared->tried++;
        if (WIFEXITED(status) && WEXITSTATUS(status) == BOOTED)
            shared->turned++, shared->last_turned = step, shared->last_kind = kind;
    }
    return 0;
}

/* The processor stops before each instruction, up to the first one of refuse. */
static void steps(int number, siginfo_t *info, void *given) {
    ucontext_t *context = given;
    unsigned step = shared->steps;
    uintptr_t at = (uintptr_t)context->uc_mcontext.gregs[REG_RIP];
    (void)number, (void)info;
    if (step >= first_step && step < last_step && try_step(context, step)) return;
    if (step < MOST_STEPS) shared->at[step] = at;
    if (at == (uintptr_t)refuse)
        context->uc_mcontext.gregs[REG_EFL] &= ~(greg_t)TRAP_FLAG;
    else
        shared->steps++;
}

/* The last hash reads the last node. From here on each instruction stops. */
static void begins(int number, siginfo_t *info, void *given) {
    (void)number;
    if ((uint8_t *)info->si_addr < last_page || (uint8_t *)info->si_addr >= last_page + PAGE) _exit(2);
    mprotect(last_page, PAGE, PROT_READ | PROT_WRITE);
    signal(SIGSEGV, SIG_DFL);
    ((ucontext_t *)given)->uc_mcontext.gregs[REG_EFL] |= TRAP_FLAG;
}

/* ---- the calls ---- */

static void handle(int signal, void (*by)(int, siginfo_t *, void *)) {
    struct sigaction action = {.sa_sigaction = by, .sa_flags = SA_SIGINFO | SA_ONSTACK};
    must(sigaction(signal, &action, NULL) == 0, "no handler");
}

/* Runs a call with a signature in a process of its own, and disturbs some of its steps. The end of the undisturbed
   process. */
static int runs(const struct call *call, unsigned first, unsigned last) {
    stack_t apart = {.ss_sp = handler_stack, .ss_size = sizeof handler_stack};
    int status = 0;
    if (is_disturbed) _exit(2);
    shared->steps = shared->tried = shared->turned = 0;
    pid_t child = fork();
    must(child >= 0, "no process");
    if (child == 0) {
        first_step = first, last_step = last;
        must(sigaltstack(&apart, NULL) == 0, "no stack");
        handle(SIGTRAP, steps);
        handle(SIGSEGV, begins);
        mprotect(last_page, PAGE, PROT_NONE);
        call->decides();
    }
    must(waitpid(child, &status, 0) == child && WIFEXITED(status), "the call without a disturbance went wrong");
    return WEXITSTATUS(status);
}

static void tries(const struct call *call, unsigned most) {
    must(call->sign() == SLH_DONE, "sign");
    int valid = runs(call, MOST_STEPS, 0);
    sig[SIGNATURE - 1] ^= 1;
    int damaged = runs(call, MOST_STEPS, 0);
    unsigned count = shared->steps, first = count > most ? count - most : 0;
    must(count > 0 && count < MOST_STEPS, "the last node was not read, or too early");
    int again = runs(call, first, count);
    int holds = valid == BOOTED && damaged == REFUSED && again == REFUSED && shared->steps == count &&
                shared->tried > 0 && (shared->turned > 0) == !call->is_hardened;
    holds ? passed++ : failed++;
    printf("%s: %u of %u disturbances boot, of %u instructions of %u: %s\n", call->name, shared->turned, shared->tried,
           count - first, count, holds ? "yes" : "no");
    if (shared->turned > 0 && call->is_hardened)
        printf("  the last one: before instruction %u of %u, at %#lx, disturbance %u of %u\n", shared->last_turned, count,
               (unsigned long)shared->at[shared->last_turned], shared->last_kind, (unsigned)KINDS);
}

/* Room for the signature, whose last node is at the begin of a page. */
static void take_room(void) {
    size_t front = (SIGNATURE - N + PAGE - 1) / PAGE * PAGE;
    uint8_t *room = mmap(NULL, front + PAGE, PROT_READ | PROT_WRITE, MAP_PRIVATE | MAP_ANONYMOUS, -1, 0);
    shared = mmap(NULL, sizeof *shared, PROT_READ | PROT_WRITE, MAP_SHARED | MAP_ANONYMOUS, -1, 0);
    must(room != MAP_FAILED && shared != MAP_FAILED, "no memory");
    last_page = room + front;
    sig = last_page - (SIGNATURE - N);
}

int main(int argc, char **argv) {
    must(argc == 2, "usage: library_glitches STEPS");
    struct rlimit none = {0, 0};
    must(setrlimit(RLIMIT_CORE, &none) == 0, "no limit");
    take_room();
    for (size_t i = 0; i < sizeof seeds; i++) seeds[i] = (uint8_t)(7 * i + 1);
    for (size_t i = 0; i < sizeof digest; i++) digest[i] = (uint8_t)(5 * i + 3);
    must(slh_keygen(SET, seeds, N, seeds + N, N, seeds + 2 * N, N, sk, sizeof sk) == SLH_DONE &&
         slh_public(SET, sk, sizeof sk, pk, sizeof pk) == SLH_DONE, "keygen");
    for (int it = 0; it < CALLS; it++) {
        tries(&calls[it], (unsigned)strtoul(argv[1], NULL, 0));
        fflush(stdout);
    }
    printf("%d passed, %d failed\n", passed, failed);
    return failed != 0;
}
