/*
 * Whether a call on a stack that is too short changes nothing behind the guard page below it, where the stack of another
 * thread may be: one that signs ends at that page, one that is refused ends there or returns. The last line is 'N
 * passed, M failed'.
 */
#define _GNU_SOURCE
#include <slh.h>

#include <signal.h>
#include <stdio.h>
#include <string.h>
#include <sys/mman.h>
#include <sys/wait.h>
#include <ucontext.h>
#include <unistd.h>

/* The memory behind the guard page, that page, and the stack above it. */
enum { BEHIND = 1 << 16, GUARD = 4096, STACK = 1 << 14, PAINT = 0xaa, AT_THE_GUARD = 77, ELSEWHERE = 78, CHANGED = 79 };

static uint8_t *memory, sk[SLH_DSA_SHA2_128F_SECRET_KEY], sig[SLH_DSA_SHA2_128F_SIGNATURE];
static size_t sk_len;

static int is_as_it_was(void) {
    for (size_t at = 0; at < BEHIND; at++)
        if (memory[at] != PAINT) return 0;
    return 1;
}

static void at_fault(int number, siginfo_t *info, void *context) {
    uint8_t *at = info->si_addr;
    (void)number;
    (void)context;
    if (!is_as_it_was()) _exit(CHANGED);
    _exit(at >= memory + BEHIND && at < memory + BEHIND + GUARD ? AT_THE_GUARD : ELSEWHERE);
}

static void sign(void) {
    uint32_t result = slh_sign(SLH_DSA_SHA2_128F, sk, sk_len, sk, 1, NULL, 0, NULL, 0, sig, sizeof sig);
    _exit(is_as_it_was() ? (int)result : CHANGED);
}

/* Makes a call of its own on a stack that is too short for one that signs. */
static void run(void) {
    static uint8_t other[1 << 16];
    stack_t of_handler = {.ss_sp = other, .ss_size = sizeof other};
    struct sigaction action = {.sa_sigaction = at_fault, .sa_flags = SA_SIGINFO | SA_ONSTACK};
    ucontext_t here, there;
    memory = mmap(NULL, BEHIND + GUARD + STACK, PROT_READ | PROT_WRITE, MAP_PRIVATE | MAP_ANONYMOUS, -1, 0);
    if (memory == MAP_FAILED) _exit(ELSEWHERE);
    memset(memory, PAINT, BEHIND + GUARD + STACK);
    if (mprotect(memory + BEHIND, GUARD, PROT_NONE) || sigaltstack(&of_handler, NULL) ||
        sigaction(SIGSEGV, &action, NULL) || getcontext(&there))
        _exit(ELSEWHERE);
    there.uc_stack.ss_sp = memory + BEHIND + GUARD;
    there.uc_stack.ss_size = STACK;
    there.uc_link = &here;
    makecontext(&there, sign, 0);
    swapcontext(&here, &there);
    _exit(ELSEWHERE);
}

static int ends_well(size_t len, int other) {
    int status;
    pid_t child;
    sk_len = len;
    child = fork();
    if (child == 0) run();
    if (child < 0 || waitpid(child, &status, 0) != child || !WIFEXITED(status)) return 0;
    return WEXITSTATUS(status) == AT_THE_GUARD || WEXITSTATUS(status) == other;
}

int main(void) {
    int passed = ends_well(sizeof sk - 1, SLH_BAD_LENGTH) + ends_well(sizeof sk, AT_THE_GUARD);
    printf("%d passed, %d failed\n", passed, 2 - passed);
    return passed != 2;
}
