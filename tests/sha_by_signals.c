/*
 * Emulates the SHA instructions of x86-64 (Intel's manual, volume 2) for a program that is linked with it: on a processor
 * that lacks them they end in SIGILL, or in an exception of Windows. So code for x86-64-v4, which qemu does not emulate,
 * runs with them, and code for Windows. It knows them with registers alone. On Linux the handler has a stack apart.
 */
#define _GNU_SOURCE
#include <stdint.h>
#include <stdlib.h>
#include <string.h>
#ifdef _WIN32
#include <windows.h>
#else
#include <signal.h>
#include <ucontext.h>
#endif

enum { RNDS2 = 0xcb, MSG1 = 0xcc, MSG2 = 0xcd, WORDS = 4, REX = 0x40, REGISTERS = 0xc0 };

static uint32_t rotated(uint32_t x, int n) { return x >> n | x << (32 - n); }

static void msg1(uint32_t *a, const uint32_t *b) {
    uint32_t w[] = {a[0], a[1], a[2], a[3], b[0]};
    for (int i = 0; i < WORDS; i++) a[i] = w[i] + (rotated(w[i + 1], 7) ^ rotated(w[i + 1], 18) ^ w[i + 1] >> 3);
}

static void msg2(uint32_t *a, const uint32_t *b) {
    uint32_t w[WORDS + 2] = {b[2], b[3]};
    for (int i = 0; i < WORDS; i++)
        a[i] = w[i + 2] = a[i] + (rotated(w[i], 17) ^ rotated(w[i], 19) ^ w[i] >> 10);
}

/* The words of a, b, e, f and of c, d, g, h are from the highest down. */
static void rnds2(uint32_t *cdgh, const uint32_t *abef, const uint32_t *sums) {
    uint32_t v[] = {abef[3], abef[2], cdgh[3], cdgh[2], abef[1], abef[0], cdgh[1], cdgh[0]};
    for (int i = 0; i < 2; i++) {
        uint32_t a = v[0], e = v[4];
        uint32_t t1 = v[7] + (rotated(e, 6) ^ rotated(e, 11) ^ rotated(e, 25)) + ((e & v[5]) ^ (~e & v[6])) + sums[i];
        uint32_t t2 = (rotated(a, 2) ^ rotated(a, 13) ^ rotated(a, 22)) + ((a & v[1]) ^ (a & v[2]) ^ (v[1] & v[2]));
        memmove(v + 1, v, 7 * sizeof *v);
        v[0] = t1 + t2;
        v[4] += t1;
    }
    uint32_t after[] = {v[5], v[4], v[1], v[0]};
    memcpy(cdgh, after, sizeof after);
}

/* What comes after the instruction at an address, which is emulated with the registers from xmm0 on. */
static const uint8_t *emulated(const uint8_t *code, uint32_t *first) {
    int rex = (*code & 0xf0) == REX ? *code++ : 0;
    if (code[0] != 0x0f || code[1] != 0x38 || code[2] < RNDS2 || code[2] > MSG2 || code[3] < REGISTERS) abort();
    uint32_t *a = first + WORDS * ((code[3] >> 3 & 7) + (rex & 4 ? 8 : 0));
    uint32_t *b = first + WORDS * ((code[3] & 7) + (rex & 1 ? 8 : 0));
    code[2] == RNDS2 ? rnds2(a, b, first) : code[2] == MSG1 ? msg1(a, b) : msg2(a, b);
    return code + 4;
}

#ifdef _WIN32
static LONG CALLBACK emulate(EXCEPTION_POINTERS *it) {
    CONTEXT *machine = it->ContextRecord;
    if (it->ExceptionRecord->ExceptionCode != EXCEPTION_ILLEGAL_INSTRUCTION) return EXCEPTION_CONTINUE_SEARCH;
    machine->Rip = (DWORD64)emulated((const uint8_t *)machine->Rip, (uint32_t *)&machine->Xmm0);
    return EXCEPTION_CONTINUE_EXECUTION;
}

__attribute__((constructor)) static void begin(void) {
    if (!AddVectoredExceptionHandler(1, emulate)) abort();
}
#else
static void emulate(int signal, siginfo_t *info, void *context) {
    (void)signal, (void)info;
    mcontext_t *machine = &((ucontext_t *)context)->uc_mcontext;
    greg_t *next = &machine->gregs[REG_RIP];
    *next = (greg_t)emulated((const uint8_t *)*next, machine->fpregs->_xmm[0].element);
}

__attribute__((constructor)) static void begin(void) {
    static uint8_t apart[1 << 16];
    stack_t stack = {.ss_sp = apart, .ss_size = sizeof apart};
    struct sigaction action = {.sa_sigaction = emulate, .sa_flags = SA_SIGINFO | SA_ONSTACK};
    if (sigaltstack(&stack, NULL) || sigaction(SIGILL, &action, NULL)) abort();
}
#endif
