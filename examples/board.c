/* SPDX-License-Identifier: MIT OR Apache-2.0 */
/* A program for a board without an operating system, ARM Cortex-M: it starts, verifies the image that is compiled in,
   and says whether it is valid, how deep the stack went, and stops. As a bootloader does, but that this one would jump
   to the image. qemu-system-arm runs it (docs/MACHINES.md).

   public_key.h, image.h and signature.h have the bytes, as xxd -i writes them: the image is signed in the pre-hash form
   with SHA2-256 under the set SET and the context CONTEXT. What the program says goes to the debugger or the emulator
   (semihosting). */
#include <slh_verify.h>

#include <string.h>

#include "sha256.h"

#ifndef SET
#define SET SLH_DSA_SHA2_128S
#endif
#ifndef CONTEXT
#define CONTEXT ""
#endif

enum { PAINT = 0xa5 };

static const uint8_t pk[] = {
#include "public_key.h"
};
static const uint8_t image[] = {
#include "image.h"
};
static const uint8_t signature[] = {
#include "signature.h"
};

/* Where the linker put things (board.ld). */
extern uint32_t data_from[], data_begin[], data_end[], bss_begin[], bss_end[], stack_begin[], stack_end[];

static void debugger(uint32_t what, const void *with) {
    register uint32_t r0 __asm__("r0") = what;
    register const void *r1 __asm__("r1") = with;
    __asm__ volatile("bkpt 0xab" : "+r"(r0) : "r"(r1) : "memory");
}

static void say(const char *text) { debugger(4, text); }

static void say_number(const char *what, uint32_t number) {
    char digits[12];
    char *at = digits + sizeof digits - 1;
    *at = 0;
    do *--at = (char)('0' + number % 10);
    while ((number /= 10) > 0);
    say(what);
    say(at);
    say("\n");
}

/* By -DSLH_TRAP=trapped: what runs where the proved code would go wrong, which is proved never to be. */
void trapped(const char *why);
void trapped(const char *why) {
    say(why);
    say("\n");
    debugger(0x18, (const void *)0x20023);
}

/* By -DSLH_VERIFY_MEMORY_AT=memory: the memory of the calls of slh_verify.c, so that this program can see how much of it
   is used. An archive for the board takes none. */
#ifdef SLH_VERIFY_MEMORY_AT
uint64_t memory[SLH_VERIFY_MEMORY / 8];
#else
uint64_t memory[1];
#endif

/* A timer of the processor, which counts 24 bits downwards. */
#define TIMER ((volatile uint32_t *)0xe000e010)

static int is_valid(const uint8_t *bytes, size_t n) {
    struct sha256 state;
    uint8_t digest[32];
    sha256_begin(&state);
    sha256_piece(&state, bytes, n);
    sha256_end(&state, digest);
    return slh_hash_verify_digest(SET, SLH_SHA2_256, pk, sizeof pk, digest, sizeof digest, (const uint8_t *)CONTEXT,
                                  sizeof CONTEXT - 1, signature, sizeof signature) == SLH_DONE;
}

static uint32_t ticks;

static void run(void) {
    static uint8_t damaged[sizeof image];
    uint32_t before = TIMER[2];
    int is = is_valid(image, sizeof image);
    ticks = (before - TIMER[2]) & 0xffffff;
    say(is ? "valid\n" : "invalid\n");
    memcpy(damaged, image, sizeof image);
    damaged[sizeof image / 2] ^= 1;
    say(is_valid(damaged, sizeof damaged) ? "damaged: valid\n" : "damaged: invalid\n");
}

static void start(void) {
    uint32_t *it, *painted;
    size_t used = sizeof memory;
    for (it = data_begin; it < data_end; it++) *it = data_from[it - data_begin];
    for (it = bss_begin; it < bss_end; it++) *it = 0;
    memset(memory, PAINT, sizeof memory);
    /* below the frame of this function */
    for (it = stack_begin; it < (uint32_t *)__builtin_frame_address(0) - 16; it++) *it = PAINT * 0x1010101u;
    TIMER[1] = TIMER[2] = 0xffffff;
    TIMER[0] = 5;
    run();
    for (painted = stack_begin; *painted == PAINT * 0x1010101u;) painted++;
    while (used > 0 && ((uint8_t *)memory)[used - 1] == PAINT) used--;
    say_number("stack: ", (uint32_t)((char *)stack_end - (char *)painted));
    if (used > 0) say_number("memory: ", (uint32_t)used);
    say_number("ticks of one verification: ", ticks);
    debugger(0x18, (const void *)0x20026);
    for (;;) {}
}

__attribute__((section(".vectors"), used)) static const struct {
    const void *stack;
    void (*start)(void);
} vectors = {stack_end, start};
