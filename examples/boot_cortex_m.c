/* SPDX-License-Identifier: MIT OR Apache-2.0 */
/* What examples/boot.c needs of an ARM Cortex-M without an operating system: how it starts, how it starts an image, and
   texts to the debugger or the emulator (semihosting). board.ld says where things are. */
#include "boot.h"

#include <string.h>

int main(void);

extern uint32_t data_from[], data_begin[], data_end[], bss_begin[], bss_end[], stack_end[];

static void debugger(uint32_t what, const void *with) {
    register uint32_t r0 __asm__("r0") = what;
    register const void *r1 __asm__("r1") = with;
    __asm__ volatile("bkpt 0xab" : "+r"(r0) : "r"(r1) : "memory");
}

void say(const char *text) { debugger(4, text); }

_Noreturn void stop(void) {
    debugger(0x18, (const void *)0x20023);
    for (;;) {}
}

/* An image begins with its table of vectors: its stack, and where it starts. A Cortex-M0 has no register for the place of
   the table. */
_Noreturn void start_image(const uint8_t *at) {
    uint32_t vectors[2];
    memcpy(vectors, at, sizeof vectors);
#if __ARM_ARCH >= 7
    *(const uint8_t *volatile *)0xe000ed08 = at;
#endif
    __asm__ volatile("msr msp, %0\n\tbx %1" : : "r"(vectors[0]), "r"(vectors[1]) : "memory");
    for (;;) {}
}

static void start(void) {
    memcpy(data_begin, data_from, (size_t)((char *)data_end - (char *)data_begin));
    memset(bss_begin, 0, (size_t)((char *)bss_end - (char *)bss_begin));
    main();
    stop();
}

__attribute__((section(".vectors"), used)) static const struct {
    const void *stack;
    void (*start)(void);
} vectors = {stack_end, start};
