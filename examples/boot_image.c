/* SPDX-License-Identifier: MIT OR Apache-2.0 */
/* An image that examples/boot.c starts, for ARM Cortex-M: it says that it runs, and which version it is. */
#include <stdint.h>

#ifndef VERSION_TEXT
#define VERSION_TEXT "1.2.0"
#endif

static void debugger(uint32_t what, const void *with) {
    register uint32_t r0 __asm__("r0") = what;
    register const void *r1 __asm__("r1") = with;
    __asm__ volatile("bkpt 0xab" : "+r"(r0) : "r"(r1) : "memory");
}

static void start(void) {
    debugger(4, "image " VERSION_TEXT " runs\n");
    debugger(0x18, (const void *)0x20026);
    for (;;) {}
}

__attribute__((section(".vectors"), used)) static const struct {
    uint32_t stack;
    void (*start)(void);
} vectors = {0x20008000, start};
