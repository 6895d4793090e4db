/* What examples/boot.c needs of 32-bit RISC-V, as a program for Linux that qemu-riscv32 runs; and with -DIMAGE the image
   that it starts, which begins with its first instruction. */
#include <stddef.h>
#include <stdint.h>

#ifdef IMAGE
static long ask(long what, long a, const char *b, long c) {
    register long a0 __asm__("a0") = a, a1 __asm__("a1") = (long)b, a2 __asm__("a2") = c, a7 __asm__("a7") = what;
    __asm__ volatile("ecall" : "+r"(a0) : "r"(a1), "r"(a2), "r"(a7) : "memory");
    return a0;
}

_Noreturn void start(void);
__attribute__((section(".vectors"), used)) _Noreturn void start(void) {
    static const char text[] = "image " VERSION_TEXT " runs\n";
    ask(64, 2, text, sizeof text - 1);
    ask(93, 0, NULL, 0);
    for (;;) {}
}
#else
#include "bare.h"
#include "boot.h"

void say(const char *text) {
    fputs(text, stderr);
    fflush(stderr);
}

_Noreturn void stop(void) { exit(1); }

_Noreturn void start_image(const uint8_t *at) {
    ((void (*)(void))(uintptr_t)at)();
    exit(2);
}
#endif
