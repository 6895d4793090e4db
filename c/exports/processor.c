/* What an x86-64 processor has, and the system keeps for each thread: the one file that asks the processor. */
#include "exports.h"

enum { OSXSAVE = 1 << 27 };

struct leaf {
    uint32_t a, b, c, d;
};

static struct leaf cpuid(uint32_t number) {
    struct leaf it;
    __asm__ volatile("cpuid" : "=a"(it.a), "=b"(it.b), "=c"(it.c), "=d"(it.d) : "a"(number), "c"(0));
    return it;
}

/* XCR0: the registers that the system saves where it changes threads. */
static uint32_t saved_state(void) {
    uint32_t low, high;
    __asm__ volatile("xgetbv" : "=a"(low), "=d"(high) : "c"(0));
    return low;
}

struct slh_processor slh_ask_processor(void) {
    struct leaf first = cpuid(1);
    struct slh_processor it = {first.a, first.c, 0, 0, 0};
    if (cpuid(0).a >= 7) it.leaf_7_ebx = cpuid(7).b;
    if (cpuid(0x80000000).a >= 0x80000001) it.leaf_80000001_ecx = cpuid(0x80000001).c;
    if (it.leaf_1_ecx & OSXSAVE) it.xcr0 = saved_state();
    return it;
}
