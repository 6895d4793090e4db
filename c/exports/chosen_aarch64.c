/*
 * What is chosen for a 64-bit ARM processor on Linux, once: the level of the code that runs. The system says which
 * instructions the processor has. If a static program has no getauxval, nothing is known, and the code for NEON runs.
 */
#include "exports.h"

#define BIT(number) ((unsigned long)1 << (number))
enum { AT_HWCAP = 16 };
/* The compiler may use SHA-3's instructions, too, in code for SHA-512's. */
#define HWCAP_SHA256 BIT(6)
#define HWCAP_SHA512 (BIT(17) | BIT(21))
enum { NEON = 2 };

extern unsigned long getauxval(unsigned long type) __attribute__((weak));

static int has(unsigned long found, unsigned long wanted) { return (found & wanted) == wanted; }

uint32_t slh_choice;

/* Threads that are here at once find the same, and write the same word. */
uint32_t slh_choose(void) {
    unsigned long found = getauxval ? getauxval(AT_HWCAP) : 0;
    int sha256 = has(found, HWCAP_SHA256), sha512 = sha256 && has(found, HWCAP_SHA512);
    uint32_t it = (uint32_t)(NEON + sha256 + sha512);
    __atomic_store_n(&slh_choice, it, __ATOMIC_RELAXED);
    return it;
}
