/*
 * The calls of the library for C, round the proved exports: tools/targets.py renames these and joins them to this file.
 * Nothing here is proved.
 *
 * With SLH_ALL_LEVELS each call goes to the code for the best level of x86-64 that processor and system have, and is
 * refused on a processor that has none of them. One that takes secrets then clears what the proved export left below
 * the stack pointer and in registers.
 */
#include "exports.h"
#include <slh_internal.h>
/* What is cleared beyond the depths: where none was measured, and on Windows for slh_sha256, which no test runs. */
#ifndef SLH_MORE_DEPTH
#ifdef _WIN32
#define SLH_MORE_DEPTH 256
#else
#define SLH_MORE_DEPTH 0
#endif
#endif
#ifdef SLH_ALL_LEVELS
#include "all_levels.h"
#else
#include "one_level.h"
#endif

/* The rows of the table of depths: a number of no set, and each set. A call that reads the set has the depth of any set
   in each row, and takes the first. */
enum { SETS = 6 };
static inline uint32_t row_of(uint32_t set) { return set <= SETS ? set : 0; }

/*
 * As the last call slh_clear begins at the stack pointer of this one's caller, so that nothing of this one is left,
 * either. The choice is read once: no call runs at one level and is cleared for another.
 */
#define SECRET(name, parameters, arguments) SECRET_AT(row_of(set), name, parameters, arguments)
#define READS(name, parameters, arguments) SECRET_AT(0, name, parameters, arguments)
#define SECRET_AT(row, name, parameters, arguments)                                           \
    PROVED(name, parameters)                                                                  \
    uint32_t slh_##name parameters {                                                          \
        uint32_t chosen = choice(), level = level_of(chosen);                                 \
        if (level == BELOW_V2) return SLH_OLD_PROCESSOR;                                      \
        uint32_t result = CALL(level, name, arguments);                                       \
        size_t depth = DEPTH(level, name, row) + SLH_MORE_DEPTH;                              \
        return slh_clear(result, depth, vectors_of(chosen));                                  \
    }
#include "calls.h"

#include "refusal_text.c"

uint32_t slh_level(void) {
    uint32_t level = level_of(choice());
    return level == BELOW_V2 ? 0 : level == V2_SHA ? 2 : level;
}

/* The barrier tells the compiler that the bytes are read. */
void slh_erase(void *bytes, size_t n) {
    if (n == 0) return;
    memset(bytes, 0, n);
    __asm__ volatile("" : : "r"(bytes) : "memory");
}

/*
 * The three calls of C, as the proved code names them here. They take the address from the table that a loader fills at
 * the start, by a word of the compiler (-fno-plt), or where it knows none, by the barrier here: else the first call
 * would run the loader, which saves all registers below, deeper than what is cleared.
 */
#if defined(__arm__) || defined(__riscv) || defined(__APPLE__)
#define LOADED(name) __extension__({ __typeof__(&name) it_ = name; __asm__("" : "+r"(it_)); it_; })
#else
#define LOADED(name) name
#endif
HIDDEN void *slh_memcpy(void *to, const void *from, size_t n) { return LOADED(memcpy)(to, from, n); }
HIDDEN void *slh_memmove(void *to, const void *from, size_t n) { return LOADED(memmove)(to, from, n); }
HIDDEN void *slh_memset(void *to, int byte, size_t n) { return LOADED(memset)(to, byte, n); }
