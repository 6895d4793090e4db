/* Declarations that the C files of this folder share. */
#ifndef SLH_EXPORTS_H
#define SLH_EXPORTS_H

#include <stddef.h>
#include <stdint.h>

#define HIDDEN __attribute__((visibility("hidden")))

void *memcpy(void *to, const void *from, size_t n);
void *memmove(void *to, const void *from, size_t n);
void *memset(void *to, int byte, size_t n);

HIDDEN void *slh_memcpy(void *to, const void *from, size_t n);
HIDDEN void *slh_memmove(void *to, const void *from, size_t n);
HIDDEN void *slh_memset(void *to, int byte, size_t n);

/*
 * Clears the stack and the registers that a call has used, and returns `result`. Its caller calls it last. It clears
 * `depth` bytes below the stack pointer that its caller was entered with, and each register that a call need not keep.
 * `depth` is a multiple of 16. On x86-64 `vectors` is 0 for SSE, 1 for AVX and 2 for AVX-512.
 */
HIDDEN uint32_t slh_clear(uint32_t result, size_t depth, uint32_t vectors);

/*
 * Stands for the level of a processor below x86-64-v2, for which there is no code; and for x86-64-v2 with all of
 * SHA-256 by SHA instructions.
 */
enum { BELOW_V2 = 1, V2_SHA = 5 };

#ifdef __x86_64__
/* Answers of CPUID and XGETBV. `xcr0` is 0 if the system has not enabled XGETBV. */
struct slh_processor {
    uint32_t leaf_1_eax, leaf_1_ecx, leaf_7_ebx, leaf_80000001_ecx, xcr0;
};

HIDDEN struct slh_processor slh_ask_processor(void);

/* Whether the processor has SHA instructions. With them the second adds a block of 64 bytes to a hash value. */
HIDDEN uint32_t slh_has_sha(void);
HIDDEN void slh_sha256(uint32_t *state, const uint8_t *block, size_t block_len);
#endif
#ifdef __aarch64__
/* They add a block to a hash value by SHA instructions, on a processor that has them. */
HIDDEN void slh_sha256(uint32_t *state, const uint8_t *block, size_t block_len);
HIDDEN void slh_sha512(uint64_t *state, const uint8_t *block, size_t block_len);
#endif

#if defined(__x86_64__) || defined(SLH_ALL_LEVELS)
/*
 * The chosen level (2, 3 or 4, BELOW_V2 or V2_SHA) in the lowest byte; above it of x86-64 the vectors in the next byte,
 * and whether there are SHA instructions. It is 0 before the first call.
 */
extern HIDDEN uint32_t slh_choice;
enum { LEVEL_MASK = 0xff, VECTORS_SHIFT = 8, VECTORS_MASK = 0xff, SHA_SHIFT = 16 };

HIDDEN uint32_t slh_choose(void);

static inline uint32_t choice(void) {
    uint32_t it = __atomic_load_n(&slh_choice, __ATOMIC_RELAXED);
    return it != 0 ? it : slh_choose();
}

static inline uint32_t vectors_of(uint32_t chosen) { return chosen >> VECTORS_SHIFT & VECTORS_MASK; }
#else
static inline uint32_t choice(void) { return 0; }
static inline uint32_t vectors_of(uint32_t chosen) { return chosen; }
#endif

#endif
