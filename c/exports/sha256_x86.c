/*
 * A block of SHA-256 by the SHA instructions of x86-64 (FIPS 180-4, section 6.2.2). By tools/for_single_x86.sed the
 * proved code jumps here with each block of a message that is hashed alone, if the processor has them. No proof knows
 * this file: tests/test_sha_instructions.py compares it with the proved function.
 */
#include "exports.h"

typedef int words __attribute__((vector_size(16)));
typedef uint8_t bytes __attribute__((vector_size(16)));
/* The same where the address may be any. */
typedef words words_in_memory __attribute__((aligned(1), may_alias));
typedef bytes bytes_in_memory __attribute__((aligned(1), may_alias));

enum { VECTORS = 16 };
#define WITH_SHA __attribute__((target("sha,ssse3"), always_inline)) static inline

/* The constants of the rounds (section 4.2.2). */
static const uint32_t k[4 * VECTORS] __attribute__((aligned(16))) = {
    0x428a2f98, 0x71374491, 0xb5c0fbcf, 0xe9b5dba5, 0x3956c25b, 0x59f111f1, 0x923f82a4, 0xab1c5ed5,
    0xd807aa98, 0x12835b01, 0x243185be, 0x550c7dc3, 0x72be5d74, 0x80deb1fe, 0x9bdc06a7, 0xc19bf174,
    0xe49b69c1, 0xefbe4786, 0x0fc19dc6, 0x240ca1cc, 0x2de92c6f, 0x4a7484aa, 0x5cb0a9dc, 0x76f988da,
    0x983e5152, 0xa831c66d, 0xb00327c8, 0xbf597fc7, 0xc6e00bf3, 0xd5a79147, 0x06ca6351, 0x14292967,
    0x27b70a85, 0x2e1b2138, 0x4d2c6dfc, 0x53380d13, 0x650a7354, 0x766a0abb, 0x81c2c92e, 0x92722c85,
    0xa2bfe8a1, 0xa81a664b, 0xc24b8b70, 0xc76c51a3, 0xd192e819, 0xd6990624, 0xf40e3585, 0x106aa070,
    0x19a4c116, 0x1e376c08, 0x2748774c, 0x34b0bcb5, 0x391c0cb3, 0x4ed8aa4a, 0x5b9cca4f, 0x682e6ff3,
    0x748f82ee, 0x78a5636f, 0x84c87814, 0x8cc70208, 0x90befffa, 0xa4506ceb, 0xbef9a3f7, 0xc67178f2,
};

/* The instructions hold a hash value as a, b, e, f and c, d, g, h, each from the highest word down. */
struct state {
    words abef, cdgh;
};

WITH_SHA struct state load_state(const words_in_memory *at) {
    return (struct state){__builtin_shufflevector(at[0], at[1], 5, 4, 1, 0),
                          __builtin_shufflevector(at[0], at[1], 7, 6, 3, 2)};
}

WITH_SHA void add_state(words_in_memory *at, struct state it) {
    at[0] += __builtin_shufflevector(it.abef, it.cdgh, 3, 2, 7, 6);
    at[1] += __builtin_shufflevector(it.abef, it.cdgh, 1, 0, 5, 4);
}

/* Four words of the block: the highest byte of each comes first. */
WITH_SHA words load_words(const bytes_in_memory *at) {
    return (words)__builtin_shufflevector(*at, *at, 3, 2, 1, 0, 7, 6, 5, 4, 11, 10, 9, 8, 15, 14, 13, 12);
}

/* The four words of the schedule after these sixteen. */
WITH_SHA words next_words(words w0, words w4, words w8, words w12) {
    words seven_before = __builtin_shufflevector(w8, w12, 1, 2, 3, 4);
    return __builtin_ia32_sha256msg2(__builtin_ia32_sha256msg1(w0, w4) + seven_before, w12);
}

/* Two rounds, by sums of a constant and a word in the lower half: c, d, g, h become what a, b, e, f were. */
WITH_SHA struct state two_rounds(struct state it, words sums) {
    return (struct state){__builtin_ia32_sha256rnds2(it.cdgh, it.abef, sums), it.abef};
}

WITH_SHA struct state four_rounds(struct state it, words sums) {
    return two_rounds(two_rounds(it, sums), __builtin_shufflevector(sums, sums, 2, 3, 2, 3));
}

__attribute__((target("sha,ssse3"))) void slh_sha256(uint32_t *state, const uint8_t *block, size_t block_len) {
    (void)block_len;
    struct state it = load_state((const words_in_memory *)state);
    words w[VECTORS];
#pragma clang loop unroll(full)
    for (int i = 0; i < VECTORS; i++) {
        w[i] = i < 4 ? load_words((const bytes_in_memory *)block + i)
                     : next_words(w[i - 4], w[i - 3], w[i - 2], w[i - 1]);
        it = four_rounds(it, w[i] + *(const words_in_memory *)(k + 4 * i));
    }
    add_state((words_in_memory *)state, it);
}
