/*
 * What is chosen for an x86-64 processor, once: the level of the code that runs, the vector registers that are to be
 * cleared, and whether SHA instructions hash single messages of SHA-256. A level is taken if the processor has all
 * its instructions and the system saves its registers.
 */
#include "exports.h"

#define BIT(number) ((uint32_t)1 << (number))
#define OSXSAVE BIT(27)
#define AVX BIT(28)
#define AVX512F BIT(16)
#define SHA BIT(29)

/* What x86-64-v2 adds: SSE3, SSSE3, CMPXCHG16B, SSE4.1, SSE4.2 and POPCNT; LAHF. */
#define V2_LEAF_1_ECX (BIT(0) | BIT(9) | BIT(13) | BIT(19) | BIT(20) | BIT(23))
#define V2_LEAF_80000001_ECX BIT(0)
/* What x86-64-v3 adds, but for LZCNT: FMA, MOVBE, AVX and F16C; BMI1, AVX2 and BMI2. */
#define V3_LEAF_1_ECX (BIT(12) | BIT(22) | AVX | BIT(29))
#define V3_LEAF_7_EBX (BIT(3) | BIT(5) | BIT(8))
#define V3_LEAF_80000001_ECX BIT(5)
/* What x86-64-v4 adds: AVX-512 F, DQ, CD, BW and VL. */
#define V4_LEAF_7_EBX (AVX512F | BIT(17) | BIT(28) | BIT(30) | BIT(31))
/* The registers of XCR0: xmm and ymm; with these the masks, the upper halves of zmm0 to zmm15, and zmm16 to zmm31. */
#define XCR0_AVX 0x06
#define XCR0_AVX512 0xe6

/* The highest level that there is code for. */
#ifndef SLH_HIGHEST
#define SLH_HIGHEST 4
#endif

static int has(uint32_t found, uint32_t wanted) { return (found & wanted) == wanted; }

/*
 * Whether chains take less time by SHA instructions than in lanes, by the model of tests/benches/PROFILES.md: without
 * AVX2, and on AMD's Zen and Zen+. These are family 0x17 (0xf and 8 more) up to model 0x2f.
 */
static int hashes_all_by_sha(struct slh_processor it, int v3) {
#ifdef SLH_DEPTHS_V2_SHA
    return !v3 || ((it.leaf_1_eax & 0x0ff00f00) == 0x00800f00 && (it.leaf_1_eax >> 16 & 0xf) < 3);
#else
    (void)it;
    (void)v3;
    return 0;
#endif
}

static uint32_t choice_for(struct slh_processor it) {
    int avx = has(it.leaf_1_ecx, OSXSAVE | AVX) && has(it.xcr0, XCR0_AVX);
    int avx512 = avx && has(it.leaf_7_ebx, AVX512F) && has(it.xcr0, XCR0_AVX512);
    int v2 = has(it.leaf_1_ecx, V2_LEAF_1_ECX) && has(it.leaf_80000001_ecx, V2_LEAF_80000001_ECX);
    int v3 = v2 && avx && has(it.leaf_1_ecx, V3_LEAF_1_ECX) && has(it.leaf_7_ebx, V3_LEAF_7_EBX) &&
             has(it.leaf_80000001_ecx, V3_LEAF_80000001_ECX);
    int v4 = SLH_HIGHEST == 4 && v3 && avx512 && has(it.leaf_7_ebx, V4_LEAF_7_EBX);
    int sha = v2 && has(it.leaf_7_ebx, SHA);
    int level = sha && hashes_all_by_sha(it, v3) ? V2_SHA : BELOW_V2 + v2 + v3 + v4;
    return (uint32_t)level | (uint32_t)(avx + avx512) << VECTORS_SHIFT | (uint32_t)sha << SHA_SHIFT;
}

uint32_t slh_choice;

/* Threads that are here at once find the same, and write the same word. */
uint32_t slh_choose(void) {
    uint32_t it = choice_for(slh_ask_processor());
    __atomic_store_n(&slh_choice, it, __ATOMIC_RELAXED);
    return it;
}

uint32_t slh_has_sha(void) { return choice() >> SHA_SHIFT; }
