/*
 * What CPUID and XGETBV tell on some processors, for tests that stand in for the library's own question
 * (c/exports/processor.c): each with the best level that it can run, its vectors (0 SSE, 1 AVX, 2 AVX-512), and what is
 * hashed by SHA instructions. The bits are those of Intel's Nehalem, Haswell, Skylake for servers and Merom (Core 2),
 * under Linux. Those of AMD's EPYC (Zen, Zen 2, Zen 3) and of Intel's Denverton are qemu 10's. The level is 0 if it is
 * below x86-64-v2.
 */
#ifndef PROCESSORS_H
#define PROCESSORS_H

#include <stdint.h>

struct slh_processor {
    uint32_t leaf_1_eax, leaf_1_ecx, leaf_7_ebx, leaf_80000001_ecx, xcr0;
};

struct slh_processor slh_ask_processor(void);

enum by_sha { NOTHING, SINGLE_MESSAGES, ALL };

static const struct processor {
    const char *name;
    struct slh_processor it;
    uint32_t level, vectors;
    enum by_sha by_sha;
} processors[] = {
    {"nehalem", {0x000106a5, 0x0098e3bd, 0, 0x00000001, 0}, 2, 0, NOTHING},
    {"haswell", {0x000306c3, 0x7ffafbff, 0x000027ab, 0x00000021, 0x07}, 3, 1, NOTHING},
    {"skylake", {0x00050654, 0x7ffefbff, 0xd39ffffb, 0x00000121, 0xe7}, 4, 2, NOTHING},
    {"skylake whose system saves no zmm", {0x00050654, 0x7ffefbff, 0xd39ffffb, 0x00000121, 0x07}, 3, 1, NOTHING},
    {"skylake whose system saves no ymm", {0x00050654, 0x7ffefbff, 0xd39ffffb, 0x00000121, 0x03}, 2, 0, NOTHING},
    {"skylake whose system has no XGETBV", {0x00050654, 0x77fefbff, 0xd39ffffb, 0x00000121, 0}, 2, 0, NOTHING},
    {"skylake with SHA instructions", {0x00050654, 0x7ffefbff, 0xf39ffffb, 0x00000121, 0xe7}, 4, 2, SINGLE_MESSAGES},
    {"merom", {0x000006fb, 0x0000e3bd, 0, 0x00000001, 0}, 0, 0, NOTHING},
    {"merom with SHA instructions", {0x000006fb, 0x0000e3bd, 0x20000000, 0x00000001, 0}, 0, 0, NOTHING},
    {"denverton", {0x000506f1, 0xcff8220b, 0x20944281, 0x00000101, 0x1b}, 2, 0, ALL},
    {"epyc", {0x00800f12, 0xfed8320b, 0x209c01a9, 0x00000375, 0x07}, 2, 1, ALL},
    {"epyc-rome", {0x00830f10, 0xfed8320b, 0x219c01a9, 0x00000375, 0x07}, 3, 1, SINGLE_MESSAGES},
    {"epyc-milan", {0x00a00f11, 0xfeda320b, 0x219c07a9, 0x00000375, 0x07}, 3, 1, SINGLE_MESSAGES},
    {"epyc as Zen's model 0x20", {0x00820f01, 0xfed8320b, 0x209c01a9, 0x00000375, 0x07}, 2, 1, ALL},
    {"epyc of the family 0x18", {0x00900f12, 0xfed8320b, 0x209c01a9, 0x00000375, 0x07}, 3, 1, SINGLE_MESSAGES},
};
enum { NEHALEM, HASWELL, SKYLAKE, MEROM = 7, EPYC_ROME = 11, PROCESSORS = sizeof processors / sizeof *processors };

#endif
