/* Prints the most bytes of stack that slh_verify and slh_hash_verify_digest take on a board with 32-bit pointers, over
   all sets: the stack below this function is painted before a call. A wrong signature takes the way of a right one. It
   is linked as tests/target_calls.c: for RISC-V with -DBARE, which takes bare.h for the C library. */
#include <slh_verify.h>
#ifdef BARE
#include "bare.h"
#else
#include <stdio.h>
#include <stdlib.h>
#endif

/* Between this function's frame and the painted part. They count as if the call had taken them. */
enum { PAINTED = 32768, PAINT = 0xa5, GAP = 128 };

static uint8_t sig[SLH_MAX_SIGNATURE], pk[SLH_MAX_PUBLIC_KEY];

static uint32_t verify(uint32_t set, size_t pk_len, size_t sig_len) {
    return slh_verify(set, pk, pk_len, sig, 32, NULL, 0, sig, sig_len);
}

static uint32_t by_digest(uint32_t set, size_t pk_len, size_t sig_len) {
    return slh_hash_verify_digest(set, SLH_SHA2_256, pk, pk_len, sig, 32, NULL, 0, sig, sig_len);
}

__attribute__((noinline)) static size_t depth(uint32_t (*call)(uint32_t, size_t, size_t), uint32_t set, size_t pk_len,
                                              size_t sig_len) {
    volatile uint8_t *top = (volatile uint8_t *)__builtin_frame_address(0) - GAP, *at = top - PAINTED;
    for (volatile uint8_t *it = at; it < top; it++) *it = PAINT;
    if (call(set, pk_len, sig_len) != SLH_INVALID) exit(1);
    while (at < top && *at == PAINT) at++;
    return (size_t)(top - at) + GAP;
}

int main(void) {
    const size_t lengths[] = {7856, 17088, 16224, 35664, 29792, 49856};
    size_t most = 0;
    for (uint32_t set = SLH_DSA_SHA2_128S; set <= SLH_DSA_SHA2_256F; set++) {
        size_t pk_len = set < SLH_DSA_SHA2_192S ? 32 : set < SLH_DSA_SHA2_256S ? 48 : 64, len = lengths[set - 1];
        size_t whole = depth(verify, set, pk_len, len), digest = depth(by_digest, set, pk_len, len);
        if (whole > most) most = whole;
        if (digest > most) most = digest;
    }
    fputs("stack: ", stdout);
    printf("%u", (unsigned)most);
    fputs("\n", stdout);
    fflush(stdout);
    return 0;
}
