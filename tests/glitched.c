/* What a boot loader decides of an image by its digest, for tests/glitches.py, which runs it instruction by instruction:
   `plain` by the number that slh_hash_verify_digest returns, `hardened` by the hardened call. Each ends in `booted` or in
   `refused`. The script writes the arguments. */
#include <slh_verify.h>

enum { MOST_SIGNATURE = SLH_DSA_SHA2_128S_SIGNATURE + 16, MOST_CONTEXT = SLH_MAX_CONTEXT + 16 };
uint8_t pk[SLH_DSA_SHA2_128S_PUBLIC_KEY], digest[32], context[MOST_CONTEXT], signature[MOST_SIGNATURE];
uint32_t context_len, signature_len;
volatile uint32_t came;

#define ARGUMENTS                                                                                                      \
    SLH_DSA_SHA2_128S, SLH_SHA2_256, pk, sizeof pk, digest, sizeof digest, context, context_len, signature,            \
        signature_len

#define ALONE __attribute__((noinline)) _Noreturn

ALONE void booted(void);
ALONE void booted(void) {
    for (;;) came = 1;
}

ALONE void refused(void);
ALONE void refused(void) {
    for (;;) came = 2;
}

ALONE void plain(void);
ALONE void plain(void) {
    if (slh_hash_verify_digest(ARGUMENTS) == SLH_DONE) booted();
    refused();
}

ALONE void hardened(void);
ALONE void hardened(void) {
    volatile uint32_t verdict = SLH_HARDENED_INVALID;
    verdict = slh_hash_verify_digest_hardened(ARGUMENTS);
    if (SLH_IS_VALID(verdict)) booted();
    refused();
}

/* The functions of C that the library asks for, where there is no C library. */
#ifdef BARE
#include "bare.h"
int main(void) { return 0; }
#endif

/* The linker begins here, and keeps what stands here. */
_Noreturn void start(uint32_t is_hardened);
_Noreturn void start(uint32_t is_hardened) { is_hardened ? hardened() : plain(); }
