/*
 * Flips one bit while a call that signs twice writes the signature, as bad memory may: in the half of scratch that it
 * is written from, or in the bytes that are written already. The output cannot be written to at first, so the first
 * write to each of its pages traps, and the handler flips the bit there.
 *
 * The call has to return SLH_FAULT, with the output as it was and scratch cleared; or the right signature, if the bit
 * was not used any more. At least half of the flips must be found. With -DONCE calls that sign once replace those that
 * sign twice, and the test has to fail.
 *
 * usage: library_copies FLIPS SEED      that many flips of each kind in each call
 *
 * For Linux, with an archive that is linked statically. The last line has the counts, and the status is 0 if nothing
 * failed.
 */
#define _GNU_SOURCE
#include <slh.h>

#include <signal.h>
#include <stdio.h>
#include <stdlib.h>
#include <string.h>
#include <sys/mman.h>

enum { SET = SLH_DSA_SHA2_128F, N = 16, SIGNATURE = SLH_DSA_SHA2_128F_SIGNATURE, PAINT = 0xa5, PAGE = 4096 };
/* The pages of the output, and the bytes that may be in registers while a page traps. */
enum { PAGES = (SIGNATURE + PAGE - 1) / PAGE, IN_FLIGHT = 1024 };
enum kind { SOURCE, WRITTEN, KINDS };

struct call {
    const char *name;
    uint32_t (*sign)(void);
    uint32_t (*once)(void);
};

static const uint8_t msg[] = "a message that is signed", ctx[] = "context";
static uint8_t sk[4 * N], seeds[3 * N], digest[32], randomizer[N], scratch[2 * SIGNATURE], right[SIGNATURE];
static uint8_t *sig; /* at the begin of a page */
static int passed, failed;

/* Read by the handler: the page whose first write is disturbed, and what follows from the draw. */
static size_t page;
static enum kind kind;
static uint64_t where;
static volatile sig_atomic_t is_flipped;

static void must(int holds, const char *what) {
    if (holds) return;
    printf("library_copies: %s\n0 passed, 1 failed\n", what);
    exit(2);
}

#define MESSAGE SET, sk, sizeof sk, msg, sizeof msg, ctx, sizeof ctx, randomizer, sizeof randomizer
#define BY_HASH_OF(bytes) \
    SET, SLH_SHA2_256, sk, sizeof sk, bytes, sizeof bytes, ctx, sizeof ctx, randomizer, sizeof randomizer
static uint32_t sign(void) { return slh_sign(MESSAGE, sig, SIGNATURE); }
static uint32_t hash_sign(void) { return slh_hash_sign(BY_HASH_OF(msg), sig, SIGNATURE); }
static uint32_t sign_digest(void) { return slh_hash_sign_digest(BY_HASH_OF(digest), sig, SIGNATURE); }
#ifdef ONCE
static uint32_t sign_twice(void) { return sign(); }
static uint32_t hash_sign_twice(void) { return hash_sign(); }
static uint32_t sign_digest_twice(void) { return sign_digest(); }
#else
static uint32_t sign_twice(void) { return slh_sign_twice(MESSAGE, scratch, sizeof scratch, sig, SIGNATURE); }
static uint32_t hash_sign_twice(void) {
    return slh_hash_sign_twice(BY_HASH_OF(msg), scratch, sizeof scratch, sig, SIGNATURE);
}
static uint32_t sign_digest_twice(void) {
    return slh_hash_sign_digest_twice(BY_HASH_OF(digest), scratch, sizeof scratch, sig, SIGNATURE);
}
#endif

static const struct call calls[] = {{"slh_sign_twice", sign_twice, sign},
                                    {"slh_hash_sign_twice", hash_sign_twice, hash_sign},
                                    {"slh_hash_sign_digest_twice", sign_digest_twice, sign_digest}};
enum { CALLS = sizeof calls / sizeof calls[0] };

/* Flips a bit of the bytes that are not copied yet, or of those that were. */
static void flip(size_t at) {
    size_t from = kind == SOURCE ? at + IN_FLIGHT : 0, to = kind == SOURCE ? SIGNATURE : at;
    uint8_t *bytes = kind == SOURCE ? scratch : sig;
    if (from >= to) return;
    bytes[from + where / 8 % (to - from)] ^= (uint8_t)(1u << where % 8);
    is_flipped = 1;
}

/* The first write to a page of the output. */
static void writes(int number, siginfo_t *info, void *context) {
    size_t at = (size_t)((uint8_t *)info->si_addr - sig);
    (void)number, (void)context;
    if (at >= PAGES * PAGE || mprotect(sig + at / PAGE * PAGE, PAGE, PROT_READ | PROT_WRITE) != 0) abort();
    if (at / PAGE == page && !is_flipped) flip(at);
}

static int is_all(const uint8_t *bytes, size_t len, uint8_t byte) {
    for (size_t i = 0; i < len; i++)
        if (bytes[i] != byte) return 0;
    return 1;
}

static uint64_t mixed(uint64_t it) {
    it = (it ^ it >> 30) * 0xbf58476d1ce4e5b9;
    it = (it ^ it >> 27) * 0x94d049bb133111eb;
    return it ^ it >> 31;
}

/* Signs with a flip. Whether it was found: 1; whether it changed nothing: 0; if anything else came out, -1. */
static int found(const struct call *call, uint64_t draw) {
    memset(sig, PAINT, SIGNATURE);
    /* The last page has the fewest bytes, and no byte is written before the first. */
    page = kind == SOURCE ? draw % (PAGES - 1) : 1 + draw % (PAGES - 1);
    where = mixed(draw), is_flipped = 0;
    must(mprotect(sig, PAGES * PAGE, PROT_READ) == 0, "no protection");
    uint32_t result = call->sign();
    must(mprotect(sig, PAGES * PAGE, PROT_READ | PROT_WRITE) == 0, "no protection");
    if (!is_flipped || !is_all(scratch, sizeof scratch, 0)) return -1;
    if (result == SLH_FAULT && is_all(sig, SIGNATURE, PAINT)) return 1;
    return result == SLH_DONE && memcmp(sig, right, SIGNATURE) == 0 ? 0 : -1;
}

static void tries(const struct call *call, unsigned count, uint64_t seed) {
    static const char *const places[KINDS] = {"the bytes to write", "the written bytes"};
    unsigned faults = 0, others = 0;
    for (unsigned i = 0; i < count; i++) {
        int is_found = found(call, mixed(mixed(seed) + i));
        faults += is_found == 1, others += is_found < 0;
    }
    int holds = count > 0 && others == 0 && 2 * faults >= count;
    holds ? passed++ : failed++;
    printf("%s: %u flips in %s: %u refused as faults, %u went wrong: %s\n", call->name, count, places[kind], faults,
           others, holds ? "yes" : "no");
}

int main(int argc, char **argv) {
    must(argc == 3, "usage: library_copies FLIPS SEED");
    struct sigaction action = {.sa_sigaction = writes, .sa_flags = SA_SIGINFO};
    sig = mmap(NULL, PAGES * PAGE, PROT_READ | PROT_WRITE, MAP_PRIVATE | MAP_ANONYMOUS, -1, 0);
    must(sig != MAP_FAILED && sigaction(SIGSEGV, &action, NULL) == 0, "no memory");
    for (size_t i = 0; i < sizeof seeds; i++) seeds[i] = (uint8_t)(7 * i + 1);
    for (size_t i = 0; i < sizeof digest; i++) digest[i] = (uint8_t)(5 * i + 3);
    for (size_t i = 0; i < sizeof randomizer; i++) randomizer[i] = (uint8_t)(3 * i + 2);
    must(slh_keygen(SET, seeds, N, seeds + N, N, seeds + 2 * N, N, sk, sizeof sk) == SLH_DONE, "keygen");
    for (int it = 0; it < CALLS; it++) {
        must(calls[it].once() == SLH_DONE, "sign");
        memcpy(right, sig, SIGNATURE);
        for (kind = SOURCE; kind < KINDS; kind++)
            tries(&calls[it], (unsigned)strtoul(argv[1], NULL, 0), strtoull(argv[2], NULL, 0));
        fflush(stdout);
    }
    printf("%d passed, %d failed\n", passed, failed);
    return failed != 0;
}
