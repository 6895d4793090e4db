/*
 * Calls the library for C with valid and invalid lengths, numbers and pointers, and from several threads. The last line
 * has the counts, and the status is 0 where nothing failed. tests/test_library.py compiles and runs it.
 *
 * Each argument is a block of its own, of just the length that is handed in, so that the sanitizers see a read or a
 * write beyond it in the calls of memcpy, memmove and memset.
 */
#include <slh_internal.h>

#include "sha2_steps.h"

#include <pthread.h>
#include <stdio.h>
#include <stdlib.h>
#include <string.h>

enum { SETS = 6, FUNCTIONS = 6, THREADS = 4, PAINT = 0xa5 };
enum argument { SK_SEED, SK_PRF, PK_SEED, SK, PK, MSG, DIGEST, HASH, CTX, RANDOMIZER, SCRATCH, SIG, OUT, ARGUMENTS };

struct bytes {
    uint8_t *at;
    size_t len;
};

struct given {
    uint32_t set, function;
    struct bytes of[ARGUMENTS];
};

#define BYTES(it) given->of[it].at, given->of[it].len

static uint32_t keygen(const struct given *given) {
    return slh_keygen(given->set, BYTES(SK_SEED), BYTES(SK_PRF), BYTES(PK_SEED), BYTES(OUT));
}

static uint32_t public(const struct given *given) { return slh_public(given->set, BYTES(SK), BYTES(OUT)); }

static uint32_t check(const struct given *given) { return slh_check(given->set, BYTES(SK)); }

static uint32_t sign(const struct given *given) {
    return slh_sign(given->set, BYTES(SK), BYTES(MSG), BYTES(CTX), BYTES(RANDOMIZER), BYTES(OUT));
}

static uint32_t verify(const struct given *given) {
    return slh_verify(given->set, BYTES(PK), BYTES(MSG), BYTES(CTX), BYTES(SIG));
}

static uint32_t hash_sign(const struct given *given) {
    return slh_hash_sign(given->set, given->function, BYTES(SK), BYTES(MSG), BYTES(CTX), BYTES(RANDOMIZER), BYTES(OUT));
}

static uint32_t hash_verify(const struct given *given) {
    return slh_hash_verify(given->set, given->function, BYTES(PK), BYTES(MSG), BYTES(CTX), BYTES(SIG));
}

static uint32_t hash_sign_digest(const struct given *given) {
    return slh_hash_sign_digest(given->set, given->function, BYTES(SK), BYTES(DIGEST), BYTES(CTX), BYTES(RANDOMIZER),
                                BYTES(OUT));
}

static uint32_t hash_verify_digest(const struct given *given) {
    return slh_hash_verify_digest(given->set, given->function, BYTES(PK), BYTES(DIGEST), BYTES(CTX), BYTES(SIG));
}

static uint32_t sign_internal(const struct given *given) {
    return slh_sign_internal(given->set, BYTES(SK), BYTES(MSG), BYTES(RANDOMIZER), BYTES(OUT));
}

static uint32_t verify_internal(const struct given *given) {
    return slh_verify_internal(given->set, BYTES(PK), BYTES(MSG), BYTES(SIG));
}

static uint32_t sign_twice(const struct given *given) {
    return slh_sign_twice(given->set, BYTES(SK), BYTES(MSG), BYTES(CTX), BYTES(RANDOMIZER), BYTES(SCRATCH), BYTES(OUT));
}

static uint32_t hash_sign_twice(const struct given *given) {
    return slh_hash_sign_twice(given->set, given->function, BYTES(SK), BYTES(MSG), BYTES(CTX), BYTES(RANDOMIZER),
                               BYTES(SCRATCH), BYTES(OUT));
}

static uint32_t hash_sign_digest_twice(const struct given *given) {
    return slh_hash_sign_digest_twice(given->set, given->function, BYTES(SK), BYTES(DIGEST), BYTES(CTX),
                                      BYTES(RANDOMIZER), BYTES(SCRATCH), BYTES(OUT));
}

static uint32_t verify_front(const struct given *given) {
    return slh_verify_front(given->set, BYTES(PK), BYTES(CTX), BYTES(SIG), BYTES(OUT));
}

static uint32_t verify_hashed(const struct given *given) {
    return slh_verify_hashed(given->set, BYTES(PK), BYTES(HASH), BYTES(SIG));
}

/* A call, whether it names a pre-hash function, its arguments, and which kind of bytes it writes (OUT for none). */
static const struct call {
    const char *name;
    uint32_t (*run)(const struct given *);
    int has_function;
    unsigned takes;
    enum argument writes;
} calls[] = {
#define A(it) (1u << (it))
    {"keygen", keygen, 0, A(SK_SEED) | A(SK_PRF) | A(PK_SEED), SK},
    {"public", public, 0, A(SK), PK},
    {"check", check, 0, A(SK), OUT},
    {"sign", sign, 0, A(SK) | A(MSG) | A(CTX) | A(RANDOMIZER), SIG},
    {"verify", verify, 0, A(PK) | A(MSG) | A(CTX) | A(SIG), OUT},
    {"hash_sign", hash_sign, 1, A(SK) | A(MSG) | A(CTX) | A(RANDOMIZER), SIG},
    {"hash_verify", hash_verify, 1, A(PK) | A(MSG) | A(CTX) | A(SIG), OUT},
    {"hash_sign_digest", hash_sign_digest, 1, A(SK) | A(DIGEST) | A(CTX) | A(RANDOMIZER), SIG},
    {"hash_verify_digest", hash_verify_digest, 1, A(PK) | A(DIGEST) | A(CTX) | A(SIG), OUT},
    {"sign_internal", sign_internal, 0, A(SK) | A(MSG) | A(RANDOMIZER), SIG},
    {"verify_internal", verify_internal, 0, A(PK) | A(MSG) | A(SIG), OUT},
    {"sign_twice", sign_twice, 0, A(SK) | A(MSG) | A(CTX) | A(RANDOMIZER) | A(SCRATCH), SIG},
    {"verify", verify, 0, A(PK) | A(MSG) | A(CTX) | A(SIG), OUT},
    {"hash_sign_twice", hash_sign_twice, 1, A(SK) | A(MSG) | A(CTX) | A(RANDOMIZER) | A(SCRATCH), SIG},
    {"hash_verify", hash_verify, 1, A(PK) | A(MSG) | A(CTX) | A(SIG), OUT},
    {"hash_sign_digest_twice", hash_sign_digest_twice, 1, A(SK) | A(DIGEST) | A(CTX) | A(RANDOMIZER) | A(SCRATCH), SIG},
    {"hash_verify_digest", hash_verify_digest, 1, A(PK) | A(DIGEST) | A(CTX) | A(SIG), OUT},
};
/* PURE is the place of `sign`. */
enum { CALLS = sizeof calls / sizeof calls[0], PURE = 3 };

/* The calls that verify by a hash of the caller. What the first writes is of no kind of `struct given`. */
static const struct call fronts = {"verify_front", verify_front, 0, A(PK) | A(CTX) | A(SIG), SIG};
static const struct call hashes = {"verify_hashed", verify_hashed, 0, A(PK) | A(HASH) | A(SIG), OUT};

static int passed, failed;

static void expect(int holds, const char *what, const char *of, uint32_t set, size_t detail) {
    holds ? passed++ : failed++;
    if (!holds) printf("failed: %s of %s, set %u, %zu\n", what, of, (unsigned)set, detail);
}

static void *or_stop(void *it) {
    if (it == NULL) {
        puts("no memory");
        exit(2);
    }
    return it;
}

/* A copy of the bytes in a block of `len` bytes and no more, with a 7 in each place past them. Null for no bytes. */
static struct bytes copy(struct bytes from, size_t len) {
    struct bytes made = {NULL, len};
    if (len > 0) {
        made.at = or_stop(malloc(len));
        memset(made.at, 7, len);
        if (from.len > 0) memcpy(made.at, from.at, from.len < len ? from.len : len);
    }
    return made;
}

static struct bytes painted(size_t len) {
    struct bytes none = {NULL, 0}, made = copy(none, len);
    if (len > 0) memset(made.at, PAINT, len);
    return made;
}

static int is_painted(struct bytes out) {
    for (size_t i = 0; i < out.len; i++)
        if (out.at[i] != PAINT) return 0;
    return 1;
}

/* Whether a call left its scratch as it has to: zeros where it is done, and else as it was. */
static int is_scratch_right(struct bytes scratch, uint32_t result) {
    for (size_t i = 0; i < scratch.len; i++)
        if (scratch.at[i] != (result == SLH_DONE ? 0 : PAINT)) return 0;
    return 1;
}

/* Runs a call with copies of its arguments, one of which has another length, and with a fresh output and scratch. What
   is returned must be `wanted`, and the output must be written where that is SLH_DONE, and else be as it was. */
static void expect_result(const struct call *call, const struct given *good, enum argument changed, size_t len,
                          uint32_t wanted, const char *what) {
    struct given given = *good;
    for (int it = 0; it < OUT; it++)
        given.of[it] = copy(good->of[it], it == (int)changed ? len : good->of[it].len);
    given.of[OUT] = painted(changed == OUT ? len : good->of[OUT].len);
    free(given.of[SCRATCH].at);
    given.of[SCRATCH] = painted(changed == SCRATCH ? len : good->of[SCRATCH].len);
    uint32_t result = call->run(&given);
    int has_output = call->writes != OUT && given.of[OUT].len > 0;
    expect(result == wanted && (!has_output || is_painted(given.of[OUT]) == (result != SLH_DONE)), what, call->name,
           good->set, len);
    if (call->takes & A(SCRATCH))
        expect(is_scratch_right(given.of[SCRATCH], result), "scratch", call->name, good->set, len);
    for (int it = 0; it < ARGUMENTS; it++) free(given.of[it].at);
}

static struct bytes counted(size_t len, uint8_t first) {
    struct bytes made = painted(len);
    for (size_t i = 0; i < len; i++) made.at[i] = (uint8_t)(first + i);
    return made;
}

static const size_t digest_lens[FUNCTIONS] = {28, 32, 48, 64, 28, 32};

/* Valid arguments for a set: the seeds 00, 01, 02, .., their key, and room for what is made. */
static struct given in_rule(uint32_t set, uint32_t function) {
    size_t pk_len, sk_len, sig_len, n;
    struct given given = {set, function, {{NULL, 0}}};
    if (slh_lengths(set, &pk_len, &sk_len, &sig_len, &n) != SLH_DONE) exit(2);
    given.of[SK_SEED] = counted(n, 0);
    given.of[SK_PRF] = counted(n, (uint8_t)n);
    given.of[PK_SEED] = counted(n, (uint8_t)(2 * n));
    given.of[SK] = painted(sk_len);
    given.of[PK] = painted(pk_len);
    given.of[MSG] = counted(100, 3);
    given.of[DIGEST] = counted(digest_lens[function - 1], 5);
    given.of[HASH] = counted(n == 16 ? 32 : 64, 9);
    given.of[CTX] = counted(9, 11);
    given.of[RANDOMIZER] = counted(n, 40);
    given.of[SIG] = painted(sig_len);
    given.of[SCRATCH] = painted(2 * sig_len);
    struct given making = given;
    making.of[OUT] = given.of[SK];
    expect(keygen(&making) == SLH_DONE, "result", "keygen", set, 0);
    making.of[OUT] = given.of[PK];
    expect(public(&making) == SLH_DONE, "result", "public", set, 0);
    return given;
}

static void drop(struct given given) {
    for (int it = 0; it < OUT; it++) free(given.of[it].at);
}

/* What a call returns where this argument has another length, and all else is valid. */
static uint32_t result_of_length(const struct call *call, enum argument of) {
    int is_verify = (call->takes & A(SIG)) != 0;
    switch (of) {
    case SK_SEED:
    case SK_PRF:
    case PK_SEED: return SLH_BAD_SEED_LENGTH;
    case SK:
    case PK: return SLH_BAD_LENGTH;
    case DIGEST:
    case HASH: return SLH_BAD_DIGEST_LENGTH;
    case RANDOMIZER: return SLH_BAD_RANDOMIZER_LENGTH;
    case SCRATCH:
    case OUT: return SLH_BAD_OUTPUT_LENGTH;
    default: return is_verify ? SLH_INVALID : SLH_DONE;
    }
}

static int is_fast(uint32_t set) { return set % 2 == 0; }

/* One argument a byte shorter, a byte longer, or without any byte and null. A message or context of another length is
   valid, so that signing is run whole: this is done for the fast sets. */
static void other_lengths(const struct call *call, const struct given *good) {
    for (int it = 0; it < ARGUMENTS; it++) {
        if (it == OUT ? call->writes == OUT : !(call->takes & A(it))) continue;
        uint32_t wanted = result_of_length(call, (enum argument)it);
        if (wanted == SLH_DONE && !is_fast(good->set)) continue;
        size_t len = good->of[it].len;
        expect_result(call, good, (enum argument)it, len - 1, wanted, "a byte less");
        expect_result(call, good, (enum argument)it, len + 1, wanted, "a byte more");
        if (it == RANDOMIZER) wanted = SLH_DONE;
        if (wanted == SLH_DONE && !is_fast(good->set)) continue;
        expect_result(call, good, (enum argument)it, 0, wanted, "a null pointer");
    }
}

static void other_contexts(const struct call *call, const struct given *good) {
    int is_verify = (call->takes & A(SIG)) != 0;
    if (!(call->takes & A(CTX)) || !is_fast(good->set)) return;
    expect_result(call, good, CTX, 255, is_verify ? SLH_INVALID : SLH_DONE, "a context of 255 bytes");
    expect_result(call, good, CTX, 256, is_verify ? SLH_INVALID : SLH_CONTEXT_TOO_LONG, "a context of 256 bytes");
}

static void other_numbers(const struct call *call, const struct given *good) {
    static const uint32_t none[] = {0, 7, 8, 256, 0x80000000u, 0xffffffffu};
    for (size_t i = 0; i < sizeof none / sizeof none[0]; i++) {
        struct given given = *good;
        given.set = none[i];
        expect_result(call, &given, ARGUMENTS, 0, SLH_NO_SUCH_SET, "a number of no set");
        given = *good;
        given.function = none[i];
        if (call->has_function) expect_result(call, &given, ARGUMENTS, 0, SLH_NO_SUCH_FUNCTION, "a number of no function");
    }
}

/* All is invalid, and then one thing after the other is mended: each time the number of the next one is returned. */
static void order(const struct call *call, const struct given *good) {
    struct given given = *good;
    for (int it = 0; it < OUT; it++) given.of[it].len = it == CTX ? 0 : good->of[it].len - 1;
    given.of[CTX] = counted(256, 0);
    given.of[OUT].len = good->of[OUT].len + 1;
    given.set = given.function = 0;
    expect_result(call, &given, ARGUMENTS, 0, SLH_NO_SUCH_SET, "first refusal");
    given.set = good->set;
    if (call->has_function) expect_result(call, &given, ARGUMENTS, 0, SLH_NO_SUCH_FUNCTION, "second refusal");
    given.function = good->function;
    static const enum argument judged[] = {SK_SEED, SK_PRF, PK_SEED, SK, PK, DIGEST, RANDOMIZER, SCRATCH, OUT};
    for (size_t i = 0; i < sizeof judged / sizeof judged[0]; i++) {
        enum argument it = judged[i];
        if (it == OUT ? call->writes == OUT : !(call->takes & A(it))) continue;
        expect_result(call, &given, ARGUMENTS, 0, result_of_length(call, it), "next refusal");
        given.of[it].len = good->of[it].len;
    }
    if (call->takes & A(CTX))
        expect_result(call, &given, ARGUMENTS, 0, call->writes == SIG ? SLH_CONTEXT_TOO_LONG : SLH_INVALID, "last refusal");
    free(given.of[CTX].at);
}

/* A signature with one bit off in R, in the first FORS secret, in the middle and at the end is SLH_INVALID, which is not
   the 1 that other libraries return for a valid signature. */
static void damaged(const struct call *verifying, const struct given *good) {
    const struct bytes *sig = &good->of[SIG];
    const size_t places[] = {0, good->of[RANDOMIZER].len, sig->len / 2, sig->len - 1};
    expect(SLH_INVALID == 30, "not 1", verifying->name, good->set, SLH_INVALID);
    for (size_t i = 0; i < sizeof places / sizeof places[0]; i++) {
        sig->at[places[i]] ^= 1;
        expect_result(verifying, good, ARGUMENTS, 0, SLH_INVALID, "a damaged signature");
        sig->at[places[i]] ^= 1;
    }
}

/* Signs, verifies under the same and under another message, and does so again with arguments that no 2 bytes align. */
static void round_trip(const struct call *signing, const struct call *verifying, struct given *good) {
    good->of[OUT] = good->of[SIG];
    expect(signing->run(good) == SLH_DONE, "result", signing->name, good->set, 0);
    expect_result(verifying, good, ARGUMENTS, 0, SLH_DONE, "valid");
    struct bytes *signed_ = &good->of[signing->takes & A(DIGEST) ? DIGEST : MSG];
    signed_->at[0] ^= 1;
    expect_result(verifying, good, ARGUMENTS, 0, SLH_INVALID, "another message");
    signed_->at[0] ^= 1;
    damaged(verifying, good);

    struct given shifted = *good;
    uint8_t *blocks[ARGUMENTS];
    for (int it = 0; it < ARGUMENTS; it++) {
        blocks[it] = or_stop(malloc(good->of[it].len + 1));
        shifted.of[it].at = blocks[it] + 1;
        if (good->of[it].len > 0) memcpy(shifted.of[it].at, good->of[it].at, good->of[it].len);
    }
    if (is_fast(good->set)) {
        memset(shifted.of[OUT].at, PAINT, shifted.of[OUT].len);
        expect(signing->run(&shifted) == SLH_DONE, "result, unaligned", signing->name, good->set, 0);
        expect(memcmp(shifted.of[OUT].at, good->of[SIG].at, good->of[SIG].len) == 0, "bytes, unaligned", signing->name,
               good->set, 0);
    }
    expect(verifying->run(&shifted) == SLH_DONE, "result, unaligned", verifying->name, good->set, 0);
    for (int it = 0; it < ARGUMENTS; it++) free(blocks[it]);
}

/* The front as FIPS 205, section 11.2, and Algorithm 24 have it: R, the public key, 0, the length of the context and
   the context. Of a signature shorter than R it has just the length. */
static struct bytes wanted_front(const struct given *given) {
    size_t n = given->of[RANDOMIZER].len, len = given->of[CTX].len;
    struct bytes made = painted(3 * n + 2 + len);
    if (given->of[SIG].len < n) return made;
    memcpy(made.at, given->of[SIG].at, n);
    memcpy(made.at + n, given->of[PK].at, 2 * n);
    made.at[3 * n] = 0;
    made.at[3 * n + 1] = (uint8_t)len;
    if (len > 0) memcpy(made.at + 3 * n + 2, given->of[CTX].at, len);
    return made;
}

/* What the two calls say of a message, by the hash of their front and the message: by SHA-256 for n = 16, else by
   SHA-512. */
static uint32_t by_pieces(const struct given *good) {
    struct given given = *good;
    unsigned bits = given.of[RANDOMIZER].len == 16 ? 32 : 64;
    struct bytes wanted = wanted_front(good), text = painted(wanted.len + given.of[MSG].len);
    uint64_t state[8];
    given.of[OUT] = painted(wanted.len);
    given.of[HASH] = painted(bits);
    uint32_t result = verify_front(&given);
    if (result == SLH_DONE) {
        expect(memcmp(given.of[OUT].at, wanted.at, wanted.len) == 0, "bytes", "verify_front", good->set, wanted.len);
        memcpy(text.at, given.of[OUT].at, wanted.len);
        if (given.of[MSG].len > 0) memcpy(text.at + wanted.len, given.of[MSG].at, given.of[MSG].len);
        sha2_first(state, bits);
        sha2_end(state, bits, text.at, text.len, text.len, given.of[HASH].at);
        result = verify_hashed(&given);
    } else
        expect(is_painted(given.of[OUT]), "unchanged", "verify_front", good->set, wanted.len);
    struct bytes made[] = {wanted, text, given.of[OUT], given.of[HASH]};
    for (size_t i = 0; i < sizeof made / sizeof made[0]; i++) free(made[i].at);
    return result;
}

/* The two calls say what slh_verify says: of this message, context, signature and key, where one bit of one of them is
   another, and where one of the first three has another length. */
static void pieces_as_whole(const struct given *good) {
    static const enum argument changed[] = {MSG, CTX, SIG, PK};
    const size_t lens[] = {0, 1, 8, 9, 10, 100, 255, 256, good->of[SIG].len - 1, good->of[SIG].len + 1};
    expect(verify(good) == SLH_DONE && by_pieces(good) == SLH_DONE, "valid", "verify_hashed", good->set, 0);
    for (size_t i = 0; i < sizeof changed / sizeof changed[0]; i++) {
        struct given given = *good;
        struct bytes own = good->of[changed[i]];
        const size_t places[] = {0, own.len / 2, own.len - 1};
        given.of[changed[i]] = copy(own, own.len);
        for (size_t at = 0; at < 3; at++) {
            given.of[changed[i]].at[places[at]] ^= 1;
            expect(verify(&given) == SLH_INVALID && by_pieces(&given) == SLH_INVALID, "another bit", "verify_hashed",
                   good->set, i);
            given.of[changed[i]].at[places[at]] ^= 1;
        }
        for (size_t l = 0; changed[i] != PK && l < sizeof lens / sizeof lens[0]; l++) {
            free(given.of[changed[i]].at);
            given.of[changed[i]] = copy(own, lens[l]);
            uint32_t wanted = lens[l] == own.len ? SLH_DONE : SLH_INVALID;
            expect(verify(&given) == wanted && by_pieces(&given) == wanted, "another length", "verify_hashed",
                   good->set, lens[l]);
        }
        free(given.of[changed[i]].at);
    }
}

/* The refusals of both calls, each and in their order: a set, then the key, then the front or the hash; and what is
   invalid after them. */
static void pieces_refused(const struct given *good) {
    struct given given = *good;
    given.of[OUT] = wanted_front(good);
    size_t front = given.of[OUT].len, sig = good->of[SIG].len, hash = good->of[HASH].len;
    const size_t fronts_of[] = {0, 1, front - 1, front + 1, front + 256};
    const size_t hashes_of[] = {0, hash - 1, hash + 1, 96 - hash};
    for (size_t i = 0; i < sizeof fronts_of / sizeof fronts_of[0]; i++)
        expect_result(&fronts, &given, OUT, fronts_of[i], SLH_BAD_OUTPUT_LENGTH, "a front of another length");
    for (size_t i = 0; i < sizeof hashes_of / sizeof hashes_of[0]; i++)
        expect_result(&hashes, &given, HASH, hashes_of[i], SLH_BAD_DIGEST_LENGTH, "a hash of another length");
    expect_result(&hashes, &given, ARGUMENTS, 0, SLH_INVALID, "another hash");
    expect_result(&fronts, &given, CTX, 8, SLH_BAD_OUTPUT_LENGTH, "a shorter context than the front's");
    const struct call *both[] = {&fronts, &hashes};
    for (int i = 0; i < 2; i++) {
        expect_result(both[i], &given, PK, good->of[PK].len - 1, SLH_BAD_LENGTH, "a shorter key");
        expect_result(both[i], &given, PK, good->of[PK].len + 1, SLH_BAD_LENGTH, "a longer key");
        expect_result(both[i], &given, PK, 0, SLH_BAD_LENGTH, "no key");
        expect_result(both[i], &given, SIG, sig - 1, SLH_INVALID, "a shorter signature");
        expect_result(both[i], &given, SIG, sig + 1, SLH_INVALID, "a longer signature");
        expect_result(both[i], &given, SIG, 1, SLH_INVALID, "a signature shorter than R");
        expect_result(both[i], &given, SIG, 0, SLH_INVALID, "no signature");
        other_numbers(both[i], &given);

        struct given wrong = given;
        enum argument last = both[i] == &fronts ? OUT : HASH;
        wrong.set = 0, wrong.of[PK].len--, wrong.of[SIG].len--, wrong.of[last].len--;
        expect_result(both[i], &wrong, ARGUMENTS, 0, SLH_NO_SUCH_SET, "first refusal");
        wrong.set = good->set;
        expect_result(both[i], &wrong, ARGUMENTS, 0, SLH_BAD_LENGTH, "second refusal");
        wrong.of[PK].len++;
        expect_result(both[i], &wrong, ARGUMENTS, 0, last == OUT ? SLH_BAD_OUTPUT_LENGTH : SLH_BAD_DIGEST_LENGTH,
                      "third refusal");
        wrong.of[last].len++;
        expect_result(both[i], &wrong, ARGUMENTS, 0, SLH_INVALID, "last");
    }
    free(given.of[OUT].at);
}

/* The longest context and none, for the fast sets: signed and found valid. */
static void pieces_under_contexts(const struct given *good) {
    const size_t lens[] = {255, 0};
    for (size_t i = 0; i < 2; i++) {
        struct given given = *good;
        given.of[CTX] = copy(good->of[CTX], lens[i]);
        given.of[OUT] = given.of[SIG] = painted(good->of[SIG].len);
        expect(sign(&given) == SLH_DONE && verify(&given) == SLH_DONE && by_pieces(&given) == SLH_DONE, "a context",
               "verify_hashed", good->set, lens[i]);
        free(given.of[CTX].at);
        free(given.of[SIG].at);
    }
}

/* A call that signs two times writes the bytes of the call that signs once. */
static void twice_is_once(const struct given *good) {
    uint32_t (*const pairs[][2])(const struct given *) = {
        {sign, sign_twice}, {hash_sign, hash_sign_twice}, {hash_sign_digest, hash_sign_digest_twice}};
    for (size_t i = 0; i < sizeof pairs / sizeof pairs[0]; i++) {
        struct given once = *good, twice = *good;
        once.of[OUT] = painted(good->of[SIG].len);
        twice.of[OUT] = painted(good->of[SIG].len);
        expect(pairs[i][0](&once) == SLH_DONE && pairs[i][1](&twice) == SLH_DONE &&
                   memcmp(once.of[OUT].at, twice.of[OUT].at, good->of[SIG].len) == 0,
               "bytes of signing two times", "pair", good->set, i);
        free(once.of[OUT].at);
        free(twice.of[OUT].at);
    }
}

static void set_by_set(void) {
    for (uint32_t set = 1; set <= SETS; set++) {
        struct given good = in_rule(set, set);
        expect(check(&good) == SLH_DONE, "result", "check", set, 0);
        good.of[SK].at[good.of[SK].len - 1] ^= 1;
        expect(check(&good) == SLH_INVALID, "another root", "check", set, 0);
        good.of[SK].at[good.of[SK].len - 1] ^= 1;
        if (is_fast(set)) twice_is_once(&good);
        for (int i = 0; i < CALLS; i++) {
            const struct call *call = &calls[i];
            good.of[OUT] = good.of[call->writes == OUT ? SIG : call->writes];
            if (call->writes == SIG && call[1].takes & A(SIG) && (is_fast(set) || i == PURE))
                round_trip(call, call + 1, &good);
            else if (call->writes == OUT && call->takes & A(SIG) && !is_fast(set) && i != PURE + 1)
                continue; /* there is no signature of this form */
            other_lengths(call, &good);
            other_contexts(call, &good);
            other_numbers(call, &good);
            order(call, &good);
            if (i != PURE) continue;
            pieces_as_whole(&good);
            pieces_refused(&good);
            if (is_fast(set)) pieces_under_contexts(&good);
        }
        drop(good);
    }
}

static void lengths(void) {
    static const size_t macros[SETS][4] = {
#define ROW(set) {set##_PUBLIC_KEY, set##_SECRET_KEY, set##_SIGNATURE, set##_N}
        ROW(SLH_DSA_SHA2_128S), ROW(SLH_DSA_SHA2_128F), ROW(SLH_DSA_SHA2_192S),
        ROW(SLH_DSA_SHA2_192F), ROW(SLH_DSA_SHA2_256S), ROW(SLH_DSA_SHA2_256F),
    };
    static const uint32_t none[] = {0, 7, 0xffffffffu};
    const size_t most[4] = {SLH_MAX_PUBLIC_KEY, SLH_MAX_SECRET_KEY, SLH_MAX_SIGNATURE, SLH_MAX_N};
    for (uint32_t set = SLH_DSA_SHA2_128S; set <= SLH_DSA_SHA2_256F; set++) {
        size_t of[4] = {0, 0, 0, 0};
        expect(slh_lengths(set, &of[0], &of[1], &of[2], &of[3]) == SLH_DONE, "result", "lengths", set, 0);
        for (int i = 0; i < 4; i++) {
            expect(of[i] == macros[set - 1][i], "a macro", "lengths", set, (size_t)i);
            expect(of[i] <= most[i], "the largest", "lengths", set, (size_t)i);
        }
    }
    for (int i = 0; i < 3; i++) {
        size_t of[4] = {1, 2, 3, 4};
        expect(slh_lengths(none[i], &of[0], &of[1], &of[2], &of[3]) == SLH_NO_SUCH_SET, "result", "lengths", none[i], 0);
        expect(of[0] == 1 && of[1] == 2 && of[2] == 3 && of[3] == 4, "unchanged", "lengths", none[i], 0);
    }
}

static void names(void) {
    static const struct {
        uint32_t number;
        const char *name;
    } table[] = {
        {SLH_CONTEXT_TOO_LONG, "ContextTooLong"},           {SLH_BAD_LENGTH, "BadLength"},
        {SLH_NO_SUCH_SET, "NoSuchSet"},                     {SLH_NO_SUCH_FUNCTION, "NoSuchFunction"},
        {SLH_BAD_SEED_LENGTH, "BadSeedLength"},             {SLH_BAD_DIGEST_LENGTH, "BadDigestLength"},
        {SLH_BAD_RANDOMIZER_LENGTH, "BadRandomizerLength"}, {SLH_BAD_OUTPUT_LENGTH, "BadOutputLength"},
        {SLH_NO_SUCH_REFUSAL, "NoSuchRefusal"},             {SLH_BAD_CUTTING, "BadCutting"},
        {SLH_BAD_ANSWERS_LENGTH, "BadAnswersLength"},       {SLH_ANSWERS_DISAGREE, "AnswersDisagree"},
        {SLH_NO_SUCH_JOB, "NoSuchJob"},                     {SLH_BAD_START_LENGTH, "BadStartLength"},
        {SLH_BAD_START, "BadStart"},                        {SLH_FAULT, "Fault"},
        {SLH_NOT_A_KEY_FILE, "NotAKeyFile"},                {SLH_UNKNOWN_SET, "UnknownSet"},
        {SLH_BAD_HEX, "BadHex"},                            {SLH_BAD_KEY_LENGTH, "BadKeyLength"},
        {SLH_TRAILING_BYTES, "TrailingBytes"},              {SLH_SELF_TEST_FAILED, "SelfTestFailed"},
        {SLH_NO_SUCH_KIND, "NoSuchKind"},
#ifdef SLH_PORTABLE
        {SLH_NO_MEMORY, "NoMemory"},
#endif
        {SLH_OLD_PROCESSOR, "OldProcessor"},
    };
    /* The last one is of the library of several levels alone. */
    size_t rows = sizeof table / sizeof table[0] - (slh_level() == 0), found = 0;
    for (uint32_t number = 0; number < 300; number++) {
        const char *wanted = NULL;
        for (size_t i = 0; i < rows; i++)
            if (table[i].number == number) wanted = table[i].name;
        char name[SLH_MAX_NAME];
        memset(name, PAINT, sizeof name);
        uint32_t result = slh_refusal_name(number, name, sizeof name);
        if (wanted == NULL) {
            struct bytes out = {(uint8_t *)name, sizeof name};
            expect(result == SLH_NO_SUCH_REFUSAL && is_painted(out), "no name", "refusal_name", number, 0);
            continue;
        }
        found++;
        size_t len = strlen(wanted), zeros = 0;
        while (zeros < sizeof name && name[sizeof name - 1 - zeros] == 0) zeros++;
        expect(result == SLH_DONE && zeros == sizeof name - len && strcmp(name, wanted) == 0, "name", "refusal_name", number, 0);
        char *exact = or_stop(malloc(len + 1));
        expect(slh_refusal_name(number, exact, len + 1) == SLH_DONE && strcmp(exact, wanted) == 0, "just room",
               "refusal_name", number, len);
        expect(slh_refusal_name(number, exact, len) == SLH_BAD_OUTPUT_LENGTH, "too short", "refusal_name", number, len);
        expect(slh_refusal_name(number, NULL, 0) == SLH_BAD_OUTPUT_LENGTH, "null", "refusal_name", number, 0);
        free(exact);
    }
    expect(found == rows, "all names", "refusal_name", 0, found);
}

/* Each result has a sentence of its own, and every other number the same one. */
static void texts(void) {
    static const uint32_t results[] = {
        SLH_DONE, SLH_CONTEXT_TOO_LONG, SLH_BAD_LENGTH, SLH_BAD_CUTTING, SLH_NO_SUCH_SET, SLH_NO_SUCH_FUNCTION,
        SLH_BAD_SEED_LENGTH, SLH_BAD_DIGEST_LENGTH, SLH_BAD_RANDOMIZER_LENGTH, SLH_BAD_OUTPUT_LENGTH,
        SLH_NO_SUCH_REFUSAL, SLH_BAD_ANSWERS_LENGTH, SLH_ANSWERS_DISAGREE, SLH_NO_SUCH_JOB, SLH_BAD_START_LENGTH,
        SLH_BAD_START, SLH_INVALID, SLH_NO_MEMORY, SLH_FAULT, SLH_OLD_PROCESSOR, SLH_SELF_TEST_FAILED,
        SLH_NOT_A_KEY_FILE, SLH_UNKNOWN_SET, SLH_BAD_HEX, SLH_BAD_KEY_LENGTH, SLH_TRAILING_BYTES, SLH_NO_SUCH_KIND,
    };
    const char *none = slh_refusal_text(0xffffffffu);
    size_t found = 0;
    expect(strstr(none, "no result") != NULL, "text of no result", "refusal_text", 0, 0);
    for (uint32_t number = 0; number < 300; number++) found += strcmp(slh_refusal_text(number), none) != 0;
    expect(found == sizeof results / sizeof *results, "as many texts as results", "refusal_text", 0, found);
    for (size_t i = 0; i < sizeof results / sizeof *results; i++) {
        const char *text = slh_refusal_text(results[i]);
        int is_own = strlen(text) > 10 && strcmp(text, none) != 0;
        for (size_t other = 0; other < i; other++) is_own &= strcmp(text, slh_refusal_text(results[other])) != 0;
        expect(is_own, "a text of its own", "refusal_text", results[i], i);
    }
}

/* What one thread does over and over: a signature, which must be the one that was made alone, and its verifying. */
static void *in_thread(void *handed) {
    struct given *given = handed;
    struct bytes alone = given->of[OUT];
    given->of[OUT] = given->of[SIG];
    size_t wrong = 0;
    for (int i = 0; i < 8; i++) {
        memset(given->of[OUT].at, PAINT, given->of[OUT].len);
        wrong += sign(given) != SLH_DONE || memcmp(given->of[OUT].at, alone.at, alone.len) != 0;
        wrong += verify(given) != SLH_DONE;
    }
    given->of[OUT] = alone;
    return wrong == 0 ? handed : NULL;
}

static void threads(void) {
    pthread_t all[THREADS];
    struct given of[THREADS];
    for (uint32_t i = 0; i < THREADS; i++) {
        of[i] = in_rule(i % 2 == 0 ? SLH_DSA_SHA2_128F : SLH_DSA_SHA2_192F, 1);
        of[i].of[MSG].at[0] = (uint8_t)i;
        of[i].of[OUT] = painted(of[i].of[SIG].len);
        expect(sign(&of[i]) == SLH_DONE, "result, alone", "sign", of[i].set, i);
    }
    for (int i = 0; i < THREADS; i++)
        if (pthread_create(&all[i], NULL, in_thread, &of[i]) != 0) exit(2);
    for (int i = 0; i < THREADS; i++) {
        void *well = NULL;
        expect(pthread_join(all[i], &well) == 0 && well == &of[i], "threads at once", "sign and verify", of[i].set, (size_t)i);
        free(of[i].of[OUT].at);
        drop(of[i]);
    }
}

int main(void) {
    lengths();
    names();
    texts();
    set_by_set();
    threads();
    printf("%d passed, %d failed\n", passed, failed);
    return failed != 0;
}
