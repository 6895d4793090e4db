/*
 * Compares slh_verify_many with slh_verify, item by item: valid items, and items with another bit, length, key, message
 * or context, in lists of many lengths. The last line has the counts, and the status is 0 where nothing failed.
 * tests/test_library.py compiles and runs it. With an argument, it takes only the sets whose numbers are its digits.
 *
 * Items, verdicts and bytes are blocks of their own, of just the length that is handed in, so that the sanitizers see a
 * read or a write beyond them in the calls of memcpy, memmove and memset.
 */
#include <slh.h>

#include <stdio.h>
#include <stdlib.h>
#include <string.h>

enum { SETS = 6, KEYS = 2, SIGNED = 3, PAINT = 0x5ca5a5a5, EIGHT = 8 };

static int passed, failed;

static void expect(int holds, const char *what, uint32_t set, size_t count, size_t place) {
    holds ? passed++ : failed++;
    if (!holds) printf("failed: %s, set %u, of %zu items the one at %zu\n", what, (unsigned)set, count, place);
}

static void *or_stop(void *it) {
    if (it == NULL) {
        puts("no memory");
        exit(2);
    }
    return it;
}

/* A copy of the bytes in a block of `len` bytes and no more, with a 7 in each place past them. Null for no bytes. */
static uint8_t *copy(const uint8_t *from, size_t from_len, size_t len) {
    if (len == 0) return NULL;
    uint8_t *made = or_stop(malloc(len));
    memset(made, 7, len);
    if (from_len > 0) memcpy(made, from, from_len < len ? from_len : len);
    return made;
}

static slh_signed copy_of(const slh_signed *it) {
    slh_signed made = *it;
    made.pk = copy(it->pk, (size_t)it->pk_len, (size_t)it->pk_len);
    made.msg = copy(it->msg, (size_t)it->msg_len, (size_t)it->msg_len);
    made.ctx = copy(it->ctx, (size_t)it->ctx_len, (size_t)it->ctx_len);
    made.sig = copy(it->sig, (size_t)it->sig_len, (size_t)it->sig_len);
    return made;
}

static void drop(slh_signed it) {
    free((void *)it.pk);
    free((void *)it.msg);
    free((void *)it.ctx);
    free((void *)it.sig);
}

/* Items that are valid: of each of two keys three, with contexts of three lengths. */
static slh_signed good[KEYS * SIGNED];
static size_t n, sig_len;

static void make_good(uint32_t set) {
    static const size_t ctx_lens[SIGNED] = {0, 5, 255}, msg_lens[SIGNED] = {0, 100, 33};
    size_t pk_len, sk_len;
    uint8_t bytes[3 * SLH_MAX_N], sk[SLH_MAX_SECRET_KEY], text[255];
    if (slh_lengths(set, &pk_len, &sk_len, &sig_len, &n) != SLH_DONE) exit(2);
    for (size_t i = 0; i < sizeof text; i++) text[i] = (uint8_t)(7 * i);
    for (size_t key = 0; key < KEYS; key++) {
        for (size_t i = 0; i < 3 * n; i++) bytes[i] = (uint8_t)(i + 50 * key + set);
        if (slh_keygen(set, bytes, n, bytes + n, n, bytes + 2 * n, n, sk, sk_len) != SLH_DONE) exit(2);
        for (size_t i = 0; i < SIGNED; i++) {
            uint8_t *sig = or_stop(malloc(sig_len));
            if (slh_sign(set, sk, sk_len, text, msg_lens[i], text, ctx_lens[i], NULL, 0, sig, sig_len) != SLH_DONE)
                exit(2);
            good[SIGNED * key + i] = (slh_signed){
                copy(sk + 2 * n, pk_len, pk_len),           pk_len,      copy(text, msg_lens[i], msg_lens[i]),
                msg_lens[i],  copy(text, ctx_lens[i], ctx_lens[i]), ctx_lens[i], sig,
                sig_len};
        }
    }
}

/* The ways in which an item is changed. The first is none. */
enum { WAYS = 20 };

static void give_len(const uint8_t **at, uint64_t *len, size_t wanted) {
    uint8_t *made = copy(*at, (size_t)*len, wanted);
    free((void *)*at);
    *at = made;
    *len = wanted;
}

static void flip(const uint8_t *at, size_t place, int bit) { ((uint8_t *)at)[place] ^= (uint8_t)(1 << bit); }

/* A good item, changed in a way. */
static slh_signed changed(size_t item, int way) {
    const slh_signed *other = &good[(item + SIGNED) % (KEYS * SIGNED)];
    slh_signed it = copy_of(&good[item]);
    switch (way) {
    case 1: flip(it.sig, 0, 0); break;
    case 2: flip(it.sig, n, 7); break;
    case 3: flip(it.sig, sig_len / 2, 3); break;
    case 4: flip(it.sig, sig_len - 1, 7); break;
    case 5: give_len(&it.sig, &it.sig_len, sig_len - 1); break;
    case 6: give_len(&it.sig, &it.sig_len, sig_len + 1); break;
    case 7: give_len(&it.sig, &it.sig_len, 0); break;
    case 8: give_len(&it.sig, &it.sig_len, n); break;
    case 9: flip(it.pk, 0, 0); break;
    case 10: flip(it.pk, 2 * n - 1, 7); break;
    case 11: give_len(&it.pk, &it.pk_len, 2 * n - 1); break;
    case 12: give_len(&it.pk, &it.pk_len, 2 * n + 1); break;
    case 13: give_len(&it.pk, &it.pk_len, 0); break;
    case 14: memcpy((void *)it.pk, other->pk, 2 * n); break;
    case 15: give_len(&it.msg, &it.msg_len, (size_t)it.msg_len + 1); break;
    case 16: give_len(&it.ctx, &it.ctx_len, it.ctx_len == 255 ? 254 : (size_t)it.ctx_len + 1); break;
    case 17: give_len(&it.ctx, &it.ctx_len, 256); break;
    case 18: give_len(&it.ctx, &it.ctx_len, 70000); break;
    case 19: memcpy((void *)it.sig, other->sig, sig_len); break;
    default: break;
    }
    return it;
}

/* What the call is to return for an item that is changed in a way. */
static uint32_t wanted_of(int way) {
    return way == 0 ? SLH_DONE : way == 11 || way == 12 || way == 13 ? SLH_BAD_LENGTH : SLH_INVALID;
}

/* Items of these ways, each compared with slh_verify and with what is wanted. */
static void compare(uint32_t set, const int *ways, size_t count) {
    slh_signed *items = count > 0 ? or_stop(malloc(count * sizeof *items)) : NULL;
    uint32_t *verdicts = count > 0 ? or_stop(malloc(count * sizeof *verdicts)) : NULL, first = SLH_DONE;
    for (size_t i = 0; i < count; i++) {
        items[i] = changed(i % (KEYS * SIGNED), ways[i]);
        verdicts[i] = PAINT;
    }
    uint32_t result = slh_verify_many(set, items, count, verdicts, count);
    for (size_t i = 0; i < count; i++) {
        const slh_signed *it = &items[i];
        uint32_t one = slh_verify(set, it->pk, (size_t)it->pk_len, it->msg, (size_t)it->msg_len, it->ctx,
                                  (size_t)it->ctx_len, it->sig, (size_t)it->sig_len);
        expect(verdicts[i] == one && one == wanted_of(ways[i]), "a verdict", set, count, i);
        if (first == SLH_DONE) first = one;
        drop(items[i]);
    }
    expect(result == first, "the result", set, count, 0);
    free(items);
    free(verdicts);
}

/* Pseudorandom numbers, always the same. */
static uint32_t state = 1;

static uint32_t drawn(uint32_t below) {
    state = state * 1664525u + 1013904223u;
    return (state >> 8) % below;
}

/* Mixtures: all valid, all of one way, and one of four changed. */
static void mixtures(uint32_t set) {
    static const size_t counts[] = {0, 1, 7, 8, 9, 15, 16, 17, 64};
    int ways[64];
    for (size_t c = 0; c < sizeof counts / sizeof counts[0]; c++) {
        for (size_t i = 0; i < counts[c]; i++) ways[i] = 0;
        compare(set, ways, counts[c]);
        for (size_t i = 0; i < counts[c]; i++) ways[i] = drawn(4) == 0 ? (int)drawn(WAYS) : 0;
        compare(set, ways, counts[c]);
        for (size_t i = 0; i < counts[c]; i++) ways[i] = (int)((i + c) % WAYS);
        compare(set, ways, counts[c]);
    }
}

/* One changed item at each place of eight and of nine, in each way. */
static void at_each_place(uint32_t set) {
    for (size_t count = EIGHT; count <= EIGHT + 1; count++)
        for (size_t place = 0; place < count; place++)
            for (int way = 1; way < WAYS; way += count == EIGHT ? 1 : 5) {
                int ways[EIGHT + 1] = {0};
                ways[place] = way;
                compare(set, ways, count);
            }
}

/* Refused: each verdict is the refusal, in whatever number, and a number of no set comes first. */
static void refused(uint32_t set) {
    static const uint32_t sets[] = {0, 7, 0xffffffffu};
    static const size_t lens[][2] = {{0, 0}, {0, 3}, {3, 0}, {3, 3}, {8, 9}, {9, 8}};
    int ways[9] = {0};
    slh_signed items[9];
    for (size_t i = 0; i < 9; i++) items[i] = changed(i % (KEYS * SIGNED), ways[i]);
    for (size_t l = 0; l < sizeof lens / sizeof lens[0]; l++)
        for (size_t s = 0; s <= sizeof sets / sizeof sets[0]; s++) {
            size_t count = lens[l][1];
            uint32_t *verdicts = count > 0 ? or_stop(malloc(count * sizeof *verdicts)) : NULL;
            int is_of_set = s == sizeof sets / sizeof sets[0];
            uint32_t wanted = !is_of_set ? SLH_NO_SUCH_SET : lens[l][0] != count ? SLH_BAD_OUTPUT_LENGTH : SLH_DONE;
            for (size_t i = 0; i < count; i++) verdicts[i] = PAINT;
            expect(slh_verify_many(is_of_set ? set : sets[s], lens[l][0] > 0 ? items : NULL, lens[l][0], verdicts,
                                   count) == wanted,
                   "a refusal", set, lens[l][0], count);
            for (size_t i = 0; i < count; i++) expect(verdicts[i] == wanted, "a refused verdict", set, count, i);
            free(verdicts);
        }
    for (size_t i = 0; i < 9; i++) drop(items[i]);
}

int main(int argc, char **argv) {
    expect(sizeof(slh_signed) == 64, "the size of an item", 0, 0, 0);
    for (uint32_t set = 1; set <= SETS; set++) {
        if (argc > 1 && strchr(argv[1], (char)('0' + set)) == NULL) continue;
        make_good(set);
        mixtures(set);
        at_each_place(set);
        refused(set);
        for (size_t i = 0; i < KEYS * SIGNED; i++) drop(good[i]);
    }
    printf("%d passed, %d failed\n", passed, failed);
    return failed != 0;
}
