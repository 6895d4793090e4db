/*
 * Steps of WOTS+ chains of 16 bytes (FIPS 205, section 5) by the SHA instructions of x86-64, as x86_model.py compiles
 * them for llvm-mca. The library has no such code. As in crates/slh_lanes/src/chains.rt a step shares its first four
 * rounds with the other steps, and the bodies of `four_rounds` and `next_words` take the instructions. CHAINS chains
 * take their steps side by side.
 */
typedef unsigned word;
typedef word quad __attribute__((vector_size(16)));
typedef int raw __attribute__((vector_size(16)));
enum { N = 16, WORDS = N / 4 };
struct state {
    quad abcd, efgh;
};

static const word K[64] = {
    0x428a2f98, 0x71374491, 0xb5c0fbcf, 0xe9b5dba5, 0x3956c25b, 0x59f111f1, 0x923f82a4, 0xab1c5ed5,
    0xd807aa98, 0x12835b01, 0x243185be, 0x550c7dc3, 0x72be5d74, 0x80deb1fe, 0x9bdc06a7, 0xc19bf174,
    0xe49b69c1, 0xefbe4786, 0x0fc19dc6, 0x240ca1cc, 0x2de92c6f, 0x4a7484aa, 0x5cb0a9dc, 0x76f988da,
    0x983e5152, 0xa831c66d, 0xb00327c8, 0xbf597fc7, 0xc6e00bf3, 0xd5a79147, 0x06ca6351, 0x14292967,
    0x27b70a85, 0x2e1b2138, 0x4d2c6dfc, 0x53380d13, 0x650a7354, 0x766a0abb, 0x81c2c92e, 0x92722c85,
    0xa2bfe8a1, 0xa81a664b, 0xc24b8b70, 0xc76c51a3, 0xd192e819, 0xd6990624, 0xf40e3585, 0x106aa070,
    0x19a4c116, 0x1e376c08, 0x2748774c, 0x34b0bcb5, 0x391c0cb3, 0x4ed8aa4a, 0x5b9cca4f, 0x682e6ff3,
    0x748f82ee, 0x78a5636f, 0x84c87814, 0x8cc70208, 0x90befffa, 0xa4506ceb, 0xbef9a3f7, 0xc67178f2,
};

static inline quad two_rounds(quad cdgh, quad abef, quad x) {
    return (quad)__builtin_ia32_sha256rnds2((raw)cdgh, (raw)abef, (raw)x);
}

static inline struct state four_rounds(struct state v, quad x) {
    quad abef = __builtin_shufflevector(v.abcd, v.efgh, 5, 4, 1, 0);
    quad cdgh = __builtin_shufflevector(v.abcd, v.efgh, 7, 6, 3, 2);
    quad half = two_rounds(cdgh, abef, x);
    quad whole = two_rounds(abef, half, __builtin_shufflevector(x, x, 2, 3, -1, -1));
    return (struct state){__builtin_shufflevector(whole, half, 3, 2, 7, 6),
                          __builtin_shufflevector(whole, half, 1, 0, 5, 4)};
}

static inline quad next_words(quad w0, quad w1, quad w2, quad w3) {
    quad half = (quad)__builtin_ia32_sha256msg1((raw)w0, (raw)w1);
    return (quad)__builtin_ia32_sha256msg2((raw)(half + __builtin_shufflevector(w2, w3, 1, 2, 3, 4)), (raw)w3);
}

/* The sixteen bits at the end of a word, and those at the begin of the next. */
static inline word halves(word x, word y) { return x << 16 | y >> 16; }

/* Runs chains on from their values after `from` steps. `begun` has their states after the rounds that steps share. */
void chain(const struct state *of_seed, const struct state *begun, const word (*adrs)[5], word (*x)[WORDS], word from,
           word count) {
    const struct state before = *of_seed;
    word nodes[CHAINS][WORDS];
    for (int c = 0; c < CHAINS; c++)
        for (int i = 0; i < WORDS; i++) nodes[c][i] = x[c][i];
    for (word step = from; step < from + count; step++) {
        struct state v[CHAINS];
        quad w[CHAINS][4];
        for (int c = 0; c < CHAINS; c++) {
            const word *a = adrs[c], *m = nodes[c];
            v[c] = begun[c];
            w[c][0] = (quad){a[0], a[1], a[2], a[3]};
            w[c][1] = (quad){a[4], halves(step, m[0]), halves(m[0], m[1]), halves(m[1], m[2])};
            w[c][2] = (quad){halves(m[2], m[3]), halves(m[3], 0x80000000), 0, 0};
            w[c][3] = (quad){0, 0, 0, 8 * (64 + 22 + N)};
        }
#pragma clang loop unroll(full)
        for (int t = 1; t < 16; t++)
            for (int c = 0; c < CHAINS; c++) {
                const quad k = {K[4 * t], K[4 * t + 1], K[4 * t + 2], K[4 * t + 3]};
                quad *ring = w[c], *now = ring + t % 4;
                if (t >= 4) *now = next_words(*now, ring[(t + 1) % 4], ring[(t + 2) % 4], ring[(t + 3) % 4]);
                v[c] = four_rounds(v[c], *now + k);
            }
        for (int c = 0; c < CHAINS; c++)
            for (int i = 0; i < WORDS; i++) nodes[c][i] = before.abcd[i] + v[c].abcd[i];
    }
    for (int c = 0; c < CHAINS; c++)
        for (int i = 0; i < WORDS; i++) x[c][i] = nodes[c][i];
}
