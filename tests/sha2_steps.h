/*
 * One block of SHA-256 and of SHA-512 (FIPS 180-4, section 6), for tests that compute secrets by themselves. The states
 * are to be seen between blocks, which is what they need of it. tests/library_erase.c includes it, and looks that what
 * is computed so is what a signature publishes.
 */
#ifndef SHA2_STEPS_H
#define SHA2_STEPS_H

#include <stdint.h>

/* The constants of SHA-512, and its first state. Those of SHA-256 are the upper halves, of the first 64 constants. */
static const uint64_t sha2_constants[80] = {
    0x428a2f98d728ae22, 0x7137449123ef65cd, 0xb5c0fbcfec4d3b2f, 0xe9b5dba58189dbbc, 0x3956c25bf348b538,
    0x59f111f1b605d019, 0x923f82a4af194f9b, 0xab1c5ed5da6d8118, 0xd807aa98a3030242, 0x12835b0145706fbe,
    0x243185be4ee4b28c, 0x550c7dc3d5ffb4e2, 0x72be5d74f27b896f, 0x80deb1fe3b1696b1, 0x9bdc06a725c71235,
    0xc19bf174cf692694, 0xe49b69c19ef14ad2, 0xefbe4786384f25e3, 0x0fc19dc68b8cd5b5, 0x240ca1cc77ac9c65,
    0x2de92c6f592b0275, 0x4a7484aa6ea6e483, 0x5cb0a9dcbd41fbd4, 0x76f988da831153b5, 0x983e5152ee66dfab,
    0xa831c66d2db43210, 0xb00327c898fb213f, 0xbf597fc7beef0ee4, 0xc6e00bf33da88fc2, 0xd5a79147930aa725,
    0x06ca6351e003826f, 0x142929670a0e6e70, 0x27b70a8546d22ffc, 0x2e1b21385c26c926, 0x4d2c6dfc5ac42aed,
    0x53380d139d95b3df, 0x650a73548baf63de, 0x766a0abb3c77b2a8, 0x81c2c92e47edaee6, 0x92722c851482353b,
    0xa2bfe8a14cf10364, 0xa81a664bbc423001, 0xc24b8b70d0f89791, 0xc76c51a30654be30, 0xd192e819d6ef5218,
    0xd69906245565a910, 0xf40e35855771202a, 0x106aa07032bbd1b8, 0x19a4c116b8d2d0c8, 0x1e376c085141ab53,
    0x2748774cdf8eeb99, 0x34b0bcb5e19b48a8, 0x391c0cb3c5c95a63, 0x4ed8aa4ae3418acb, 0x5b9cca4f7763e373,
    0x682e6ff3d6b2b8a3, 0x748f82ee5defb2fc, 0x78a5636f43172f60, 0x84c87814a1f0ab72, 0x8cc702081a6439ec,
    0x90befffa23631e28, 0xa4506cebde82bde9, 0xbef9a3f7b2c67915, 0xc67178f2e372532b, 0xca273eceea26619c,
    0xd186b8c721c0c207, 0xeada7dd6cde0eb1e, 0xf57d4f7fee6ed178, 0x06f067aa72176fba, 0x0a637dc5a2c898a6,
    0x113f9804bef90dae, 0x1b710b35131c471b, 0x28db77f523047d84, 0x32caab7b40c72493, 0x3c9ebe0a15c9bebc,
    0x431d67c49c100d4c, 0x4cc5d4becb3e42b6, 0x597f299cfc657e2a, 0x5fcb6fab3ad6faec, 0x6c44198c4a475817};

static const uint64_t sha2_begin[8] = {
    0x6a09e667f3bcc908, 0xbb67ae8584caa73b, 0x3c6ef372fe94f82b, 0xa54ff53a5f1d36f1,
    0x510e527fade682d1, 0x9b05688c2b3e6c1f, 0x1f83d9abfb41bd6b, 0x5be0cd19137e2179};

static uint64_t turned(uint64_t it, unsigned bits, unsigned by) {
    uint64_t all = bits == 64 ? ~(uint64_t)0 : 0xffffffff;
    return ((it >> by) | (it << (bits - by))) & all;
}

/* A step over words of 32 or 64 bits. The distances of FIPS 180-4, section 4.1.2 and 4.1.3, stand in this order: both
   big sigmas, both small ones, whose third is a shift. */
static void sha2_step(uint64_t state[8], const uint8_t *block, unsigned bits, unsigned rounds, const unsigned by[12]) {
    uint64_t all = bits == 64 ? ~(uint64_t)0 : 0xffffffff, w[80], s[8];
    for (unsigned t = 0; t < 16; t++) {
        w[t] = 0;
        for (unsigned i = 0; i < bits / 8; i++) w[t] = w[t] << 8 | block[t * (bits / 8) + i];
    }
    for (unsigned t = 16; t < rounds; t++) {
        uint64_t x = w[t - 15], y = w[t - 2];
        uint64_t low = turned(x, bits, by[6]) ^ turned(x, bits, by[7]) ^ x >> by[8];
        uint64_t high = turned(y, bits, by[9]) ^ turned(y, bits, by[10]) ^ y >> by[11];
        w[t] = (high + w[t - 7] + low + w[t - 16]) & all;
    }
    for (unsigned i = 0; i < 8; i++) s[i] = state[i];
    for (unsigned t = 0; t < rounds; t++) {
        uint64_t k = bits == 64 ? sha2_constants[t] : sha2_constants[t] >> 32, a = s[0], e = s[4];
        uint64_t of_e = turned(e, bits, by[3]) ^ turned(e, bits, by[4]) ^ turned(e, bits, by[5]);
        uint64_t of_a = turned(a, bits, by[0]) ^ turned(a, bits, by[1]) ^ turned(a, bits, by[2]);
        uint64_t one = s[7] + of_e + ((e & s[5]) ^ (~e & s[6])) + k + w[t];
        uint64_t two = of_a + ((a & s[1]) ^ (a & s[2]) ^ (s[1] & s[2]));
        for (unsigned i = 7; i > 0; i--) s[i] = s[i - 1];
        s[4] = (s[4] + one) & all;
        s[0] = (one + two) & all;
    }
    for (unsigned i = 0; i < 8; i++) state[i] = (state[i] + s[i]) & all;
}

static void sha2_first(uint64_t state[8], unsigned bits) {
    for (unsigned i = 0; i < 8; i++) state[i] = bits == 64 ? sha2_begin[i] : sha2_begin[i] >> 32;
}

/* The next block of a state: 64 bytes of SHA-256 where `bits` is 32, 128 bytes of SHA-512 where it is 64. */
static void sha2_block(uint64_t state[8], unsigned bits, const uint8_t *block) {
    static const unsigned by256[12] = {2, 13, 22, 6, 11, 25, 7, 18, 3, 17, 19, 10};
    static const unsigned by512[12] = {28, 34, 39, 14, 18, 41, 1, 8, 7, 19, 61, 6};
    if (bits == 64)
        sha2_step(state, block, 64, 80, by512);
    else
        sha2_step(state, block, 32, 64, by256);
}

/* The state as bytes: 32 of SHA-256, 64 of SHA-512. */
static void sha2_bytes(const uint64_t state[8], unsigned bits, uint8_t *out) {
    for (unsigned i = 0; i < bits; i++) out[i] = (uint8_t)(state[i / (bits / 8)] >> (bits - 8 - 8 * (i % (bits / 8))));
}

/* The last blocks of a text, of whose `total` bytes these `len` are the end, and the rest is in the state. */
static void sha2_end(uint64_t state[8], unsigned bits, const uint8_t *text, uint64_t len, uint64_t total,
                     uint8_t *out) {
    unsigned size = 2 * bits;
    uint8_t block[128];
    for (uint64_t at = 0; at <= len + bits / 4; at += size) {
        for (unsigned i = 0; i < size; i++)
            block[i] = at + i < len ? text[at + i] : at + i == len ? 0x80 : 0;
        if (at + size >= len + 1 + bits / 4)
            for (unsigned i = 0; i < 8; i++) block[size - 8 + i] = (uint8_t)(8 * total >> (56 - 8 * i));
        sha2_block(state, bits, block);
    }
    sha2_bytes(state, bits, out);
}

#endif
