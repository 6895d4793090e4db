/*
 * The program of tests of instructions, which compare two functions. It has words drawn: random ones, ones such as 0 and
 * the highest bit, single bits, and a mixture. The file that includes this has the length INPUT and `compare_all`, which
 * counts. Usage: PROGRAM TRIES SEED.
 */
#ifndef DRAWN_WORDS_H
#define DRAWN_WORDS_H

#include <stdint.h>
#include <stdio.h>
#include <stdlib.h>
#include <string.h>

static const uint64_t corners[] = {0, 1, 0x7fffffff7fffffff, 0x8000000080000000, UINT64_MAX, 0x5555555555555555,
                                   0x8000000000000000, 0xfffffffffffffffe};
static uint64_t drawn;

/* SplitMix64. */
static uint64_t draw(void) {
    uint64_t z = drawn += 0x9e3779b97f4a7c15;
    z = (z ^ z >> 30) * 0xbf58476d1ce4e5b9;
    z = (z ^ z >> 27) * 0x94d049bb133111eb;
    return z ^ z >> 31;
}

static uint64_t word_of_kind(int kind) {
    uint64_t it = draw();
    if (kind == 3) kind = it >> 60 & 3 ? 1 : 0;
    return kind == 0 ? it : kind == 1 ? corners[it & 7] : (uint64_t)1 << (it & 63);
}

enum { KINDS = 4 };
static long passed, failed;

/* Compares the functions on an input. `number` is how many were before it. */
static void compare_all(const uint8_t *it, long number);

/* On inputs of each kind in turn, and on each that differs in one bit from zeros or from ones. */
static int compare_inputs(uint8_t *it, size_t len, int count, char **words) {
    if (count != 3) return 2;
    long tries = atol(words[1]);
    drawn = strtoull(words[2], NULL, 10);
    for (long i = 0; i < tries; i++) {
        for (size_t k = 0; k < len; k += 8) {
            uint64_t word = word_of_kind((int)(i % KINDS));
            memcpy(it + k, &word, sizeof word);
        }
        compare_all(it, i / KINDS);
    }
    for (size_t i = 0; i < 16 * len; i++) {
        memset(it, i % 2 ? 0xff : 0, len);
        it[i / 16] ^= (uint8_t)(1 << i / 2 % 8);
        compare_all(it, (long)i / 2);
    }
    printf("%ld passed, %ld failed\n", passed, failed);
    return failed != 0;
}

#endif
