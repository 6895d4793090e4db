/*
 * Compares four functions of slh_lanes::instructions as they are proved (model_) with what the rules of tools/ make of
 * them (rule_): on random words, on words such as 0 and the highest bit, on single bits, on a mixture, and on each input
 * that differs in one bit from zeros or from ones.
 */
#include "drawn_words.h"

void model_four_rounds(void *to, const void *state, const void *sums);
void rule_four_rounds(void *to, const void *state, const void *sums);
void model_two_rounds(void *to, const void *state, const void *sums);
void rule_two_rounds(void *to, const void *state, const void *sums);
void model_next_words(void *to, const void *w0, const void *w1, const void *w2, const void *w3);
void rule_next_words(void *to, const void *w0, const void *w1, const void *w2, const void *w3);
void model_next_pair(void *to, const void *w0, const void *w2, const void *w9, const void *w14);
void rule_next_pair(void *to, const void *w0, const void *w2, const void *w9, const void *w14);

/* Bytes of a vector, and of the longest input and result. */
enum { VECTOR = 16, INPUT = 5 * VECTOR, RESULT = 4 * VECTOR };

static void compare(const unsigned char *model, const unsigned char *rule, size_t len) {
    memcmp(model, rule, len) == 0 ? passed++ : failed++;
}

static void compare_all(const uint8_t *it, long number) {
    (void)number;
    unsigned char model[RESULT], rule[RESULT];
    model_four_rounds(model, it, it + 2 * VECTOR);
    rule_four_rounds(rule, it, it + 2 * VECTOR);
    compare(model, rule, 2 * VECTOR);
    model_two_rounds(model, it, it + 4 * VECTOR);
    rule_two_rounds(rule, it, it + 4 * VECTOR);
    compare(model, rule, 4 * VECTOR);
    model_next_words(model, it, it + VECTOR, it + 2 * VECTOR, it + 3 * VECTOR);
    rule_next_words(rule, it, it + VECTOR, it + 2 * VECTOR, it + 3 * VECTOR);
    compare(model, rule, VECTOR);
    model_next_pair(model, it, it + VECTOR, it + 2 * VECTOR, it + 3 * VECTOR);
    rule_next_pair(rule, it, it + VECTOR, it + 2 * VECTOR, it + 3 * VECTOR);
    compare(model, rule, VECTOR);
}

int main(int count, char **words) {
    uint8_t it[INPUT];
    return compare_inputs(it, INPUT, count, words);
}
