/*
 * Compares a block by the proved functions of the kit's `sha2` (model_compress, long_model_compress) with the same by
 * SHA instructions: SHA-256 of x86-64 (c/exports/sha256_x86.c), SHA-256 and SHA-512 of ARM (c/exports/sha2_arm.c). It
 * does so on random bytes, on words such as 0 and the highest bit, on single bits, on a mixture, and on each input that
 * differs in one bit from zeros or from ones. Blocks begin at any address.
 */
#include "drawn_words.h"

void model_compress(void *state, const uint8_t *block, size_t block_len);
void slh_sha256(void *state, const uint8_t *block, size_t block_len);
void long_model_compress(void *state, const uint8_t *block, size_t block_len);
void slh_sha512(void *state, const uint8_t *block, size_t block_len);

static const struct function {
    void (*model)(void *state, const uint8_t *block, size_t block_len);
    void (*instructions)(void *state, const uint8_t *block, size_t block_len);
    size_t word; /* a hash value has eight words, and a block sixteen */
} functions[] = {
    {model_compress, slh_sha256, 4},
#ifdef __aarch64__
    {long_model_compress, slh_sha512, 8},
#endif
};
enum { FUNCTIONS = sizeof functions / sizeof *functions };

enum { MOST_STATE = 64, MOST_BLOCK = 128, MOST_INPUT = MOST_STATE + MOST_BLOCK, PLACES = 16, AROUND = 0x5a };

/* Nothing round the hash value is written, and nothing of the block. */
static void compare(const struct function *of, const uint8_t *it, int place) {
    _Alignas(8) uint8_t model[MOST_STATE], room[MOST_STATE + 16];
    uint8_t bytes[MOST_BLOCK + PLACES];
    size_t state = 8 * of->word, block = 16 * of->word, at = of->word;
    memset(room, AROUND, sizeof room);
    memcpy(model, it, state);
    memcpy(room + at, it, state);
    memcpy(bytes + place, it + state, block);
    of->model(model, it + state, block);
    of->instructions(room + at, bytes + place, block);
    int same = memcmp(model, room + at, state) == 0 && memcmp(bytes + place, it + state, block) == 0;
    for (size_t i = 0; i < at; i++) same &= room[i] == AROUND && room[at + state + i] == AROUND;
    same ? passed++ : failed++;
}

static void compare_all(const uint8_t *it, long number) {
    for (int i = 0; i < FUNCTIONS; i++) compare(&functions[i], it, (int)(number % PLACES));
}

int main(int count, char **words) {
    _Alignas(8) uint8_t it[MOST_INPUT];
    return compare_inputs(it, sizeof it, count, words);
}
