/*
 * Makes calls of the library for C that it is told on standard input, for tests/library_vectors.py --through: so that a
 * library for another processor can be called, by an emulator.
 *
 * A line is a call: its name, and its arguments between spaces. `nNUMBER` is a number; `bHEX` a pointer to a block of
 * just these bytes, and their number; `pHEX` such a pointer alone, to a number that is written with its lowest byte
 * first. For each line it writes one: the number that is returned, and what the bytes of each b and p are then.
 * slh_verify_many has four b for each item, and one for the verdicts, four bytes each, the lowest first.
 * tests/target_calls.mjs does the same over WebAssembly. It takes C99 alone, 32 bits or 64, in any order of bytes.
 * With -DVERIFY_ONLY it has the calls of slh_verify.h alone, and with -DBARE it takes no C library (bare.h). With
 * -DHOOKED, too, `hooked` tells how often slh_between_layers was called.
 */
#ifdef VERIFY_ONLY
#include <slh_verify.h>
#else
#include <slh_internal.h>
#endif

#ifdef BARE
#include "bare.h"
#else
#include <stdio.h>
#include <stdlib.h>
#include <string.h>
#endif

#ifdef VERIFY_ONLY
enum { MOST = 16 };
#else
enum { MOST = 40 };
#endif

static struct {
    uint32_t number;
    uint8_t *at;
    size_t len;
    char kind;
} given[MOST];

/* The numbers that a call writes, as this machine has them. */
static size_t sizes[MOST];
static uint32_t words[MOST];

#define N(i) given[i].number
#define B(i) given[i].at, given[i].len
#define S(i) take(i, 1)
#define W(i) (take(i, 0), &words[i])

static uint64_t get(int i) {
    uint64_t number = 0;
    for (size_t at = given[i].len; at > 0; at--) number = number << 8 | given[i].at[at - 1];
    return number;
}

static size_t *take(int i, int is_size) {
    given[i].kind = is_size ? 's' : 'w';
    sizes[i] = (size_t)get(i);
    words[i] = (uint32_t)get(i);
    return &sizes[i];
}

/* Puts what a call wrote into a number back into its bytes. */
static void put_back(int i) {
    uint64_t number = given[i].kind == 's' ? sizes[i] : words[i];
    if (given[i].kind != 's' && given[i].kind != 'w') return;
    for (size_t at = 0; at < given[i].len; at++) given[i].at[at] = (uint8_t)(number >> 8 * at);
}

#ifdef HOOKED
/* How often the archive of a board called its hook since the last such call. */
static uint32_t layers;

void slh_between_layers(void);
void slh_between_layers(void) { layers++; }

static uint32_t hooked(void) {
    uint32_t found = layers;
    layers = 0;
    return found;
}
#endif

#ifndef VERIFY_ONLY
/* The call whose arguments are a number, four of bytes for each item, and those for the verdicts. */
static uint32_t verify_many(int count) {
    slh_signed items[MOST / 4];
    uint32_t verdicts[MOST / 4], result;
    size_t items_len = 0, verdicts_len = given[count - 1].len / 4;
    for (int i = 1; i + 4 < count; i += 4)
        items[items_len++] = (slh_signed){given[i].at,     given[i].len,     given[i + 1].at, given[i + 1].len,
                                          given[i + 2].at, given[i + 2].len, given[i + 3].at, given[i + 3].len};
    result = slh_verify_many(N(0), items, items_len, verdicts, verdicts_len);
    for (size_t at = 0; at < 4 * verdicts_len; at++)
        given[count - 1].at[at] = (uint8_t)(verdicts[at / 4] >> 8 * (at % 4));
    return result;
}
#endif

#define CALL(name, ...)                                                                                                \
    if (strcmp(call, #name) == 0) return name(__VA_ARGS__)

static uint32_t run(const char *call, int count) {
    CALL(slh_verify, N(0), B(1), B(2), B(3), B(4));
    CALL(slh_hash_verify, N(0), N(1), B(2), B(3), B(4), B(5));
    CALL(slh_hash_verify_digest, N(0), N(1), B(2), B(3), B(4), B(5));
    CALL(slh_verify_hardened, N(0), B(1), B(2), B(3), B(4));
    CALL(slh_hash_verify_digest_hardened, N(0), N(1), B(2), B(3), B(4), B(5));
#ifdef VERIFY_ONLY
    (void)take, (void)count;
#ifdef HOOKED
    if (strcmp(call, "hooked") == 0) return hooked();
#endif
#else
    CALL(slh_lengths, N(0), S(1), S(2), S(3), S(4));
    CALL(slh_keygen, N(0), B(1), B(2), B(3), B(4));
    CALL(slh_public, N(0), B(1), B(2));
    CALL(slh_check, N(0), B(1));
    CALL(slh_key_read, B(0), W(1), W(2), B(3));
    CALL(slh_key_write, N(0), N(1), B(2), (char *)B(3));
    CALL(slh_der_read, B(0), W(1), W(2), B(3));
    CALL(slh_pem_read, B(0), W(1), W(2), B(3));
    CALL(slh_der_write, N(0), N(1), B(2), W(3), B(4));
    CALL(slh_pem_write, N(0), N(1), B(2), W(3), B(4));
    CALL(slh_self_test, N(0), B(1));
    CALL(slh_sign, N(0), B(1), B(2), B(3), B(4), B(5));
    CALL(slh_hash_sign, N(0), N(1), B(2), B(3), B(4), B(5), B(6));
    CALL(slh_hash_sign_digest, N(0), N(1), B(2), B(3), B(4), B(5), B(6));
    CALL(slh_sign_twice, N(0), B(1), B(2), B(3), B(4), B(5), B(6));
    CALL(slh_hash_sign_twice, N(0), N(1), B(2), B(3), B(4), B(5), B(6), B(7));
    CALL(slh_hash_sign_digest_twice, N(0), N(1), B(2), B(3), B(4), B(5), B(6), B(7));
    CALL(slh_verify_front, N(0), B(1), B(2), B(3), B(4));
    if (strcmp(call, "slh_verify_many") == 0) return verify_many(count);
    CALL(slh_verify_hashed, N(0), B(1), B(2), B(3));
    CALL(slh_sign_internal, N(0), B(1), B(2), B(3), B(4));
    CALL(slh_verify_internal, N(0), B(1), B(2), B(3));
    CALL(slh_sign_jobs, N(0), N(1), N(2), W(3), S(4), S(5));
    CALL(slh_answer_place, N(0), N(1), N(2), N(3), S(4), S(5));
    CALL(slh_sign_start, N(0), B(1), B(2), B(3), B(4), B(5));
    CALL(slh_hash_sign_start, N(0), N(1), B(2), B(3), B(4), B(5), B(6));
    CALL(slh_sign_job, N(0), N(1), N(2), B(3), B(4), N(5), B(6));
    CALL(slh_sign_join, N(0), N(1), N(2), B(3), B(4), B(5), B(6));
    CALL(slh_keygen_jobs, N(0), N(1), W(2), S(3));
    CALL(slh_keygen_job, N(0), N(1), B(2), B(3), B(4), N(5), B(6));
    CALL(slh_keygen_join, N(0), N(1), B(2), B(3), B(4), B(5), B(6));
    CALL(slh_refusal_name, N(0), (char *)B(1));
#endif
    fprintf(stderr, "no call %s\n", call);
    exit(2);
}

/* The next character of a line: 0 at its end, and at the end of all. */
static int next(void) {
    int it;
    do it = getchar();
    while (it == '\r');
    return it == EOF || it == '\n' ? 0 : it;
}

/* The value of a hexadecimal digit. */
static unsigned digit(int it) { return (unsigned)(it <= '9' ? it - '0' : it - 'a' + 10); }

/* Bytes to the end of a word, in a block of just their number, or null for none. A board has little memory: no more of
   the line is there at once than its bytes. What ended the word is returned. */
static int read_bytes(int i) {
    size_t room = 0;
    int it;
    given[i].len = 0;
    given[i].at = NULL;
    while ((it = next()) != 0 && it != ' ') {
        if (given[i].len == room) given[i].at = realloc(given[i].at, room += 1024);
        if (given[i].at == NULL) exit(2);
        given[i].at[given[i].len++] = (uint8_t)(digit(it) << 4 | digit(next()));
    }
    if (given[i].len > 0) given[i].at = realloc(given[i].at, given[i].len);
    return it;
}

static int read_number(int i) {
    int it;
    given[i].number = 0;
    while ((it = next()) != 0 && it != ' ') given[i].number = 10 * given[i].number + digit(it);
    return it;
}

/* Reads a line: the name of a call to CALL, and its arguments. How many these are, or -1 at the end of all. */
static int read_line(char *call, size_t room) {
    size_t len = 0;
    int it, count = 0;
    while ((it = next()) != 0 && it != ' ' && len + 1 < room) call[len++] = (char)it;
    call[len] = 0;
    if (len == 0) return -1;
    while (it != 0 && count < MOST) {
        given[count].kind = (char)next();
        it = given[count].kind == 'n' ? read_number(count) : read_bytes(count);
        count++;
    }
    return count;
}

static void write_bytes(int i) {
    fputs(" b", stdout);
    for (size_t at = 0; at < given[i].len; at++) printf("%02x", given[i].at[at]);
}

int main(void) {
    char call[64];
    int count;
    while ((count = read_line(call, sizeof call)) >= 0) {
        printf("%u", (unsigned)run(call, count));
        for (int i = 0; i < count; i++) {
            if (given[i].kind == 'n') continue;
            put_back(i);
            write_bytes(i);
        }
        puts("");
        fflush(stdout);
        for (int i = 0; i < count; i++)
            if (given[i].kind != 'n') free(given[i].at);
    }
    return 0;
}
