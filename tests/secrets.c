/*
 * Runs calls that take secrets under valgrind's memcheck, with SK.seed and SK.prf marked as undefined, so that memcheck
 * tells of each branch and of each address that depends on them. tests/test_secrets.py compiles and runs it.
 *
 * What everybody may know is declared public where it arises: R at the entry of h_msg, and a value that a one-time key
 * signs (the FORS public key, and the root of the layer below) at the entry of digits_of. Both are functions inside the
 * library, which valgrind wraps by their names. Only bytes are declared that slh_verify has at the same place, where it
 * is handed nothing but the public key, the message and the signature, which makes them public by definition.
 *
 * With LEAK=1 the library's memcpy has a branch on the first byte that it copies, with LEAK=2 it takes each byte from a
 * table: memcheck must tell of both.
 *
 * usage: secrets SET >SIGNATURES                      SET is the number of a set
 *        valgrind secrets SET SIGNATURES PART..       a part is one of `parts` or of `signing`, or NAME-random
 *
 * The signatures are those that the calls have to give. They are made without memcheck, which takes some fifty times as
 * long. It prints a line for each call, with its part, how many branches and addresses memcheck told of, and how many
 * verdicts there are by SECURITY.md, which are all that it may tell of. The last line has the counts.
 */
#include <slh_internal.h>

#include <stdio.h>
#include <stdlib.h>
#include <string.h>
#include <valgrind/memcheck.h>

enum { MOST_KNOWN = 1024, SETS = 3, WINDOWS = 3, WINDOW_STEP = 4 };

/* The sets whose names end in f: how many XMSS trees a signature has. */
static const struct {
    uint32_t set, d;
} sets[SETS] = {{SLH_DSA_SHA2_128F, 22}, {SLH_DSA_SHA2_192F, 22}, {SLH_DSA_SHA2_256F, 17}};

static const uint8_t msg[] = "a message that is signed", formatted[] = "\0\0a message that is signed";
static const uint32_t function = SLH_SHA2_256;
static const char *part;
static uint32_t set, d, jobs;
static size_t pk_len, sk_len, sig_len, n, start_len, answers_len;
static uint8_t seeds[3 * SLH_MAX_N], sk[SLH_MAX_SECRET_KEY], sig[SLH_MAX_SIGNATURE], start[SLH_MAX_START];
static uint8_t random_bytes[SLH_MAX_N], digest[32], made[SLH_MAX_SIGNATURE], scratch[2 * SLH_MAX_SIGNATURE], *answers;
static FILE *signatures;
static int passed, failed;

static void must(int holds, const char *what) {
    if (holds) return;
    printf("secrets: %s\n0 passed, 1 failed\n", what);
    exit(2);
}

/* What slh_verify has seen, which is what may be declared, and how much of it was. */
static uint8_t known[MOST_KNOWN][SLH_MAX_N];
static size_t known_count, declared;
static uint8_t is_declared[MOST_KNOWN];
static enum { NEITHER, LEARNS, DECLARES } mode;

static size_t place_of(const uint8_t *bytes) {
    size_t at = 0;
    while (at < known_count && memcmp(known[at], bytes, n) != 0) at++;
    return at;
}

/* Whether n bytes may be read: 2 where they are all defined, 1 where not, 0 where they may not be read. */
static int is_readable(const uint8_t *at) {
    static const uint8_t all_defined[SLH_MAX_N];
    uint8_t bits[SLH_MAX_N];
    if ((uintptr_t)at < 4096 || VALGRIND_GET_VBITS(at, bits, n) != 1) return 0;
    return memcmp(bits, all_defined, n) == 0 ? 2 : 1;
}

/*
 * An argument of a wrapped function. Where it points to n bytes, these, or those 4 or 8 bytes behind, are learned where
 * slh_verify has computed them or was handed them: what a call before left there is not defined. Or they are declared,
 * where they were learned before and depend on a secret.
 */
static void meet(unsigned long argument) {
    for (size_t i = 0; mode != NEITHER && i < WINDOWS; i++) {
        uint8_t *at = (uint8_t *)argument + i * WINDOW_STEP, copy[SLH_MAX_N];
        int readable = is_readable(at);
        if (readable == 0 || (mode == LEARNS) != (readable == 2)) continue;
        memmove(copy, at, n);
        (void)VALGRIND_MAKE_MEM_DEFINED(copy, n);
        size_t place = place_of(copy);
        if (mode == LEARNS && place == known_count) {
            must(known_count < MOST_KNOWN, "too much to know");
            memmove(known[known_count++], copy, n);
        } else if (mode == DECLARES && place < known_count) {
            (void)VALGRIND_MAKE_MEM_DEFINED(at, n);
            declared += !is_declared[place];
            is_declared[place] = 1;
        }
    }
}

/* Any function named digits_of, and any named h_msg, as valgrind writes such names. All words of arguments are handed
   on. Those that such a function does not have are handed on for nothing. */
#define DIGITS_OF I_WRAP_SONAME_FNNAME_ZZ(Za, ZaZcZcdigitsZuof)
#define H_MSG I_WRAP_SONAME_FNNAME_ZZ(Za, ZaZcZchZumsg)
typedef unsigned long word;
word DIGITS_OF(word a, word b, word c, word e, word f, word g);
word H_MSG(word a, word b, word c, word e, word f, word g, word h, word i, word j, word l, word m, word o);

word DIGITS_OF(word a, word b, word c, word e, word f, word g) {
    OrigFn function;
    word result;
    VALGRIND_GET_ORIG_FN(function);
    const word all[] = {a, b, c, e};
    for (size_t at = 0; at < sizeof all / sizeof all[0]; at++) meet(all[at]);
    CALL_FN_W_6W(result, function, a, b, c, e, f, g);
    return result;
}

word H_MSG(word a, word b, word c, word e, word f, word g, word h, word i, word j, word l, word m, word o) {
    OrigFn function;
    word result;
    VALGRIND_GET_ORIG_FN(function);
    const word all[] = {a, b, c, e};
    for (size_t at = 0; at < sizeof all / sizeof all[0]; at++) meet(all[at]);
    CALL_FN_W_12W(result, function, a, b, c, e, f, g, h, i, j, l, m, o);
    return result;
}

#ifdef LEAK
void *memcpy(void *restrict to, const void *restrict from, size_t len) {
    static volatile uint8_t table[256];
    volatile uint8_t *out = to;
    for (size_t i = 0; table[255] == 0 && i < 256; i++) table[i] = (uint8_t)i;
    for (size_t i = 0; i < len; i++) {
        uint8_t byte = ((const volatile uint8_t *)from)[i];
#if LEAK == 1
        if (i == 0 && byte == 0)
            out[i] = 0;
        else
            out[i] = byte;
#else
        out[i] = table[byte];
#endif
    }
    return to;
}
#endif

/* Hides the secrets, or shows them again. */
static void hide(int are_hidden) {
    mode = are_hidden ? DECLARES : NEITHER;
    if (are_hidden) {
        declared = 0;
        for (size_t at = 0; at < MOST_KNOWN; at++) is_declared[at] = 0;
        (void)VALGRIND_MAKE_MEM_UNDEFINED(seeds, 2 * n);
        (void)VALGRIND_MAKE_MEM_UNDEFINED(sk, 2 * n);
    } else {
        (void)VALGRIND_MAKE_MEM_DEFINED(seeds, sizeof seeds);
        (void)VALGRIND_MAKE_MEM_DEFINED(sk, sizeof sk);
        (void)VALGRIND_MAKE_MEM_DEFINED(made, sizeof made);
    }
}

static void tell(const char *what, unsigned told, unsigned least, unsigned most, size_t public) {
    int holds = least <= told && told <= most && declared >= public;
    holds ? passed++ : failed++;
    printf("%s, set %u, %s: %u branches or addresses, where verdicts are %u to %u, %zu values declared, at least %zu: "
           "%s\n", part, (unsigned)set, what, told, least, most, declared, public, holds ? "yes" : "no");
}

/* What memcheck tells of a call must be verdicts: so many, or up to `most`. At least so many values must be declared
   public, which are those that it signs, or R. The result of a call is public. */
#define TRY_UP_TO(what, least, most, public, call) \
    do { \
        unsigned before = VALGRIND_COUNT_ERRORS; \
        hide(1); \
        uint32_t result = call; \
        unsigned told = VALGRIND_COUNT_ERRORS - before; \
        (void)VALGRIND_MAKE_MEM_DEFINED(&result, sizeof result); \
        hide(0); \
        must(result == SLH_DONE, what); \
        tell(what, told, least, most, public); \
    } while (0)
#define TRY(what, verdicts, public, call) TRY_UP_TO(what, verdicts, verdicts, public, call)

/* The forms of a signature: of a message, of its hash, and of a digest. */
enum { PURE, PRE_HASH, OF_DIGEST, FORMS };

static uint32_t sign(int form, size_t len, uint8_t *out) {
    if (form == PURE)
        return slh_sign(set, sk, sk_len, msg, sizeof msg, NULL, 0, random_bytes, len, out, sig_len);
    if (form == PRE_HASH)
        return slh_hash_sign(set, function, sk, sk_len, msg, sizeof msg, NULL, 0, random_bytes, len, out, sig_len);
    return slh_hash_sign_digest(set, function, sk, sk_len, digest, 32, NULL, 0, random_bytes, len, out, sig_len);
}

static uint32_t sign_twice(int form, size_t len, uint8_t *out) {
    if (form == PURE)
        return slh_sign_twice(set, sk, sk_len, msg, sizeof msg, NULL, 0, random_bytes, len, scratch, 2 * sig_len, out,
                              sig_len);
    if (form == PRE_HASH)
        return slh_hash_sign_twice(set, function, sk, sk_len, msg, sizeof msg, NULL, 0, random_bytes, len, scratch,
                                   2 * sig_len, out, sig_len);
    return slh_hash_sign_digest_twice(set, function, sk, sk_len, digest, 32, NULL, 0, random_bytes, len, scratch,
                                      2 * sig_len, out, sig_len);
}

static uint32_t verify(int form) {
    const uint8_t *pk = sk + 2 * n;
    if (form == PURE) return slh_verify(set, pk, pk_len, msg, sizeof msg, NULL, 0, sig, sig_len);
    if (form == PRE_HASH) return slh_hash_verify(set, function, pk, pk_len, msg, sizeof msg, NULL, 0, sig, sig_len);
    return slh_hash_verify_digest(set, function, pk, pk_len, digest, 32, NULL, 0, sig, sig_len);
}

/* Writes the signatures of each form, without a randomizer and with one of `n` bytes. */
static void write_signatures(void) {
    for (int form = 0; form < FORMS; form++)
        for (size_t len = 0; len <= n; len += n) {
            must(sign(form, len, sig) == SLH_DONE, "sign");
            must(fwrite(sig, sig_len, 1, stdout) == 1, "a signature can't be written");
        }
}

/* Reads a signature, and has the call that verifies it say what is public of it: R, and what each layer signs. */
static void learn(int form, size_t len) {
    long place = (2 * form + (len > 0)) * (long)sig_len;
    must(fseek(signatures, place, SEEK_SET) == 0 && fread(sig, sig_len, 1, signatures) == 1, "there is no signature");
    known_count = 0;
    memmove(known[known_count++], sig, n);
    mode = LEARNS;
    uint32_t result = verify(form);
    mode = NEITHER;
    must(result == SLH_DONE && known_count > d, "the signature is not valid, or digits_of was not wrapped");
}

/* Of each digit of SK.seed and SK.prf these are verdicts: it does not end the line, and it is a digit. Which digit it is
   stays secret, and so does whether it is a number or a letter. */
static void key_files(void) {
    static char file[SLH_MAX_KEY_FILE];
    uint32_t set_read, kind_read;
    unsigned digits = 4 * (unsigned)n;
    TRY("slh_key_write", 0, 0, slh_key_write(set, SLH_SECRET_KEY, sk, sk_len, file, sizeof file));
    TRY_UP_TO("slh_key_read", 1, 2 * digits, 0,
              slh_key_read((const uint8_t *)file, 36 + 2 * sk_len, &set_read, &kind_read, made, sk_len));
    must(memcmp(made, sk, sk_len) == 0, "another key");
}

/* Of a key in PEM these are verdicts: whether the text is the one that its bytes have, and whether these have a front
   of DER, whose last two bytes share a group of characters with the key. */
static void pkix(void) {
    enum { VERDICTS = 4 };
    static uint8_t file[SLH_MAX_PEM];
    uint32_t set_read, kind_read, len;
    TRY("slh_der_write", 0, 0, slh_der_write(set, SLH_SECRET_KEY, sk, sk_len, &len, file, sizeof file));
    TRY("slh_der_read", 0, 0, slh_der_read(file, len, &set_read, &kind_read, made, sk_len));
    must(memcmp(made, sk, sk_len) == 0, "another key");
    TRY("slh_pem_write", 0, 0, slh_pem_write(set, SLH_SECRET_KEY, sk, sk_len, &len, file, sizeof file));
    TRY_UP_TO("slh_pem_read", 1, VERDICTS, 0, slh_pem_read(file, len, &set_read, &kind_read, made, sk_len));
    must(memcmp(made, sk, sk_len) == 0, "another key");
}

static void keys(void) {
    TRY("slh_keygen", 0, 0, slh_keygen(set, seeds, n, seeds + n, n, seeds + 2 * n, n, made, sk_len));
    TRY("slh_public", 0, 0, slh_public(set, sk, sk_len, made, pk_len));
    key_files();
    pkix();
    TRY_UP_TO("slh_check", 1, (unsigned)n / 4 + 1, 0, slh_check(set, sk, sk_len));
}

/* What was made has to be the signature that was read. No later call finds it there. */
static void compare(const char *what) {
    must(memcmp(made, sig, sig_len) == 0, what);
    memset(made, 0, sizeof made);
}

/* Signing in a form, with a randomizer of `len` bytes. */
static void once(int form, size_t len) {
    static const char *const names[] = {"slh_sign", "slh_hash_sign", "slh_hash_sign_digest"};
    learn(form, len);
    TRY(names[form], 0, 1 + d, sign(form, len, made));
    compare("another signature");
}

static void twice(int form, size_t len) {
    static const char *const names[] = {"slh_sign_twice", "slh_hash_sign_twice", "slh_hash_sign_digest_twice"};
    learn(form, len);
    TRY(names[form], 2, 1 + d, sign_twice(form, len, made));
    compare("another signature, signed twice");
}

static void internal(int form, size_t len) {
    learn(form, len);
    TRY("slh_sign_internal", 0, 1 + d,
        slh_sign_internal(set, sk, sk_len, formatted, sizeof formatted, random_bytes, len, made, sig_len));
    compare("another signature by the internal call");
}

/* One signature as jobs: each verdict on a tag, on the roots of all FORS trees, on the two roots of an XMSS tree and on
 * the top root is told once. */
static void by_jobs(void) {
    learn(PURE, 0);
    TRY("slh_sign_start", 0, 1,
        slh_sign_start(set, sk, sk_len, msg, sizeof msg, NULL, 0, NULL, 0, start, start_len));
    (void)VALGRIND_MAKE_MEM_DEFINED(start, start_len);
    must(slh_hash_sign_start(set, function, sk, sk_len, msg, sizeof msg, NULL, 0, NULL, 0, made, start_len) ==
         SLH_DONE, "hash_sign_start");
    memmove(known[0], made, n);
    TRY("slh_hash_sign_start", 0, 1,
        slh_hash_sign_start(set, function, sk, sk_len, msg, sizeof msg, NULL, 0, NULL, 0, made, start_len));
    unsigned before = VALGRIND_COUNT_ERRORS;
    hide(1);
    for (uint32_t job = 0; job < jobs; job++) {
        size_t at = 0, len = 0;
        must(slh_answer_place(set, 1, 1, job, &at, &len) == SLH_DONE, "place");
        uint32_t result = slh_sign_job(set, 1, 1, sk, sk_len, start, start_len, job, answers + at, len);
        (void)VALGRIND_MAKE_MEM_DEFINED(&result, sizeof result);
        must(result == SLH_DONE, "job");
    }
    tell("slh_sign_job, all jobs", VALGRIND_COUNT_ERRORS - before, jobs, jobs, 0);
    /* The verdict on the two nodes of a tree may make a second branch, in the caller. */
    TRY_UP_TO("slh_sign_join", 1 + jobs + 1 + d + 1, 1 + jobs + 1 + d + 1 + jobs / 2, d,
              slh_sign_join(set, 1, 1, sk, sk_len, start, start_len, answers, answers_len, made, sig_len));
    compare("another signature by jobs");
}

static void key_by_jobs(void) {
    uint8_t given[4 * SLH_MAX_N];
    for (uint32_t job = 0; job < 2; job++)
        TRY("slh_keygen_job", 0, 0, slh_keygen_job(set, 1, seeds, n, seeds + n, n, seeds + 2 * n, n, job,
                                                          given + 2 * n * job, 2 * n));
    TRY_UP_TO("slh_keygen_join", 2, 3, 0,
              slh_keygen_join(set, 1, seeds, n, seeds + n, n, seeds + 2 * n, n, given, 4 * n, made, sk_len));
    must(memcmp(made, sk, sk_len) == 0, "another key by jobs");
}

static const struct {
    const char *name;
    void (*tries)(void);
} parts[] = {{"keys", keys}, {"jobs", by_jobs}, {"key_jobs", key_by_jobs}};

static const struct {
    const char *name;
    void (*tries)(int form, size_t len);
    int form;
} signing[] = {{"sign", once, PURE},          {"sign_twice", twice, PURE},       {"sign_internal", internal, PURE},
               {"hash_sign", once, PRE_HASH}, {"hash_sign_twice", twice, PRE_HASH},
               {"digest", once, OF_DIGEST},   {"digest_twice", twice, OF_DIGEST}};

static void try_part(const char *name) {
    size_t tried = 0, len = strcspn(name, "-");
    part = name;
    for (size_t i = 0; i < sizeof parts / sizeof parts[0]; i++)
        if (strcmp(parts[i].name, name) == 0) tried++, parts[i].tries();
    for (size_t i = 0; i < sizeof signing / sizeof signing[0]; i++)
        if (strlen(signing[i].name) == len && memcmp(signing[i].name, name, len) == 0)
            tried++, signing[i].tries(signing[i].form, name[len] ? n : 0);
    must(tried == 1, "there is no such part");
}

static void choose(uint32_t number) {
    size_t i = 0;
    while (i < SETS && sets[i].set != number) i++;
    must(i < SETS, "there is no such set");
    set = number, d = sets[i].d;
    must(slh_lengths(set, &pk_len, &sk_len, &sig_len, &n) == SLH_DONE, "lengths");
    must(slh_sign_jobs(set, 1, 1, &jobs, &start_len, &answers_len) == SLH_DONE, "jobs");
    must(slh_keygen(set, seeds, n, seeds + n, n, seeds + 2 * n, n, sk, sk_len) == SLH_DONE, "keygen");
}

int main(int argc, char **argv) {
    must(argc > 1 && (argc > 2) == (RUNNING_ON_VALGRIND > 0), "signatures are made without valgrind, parts under it");
    for (size_t i = 0; i < sizeof seeds; i++) seeds[i] = (uint8_t)(0x9d * i + 0x35);
    memset(random_bytes, 0xc3, sizeof random_bytes);
    choose((uint32_t)atoi(argv[1]));
    if (argc == 2) {
        write_signatures();
        return fflush(stdout) != 0;
    }
    setvbuf(stdout, NULL, _IOLBF, 0);
    signatures = fopen(argv[2], "rb");
    answers = calloc(answers_len, 1);
    must(signatures != NULL && answers != NULL, "no file or no memory");
    for (int i = 3; i < argc; i++) try_part(argv[i]);
    free(answers);
    fclose(signatures);
    printf("%d passed, %d failed\n", passed, failed);
    return failed > 0;
}
