/*
 * A program over the calls of 0.9.1. tests/test_old_programs.py compiles it with the headers of old releases, and runs
 * it with a newer shared object. Its folder has the files that begin the test: sk, msg, ctx and sig, a signature of the
 * deterministic variant.
 *
 *   old_programs FOLDER calls         makes each call; the last line has the counts
 *   old_programs FOLDER start         writes `start`, and `answers` of zeros
 *   old_programs FOLDER jobs 0|1      does the even or the odd jobs of `start`, and writes their answers into `answers`
 *   old_programs FOLDER join          writes `joined`, the signature
 */
#include <slh_internal.h>

#include <stdio.h>
#include <stdlib.h>
#include <string.h>

enum { SET = SLH_DSA_SHA2_128F, N = SLH_DSA_SHA2_128F_N, SIG = SLH_DSA_SHA2_128F_SIGNATURE, MOST = 2000000, LEVEL = 1 };

static uint8_t sk[SLH_MAX_SECRET_KEY], msg[MOST], ctx[SLH_MAX_CONTEXT], sig[SIG], start[SLH_MAX_START];
static uint8_t made[SIG], answers[MOST], pk[SLH_MAX_PUBLIC_KEY], digest[32] = {7};
static size_t sk_len, msg_len, ctx_len, start_len, answers_len;
static uint32_t jobs;
static const char *folder;
static int passed, failed;

static void expect(int holds, const char *call) {
    holds ? passed++ : failed++;
    if (!holds) printf("failed: %s\n", call);
}

static FILE *opened(const char *name, const char *how) {
    char path[4096];
    snprintf(path, sizeof path, "%s/%s", folder, name);
    FILE *file = fopen(path, how);
    if (!file) exit(3);
    return file;
}

static size_t read_file(const char *name, uint8_t *to, size_t most) {
    FILE *file = opened(name, "rb");
    size_t len = fread(to, 1, most, file);
    fclose(file);
    return len;
}

static void write_file(const char *name, const uint8_t *bytes, size_t len) {
    FILE *file = opened(name, "wb");
    if (fwrite(bytes, 1, len, file) != len || fclose(file)) exit(3);
}

/* The program stops if a call of jobs is refused. */
static void need(uint32_t result) {
    if (result != SLH_DONE) {
        char name[SLH_MAX_NAME] = "?";
        if (slh_refusal_name(result, name, sizeof name) == SLH_DONE) fprintf(stderr, "%s\n", name);
        exit((int)result);
    }
}

static void do_job(uint32_t job) {
    size_t at, len;
    need(slh_answer_place(SET, LEVEL, LEVEL, job, &at, &len));
    need(slh_sign_job(SET, LEVEL, LEVEL, sk, sk_len, start, start_len, job, answers + at, len));
}

static void join(uint8_t *to) {
    need(slh_sign_join(SET, LEVEL, LEVEL, sk, sk_len, start, start_len, answers, answers_len, to, SIG));
}

static void make_keys(void) {
    size_t lens[4], answer_len;
    uint8_t again[SLH_MAX_SECRET_KEY] = {0};
    expect(slh_lengths(SET, &lens[0], &lens[1], &lens[2], &lens[3]) == SLH_DONE && lens[0] == 2 * N &&
               lens[1] == 4 * N && lens[2] == SIG && lens[3] == N, "slh_lengths");
    expect(slh_keygen(SET, sk, N, sk + N, N, sk + 2 * N, N, again, sk_len) == SLH_DONE && !memcmp(sk, again, sk_len),
           "slh_keygen");
    expect(slh_public(SET, sk, sk_len, pk, 2 * N) == SLH_DONE && !memcmp(pk, sk + 2 * N, 2 * N), "slh_public");
    expect(slh_check(SET, sk, sk_len) == SLH_DONE, "slh_check");
    slh_erase(again, sizeof again);
    expect(again[0] == 0 && again[3 * N] == 0, "slh_erase");
    need(slh_keygen_jobs(SET, LEVEL, &jobs, &answer_len));
    for (uint32_t it = 0; it < jobs; it++)
        need(slh_keygen_job(SET, LEVEL, sk, N, sk + N, N, sk + 2 * N, N, it, answers + it * answer_len, answer_len));
    need(slh_keygen_join(SET, LEVEL, sk, N, sk + N, N, sk + 2 * N, N, answers, jobs * answer_len, again, sk_len));
    expect(!memcmp(sk, again, sk_len), "slh_keygen_join");
}

static void sign_pure(void) {
    static uint8_t internal[MOST + 2 + SLH_MAX_CONTEXT];
    expect(slh_sign(SET, sk, sk_len, msg, msg_len, ctx, ctx_len, NULL, 0, made, SIG) == SLH_DONE &&
               !memcmp(made, sig, SIG), "slh_sign");
    expect(slh_verify(SET, pk, 2 * N, msg, msg_len, ctx, ctx_len, sig, SIG) == SLH_DONE, "slh_verify");
    made[SIG - 1] ^= 1;
    expect(slh_verify(SET, pk, 2 * N, msg, msg_len, ctx, ctx_len, made, SIG) == SLH_INVALID, "slh_verify, damaged");
    internal[1] = (uint8_t)ctx_len;
    memcpy(internal + 2, ctx, ctx_len);
    memcpy(internal + 2 + ctx_len, msg, msg_len);
    size_t len = 2 + ctx_len + msg_len;
    expect(slh_sign_internal(SET, sk, sk_len, internal, len, NULL, 0, made, SIG) == SLH_DONE && !memcmp(made, sig, SIG),
           "slh_sign_internal");
    expect(slh_verify_internal(SET, pk, 2 * N, internal, len, sig, SIG) == SLH_DONE, "slh_verify_internal");
}

static void sign_hashed(void) {
    static uint8_t whole[SIG];
    expect(slh_hash_sign(SET, SLH_SHA2_256, sk, sk_len, msg, msg_len, NULL, 0, NULL, 0, whole, SIG) == SLH_DONE &&
               slh_hash_verify(SET, SLH_SHA2_256, pk, 2 * N, msg, msg_len, NULL, 0, whole, SIG) == SLH_DONE &&
               slh_hash_verify(SET, SLH_SHA2_224, pk, 2 * N, msg, msg_len, NULL, 0, whole, SIG) == SLH_INVALID,
           "slh_hash_sign, slh_hash_verify");
    need(slh_sign_jobs(SET, LEVEL, LEVEL, &jobs, &start_len, &answers_len));
    need(slh_hash_sign_start(SET, SLH_SHA2_256, sk, sk_len, msg, msg_len, NULL, 0, NULL, 0, start, start_len));
    for (uint32_t it = 0; it < jobs; it++) do_job(it);
    join(made);
    expect(!memcmp(made, whole, SIG), "slh_hash_sign_start");
    expect(slh_hash_sign_digest(SET, SLH_SHA2_256, sk, sk_len, digest, 32, NULL, 0, NULL, 0, made, SIG) == SLH_DONE &&
               slh_hash_verify_digest(SET, SLH_SHA2_256, pk, 2 * N, digest, 32, NULL, 0, made, SIG) == SLH_DONE &&
               slh_hash_verify_digest(SET, SLH_SHA2_256, pk, 2 * N, digest, 32, NULL, 0, whole, SIG) == SLH_INVALID,
           "slh_hash_sign_digest, slh_hash_verify_digest");
}

static int make_calls(void) {
    char name[SLH_MAX_NAME];
    expect(slh_version() >= SLH_VERSION_NUMBER, "slh_version");
    expect(slh_level() >= 2, "slh_level");
    expect(slh_refusal_name(SLH_BAD_START, name, sizeof name) == SLH_DONE && !strcmp(name, "BadStart"),
           "slh_refusal_name");
    make_keys();
    sign_pure();
    sign_hashed();
    printf("%d passed, %d failed\n", passed, failed);
    return failed != 0;
}

int main(int count, char **words) {
    if (count < 3) return 3;
    folder = words[1];
    sk_len = read_file("sk", sk, sizeof sk), msg_len = read_file("msg", msg, MOST);
    ctx_len = read_file("ctx", ctx, sizeof ctx);
    if (read_file("sig", sig, SIG) != SIG) return 3;
    if (!strcmp(words[2], "calls")) return make_calls();
    need(slh_sign_jobs(SET, LEVEL, LEVEL, &jobs, &start_len, &answers_len));
    if (!strcmp(words[2], "start")) {
        need(slh_sign_start(SET, sk, sk_len, msg, msg_len, ctx, ctx_len, NULL, 0, start, start_len));
        write_file("start", start, start_len);
        write_file("answers", answers, answers_len);
        return 0;
    }
    if (read_file("start", start, sizeof start) != start_len) return 3;
    if (read_file("answers", answers, MOST) != answers_len) return 3;
    if (!strcmp(words[2], "jobs") && count == 4) {
        for (uint32_t it = words[3][0] == '1'; it < jobs; it += 2) do_job(it);
        write_file("answers", answers, answers_len);
        return 0;
    }
    join(made);
    write_file("joined", made, SIG);
    return 0;
}
