/* Signs a file by threads of its own and verifies the signature, and then writes it into FILE.sig and the public key,
   as a key file of slh, into FILE.pub: sign_threads THREADS KEY FILE [RANDOM]
   So it verifies by: slh verify --key FILE.pub --message FILE --signature FILE.sig
   KEY has the 64 bytes of a secret key of the set 128f: sed -n 3p secret.key | xxd -r -p > KEY. The context is empty.
   The randomizer is the first 16 bytes of /dev/urandom, or of the file RANDOM, for tests that have to know them. */
#include <slh.h>

#include <pthread.h>
#include <stdio.h>
#include <stdlib.h>

#define SET SLH_DSA_SHA2_128F
/* No tree is cut: the eight leaves of an XMSS tree of this set are made at once. */
enum { XMSS_LEVELS = 0, FORS_LEVELS = 0, MOST_THREADS = 64, N = SLH_DSA_SHA2_128F_N };
enum { SK = SLH_DSA_SHA2_128F_SECRET_KEY, PK = SLH_DSA_SHA2_128F_PUBLIC_KEY };

/* One signature in work: what all jobs are given, the room for their answers, and the number of the next job. */
struct signing {
    uint8_t sk[SK], start[SLH_DSA_SHA2_128F_START], *answers;
    pthread_mutex_t lock;
    uint32_t next, jobs;
};

static void expect_done(const char *step, uint32_t result) {
    if (result == SLH_DONE) return;
    char name[SLH_MAX_NAME] = "Invalid";
    slh_refusal_name(result, name, sizeof name);
    fprintf(stderr, "%s: %u %s\n", step, (unsigned)result, name);
    exit(1);
}

static FILE *opened(const char *path, const char *suffix, const char *mode) {
    char name[4096];
    int is_whole = (size_t)snprintf(name, sizeof name, "%s%s", path, suffix) < sizeof name;
    FILE *file = is_whole ? fopen(name, mode) : NULL;
    if (file == NULL) perror(name), exit(2);
    return file;
}

/* Reads at least `least` and up to `room` bytes of a file, which ends there unless it may go on. */
static size_t read_file(const char *path, uint8_t *bytes, size_t least, size_t room, int may_go_on) {
    FILE *file = opened(path, "", "rb");
    setbuf(file, NULL); /* a buffer of C would keep a copy of the key */
    size_t len = fread(bytes, 1, room, file);
    if (ferror(file)) perror(path), exit(2);
    if (len < least || (!may_go_on && fgetc(file) != EOF)) fprintf(stderr, "%s: another length\n", path), exit(2);
    fclose(file);
    return len;
}

static void write_files(const char *path, const uint8_t *sig, size_t sig_len, const uint8_t *pk) {
    FILE *out = opened(path, ".sig", "wb"), *key = opened(path, ".pub", "wb");
    if (fwrite(sig, 1, sig_len, out) != sig_len || fclose(out) != 0) exit(1);
    fputs("slh-dsa-public 2\nSLH-DSA-SHA2-128f\n", key);
    for (size_t at = 0; at < PK; at++) fprintf(key, "%02x%s", pk[at], at + 1 < PK ? "" : "\n");
    if (ferror(key) || fclose(key) != 0) exit(1);
}

/* What each thread does: it takes the number of a job while there is one, and writes that job's answer in its place. */
static void *work(void *handed) {
    struct signing *it = handed;
    for (;;) {
        pthread_mutex_lock(&it->lock);
        uint32_t job = it->next < it->jobs ? it->next++ : it->jobs;
        pthread_mutex_unlock(&it->lock);
        if (job == it->jobs) return NULL;
        size_t at, len;
        expect_done("place", slh_answer_place(SET, XMSS_LEVELS, FORS_LEVELS, job, &at, &len));
        expect_done("job", slh_sign_job(SET, XMSS_LEVELS, FORS_LEVELS, it->sk, SK, it->start, sizeof it->start, job,
                                        it->answers + at, len));
    }
}

int main(int count, char **words) {
    static uint8_t msg[1 << 20], sig[SLH_DSA_SHA2_128F_SIGNATURE];
    static struct signing it = {.lock = PTHREAD_MUTEX_INITIALIZER};
    uint8_t randomizer[N], pk[PK];
    pthread_t threads[MOST_THREADS];
    int wanted = count == 4 || count == 5 ? atoi(words[1]) : 0;
    if (wanted < 1 || wanted > MOST_THREADS) return fputs("usage: sign_threads THREADS KEY FILE [RANDOM]\n", stderr), 2;
    read_file(words[2], it.sk, SK, SK, 0);
    read_file(count == 5 ? words[4] : "/dev/urandom", randomizer, N, N, 1);
    size_t len = read_file(words[3], msg, 0, sizeof msg, 0), start_len, answers_len;

    expect_done("jobs", slh_sign_jobs(SET, XMSS_LEVELS, FORS_LEVELS, &it.jobs, &start_len, &answers_len));
    if (start_len != sizeof it.start || (it.answers = calloc(answers_len, 1)) == NULL) return 1;
    expect_done("start", slh_sign_start(SET, it.sk, SK, msg, len, NULL, 0, randomizer, N, it.start, start_len));

    for (int i = 0; i < wanted; i++)
        if (pthread_create(&threads[i], NULL, work, &it) != 0) return 1;
    for (int i = 0; i < wanted; i++)
        if (pthread_join(threads[i], NULL) != 0) return 1;

    uint32_t joined = slh_sign_join(SET, XMSS_LEVELS, FORS_LEVELS, it.sk, SK, it.start, start_len, it.answers,
                                    answers_len, sig, sizeof sig);
    expect_done("public", slh_public(SET, it.sk, SK, pk, PK));
    /* The answers are as secret as the key. */
    slh_erase(it.answers, answers_len);
    slh_erase(it.start, sizeof it.start);
    slh_erase(it.sk, SK);
    free(it.answers);
    expect_done("join", joined);

    expect_done("verify", slh_verify(SET, pk, PK, msg, len, NULL, 0, sig, sizeof sig));
    write_files(words[3], sig, sizeof sig, pk);
    puts("valid");
    return 0;
}
