/* One signature by several threads, or with each job done two times: by the jobs of libslh. */
#define _POSIX_C_SOURCE 200809L
#include "provider.h"
#include <pthread.h>
#include <signal.h>

/* A signature in work. The runs of jobs are numbered: each job once, and then, where that is asked for, once more. The
   answers of the first runs stand end to end, and behind them those of the second. No FORS tree is cut. */
struct work {
    const struct key *key;
    uint32_t set, levels, jobs, runs;
    atomic_uint next, failed;
    uint8_t start[SLH_MAX_START], *answers;
    size_t start_len, answers_len;
};

/* What each thread does: it takes the number of a run while there is one and nothing failed. */
static void *take_runs(void *handed) {
    struct work *it = handed;
    uint32_t number;
    size_t at, len;
    while (!atomic_load(&it->failed) && (number = atomic_fetch_add(&it->next, 1)) < it->runs) {
        uint32_t job = number % it->jobs;
        uint8_t *answers = it->answers + number / it->jobs * it->answers_len;
        if (slh_answer_place(it->set, it->levels, 0, job, &at, &len) != SLH_DONE ||
            slh_sign_job(it->set, it->levels, 0, SK(it->key), ALL(it, start), job, answers + at, len) != SLH_DONE)
            atomic_store(&it->failed, 1);
    }
    return NULL;
}

/* Signals are for the threads of the application, and not for these. Where no more threads are made, fewer do all. */
static void run_all(struct work *it, unsigned workers) {
    pthread_t threads[MOST_WORKERS];
    unsigned made = 1;
    sigset_t all, before;
    sigfillset(&all);
    if (pthread_sigmask(SIG_SETMASK, &all, &before) == 0) {
        while (made < workers && made < it->runs && pthread_create(&threads[made], NULL, take_runs, it) == 0) made++;
        pthread_sigmask(SIG_SETMASK, &before, NULL);
    }
    take_runs(it);
    while (made > 1) pthread_join(threads[--made], NULL);
}

static uint32_t join(const struct work *it, uint8_t *sig) {
    if (atomic_load(&it->failed)) return SLH_ANSWERS_DISAGREE;
    if (it->runs > it->jobs && CRYPTO_memcmp(it->answers, it->answers + it->answers_len, it->answers_len) != 0)
        return (void)fail(PROV_R_FAILED_TO_SIGN, "a job had two answers, by a fault"), SLH_ANSWERS_DISAGREE;
    return slh_sign_join(it->set, it->levels, 0, SK(it->key), ALL(it, start), ALL(it, answers), sig,
                         it->key->set->sig_len);
}

/* Answers are as secret as the key. */
uint32_t sign_by_jobs(const struct signature *signature, const uint8_t *msg, size_t msg_len, uint8_t *sig) {
    const struct key *key = signature->key;
    struct work it = {.key = key, .set = key->set->number, .levels = key->set->xmss_levels};
    uint32_t times = signature->twice ? 2 : 1;
    uint32_t result = slh_sign_jobs(it.set, it.levels, 0, &it.jobs, &it.start_len, &it.answers_len);
    if (result != SLH_DONE) return result;
    it.runs = times * it.jobs;
    if ((it.answers = OPENSSL_malloc(times * it.answers_len)) == NULL) return SLH_BAD_ANSWERS_LENGTH;
    result = slh_sign_start(it.set, SK(key), msg, msg_len, ALL(signature, context), ALL(signature, entropy),
                            ALL(&it, start));
    if (result == SLH_DONE) run_all(&it, signature->workers), result = join(&it, sig);
    OPENSSL_clear_free(it.answers, times * it.answers_len);
    return result;
}
