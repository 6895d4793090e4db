/*
 * For a library of one level on a machine whose pointers have 32 bits. The proved exports take and write sizes of 64
 * bits, and each of them has another name here: a size is handed on as one of 64 bits, and one that was written is
 * handed back. one_level.h includes this file.
 */
#define size_t uint64_t
#define SECRET(name, parameters, arguments) HIDDEN uint32_t slh_##name##_proved parameters;
#define OPEN SECRET
#include "calls.h"
#undef size_t
#undef SECRET
#undef OPEN
#undef READS
#undef SIZES

#define PROVED(name, parameters)
#define OPEN(name, parameters, arguments) \
    uint32_t slh_##name parameters { return slh_##name##_proved arguments; }
#define SIZES(name, parameters, arguments)

uint32_t slh_lengths(uint32_t set, size_t *pk_len, size_t *sk_len, size_t *sig_len, size_t *n) {
    uint64_t found[4];
    uint32_t result = slh_lengths_proved(set, &found[0], &found[1], &found[2], &found[3]);
    if (result == SLH_DONE) {
        *pk_len = (size_t)found[0];
        *sk_len = (size_t)found[1];
        *sig_len = (size_t)found[2];
        *n = (size_t)found[3];
    }
    return result;
}

uint32_t slh_sign_jobs(uint32_t set, uint32_t xmss_levels, uint32_t fors_levels, uint32_t *jobs, size_t *start_len,
                       size_t *answers_len) {
    uint64_t found[2];
    uint32_t result = slh_sign_jobs_proved(set, xmss_levels, fors_levels, jobs, &found[0], &found[1]);
    if (result == SLH_DONE) {
        *start_len = (size_t)found[0];
        *answers_len = (size_t)found[1];
    }
    return result;
}

uint32_t slh_answer_place(uint32_t set, uint32_t xmss_levels, uint32_t fors_levels, uint32_t job, size_t *at,
                          size_t *len) {
    uint64_t found[2];
    uint32_t result = slh_answer_place_proved(set, xmss_levels, fors_levels, job, &found[0], &found[1]);
    if (result == SLH_DONE) {
        *at = (size_t)found[0];
        *len = (size_t)found[1];
    }
    return result;
}

uint32_t slh_keygen_jobs(uint32_t set, uint32_t xmss_levels, uint32_t *jobs, size_t *answer_len) {
    uint64_t found;
    uint32_t result = slh_keygen_jobs_proved(set, xmss_levels, jobs, &found);
    if (result == SLH_DONE) *answer_len = (size_t)found;
    return result;
}
