/* The counters of tests/provider_calls.c in a process, and the requests of a test. */
#ifndef PROVIDER_CALLS_H
#define PROVIDER_CALLS_H

#include <stdatomic.h>

struct provider_calls {
    /* counts: slh_keygen, slh_check, signatures, verdicts, slh_sign_job, and RAND_priv_bytes_ex */
    atomic_uint keys, checks, signatures, verdicts, jobs, draws;
    /* threads that did a job, and those of them that signals may go to */
    atomic_uint threads, open_threads;
    /* which job of all gets a wrong bit into its answer; whether drawing bytes and starting threads fail; which of the
       next calls that hash a message by OpenSSL's digest fails: 0 for none */
    atomic_uint wrong_job, fails_to_draw, fails_to_start, fails_to_hash;
};

extern struct provider_calls provider_calls;

#endif
