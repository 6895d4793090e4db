/*
 * Whether slh_verify.c refuses a call that comes in while another is under way, and the other still answers right. It is
 * linked with slh_verify.c that is compiled with -Dmemcpy=coming_in and -DSLH_TRAP=trapped, for tests/test_portable.py:
 * a copy of bytes within a call calls again, as an interrupt would. Then threads call side by side.
 *
 * usage: busy SIGNATURE DIGEST     files: an image's signature under 128f, and its SHA-256; public_key.h has the key
 */
#include <pthread.h>
#include <slh_verify.h>
#include <stdio.h>
#include <stdlib.h>

enum { THREADS = 4, CALLS = 40 };

static const uint8_t pk[] = {
#include "public_key.h"
};
static uint8_t sig[SLH_DSA_SHA2_128F_SIGNATURE], digest[32];

static uint32_t verify(void) {
    return slh_hash_verify_digest(SLH_DSA_SHA2_128F, SLH_SHA2_256, pk, sizeof pk, digest, sizeof digest, NULL, 0, sig,
                                  sizeof sig);
}

void trapped(const char *why);
void trapped(const char *why) {
    puts(why);
    exit(1);
}

static int left, refused;

void *coming_in(void *to, const void *from, size_t n);
void *coming_in(void *to, const void *from, size_t n) {
    for (size_t i = 0; i < n; i++) ((volatile uint8_t *)to)[i] = ((const uint8_t *)from)[i];
    if (left > 0) {
        int before = left;
        left = 0;
        refused += verify() == SLH_NO_MEMORY;
        left = before - 1;
    }
    return to;
}

/* How many of its calls a thread had done; each other was refused. */
static void *call(void *wrong) {
    size_t done = 0;
    for (int i = 0; i < CALLS; i++) {
        uint32_t result = verify();
        done += result == SLH_DONE;
        if (result != SLH_DONE && result != SLH_NO_MEMORY) *(int *)wrong = 1;
    }
    return (void *)done;
}

static int threads_are_refused(void) {
    pthread_t threads[THREADS];
    int wrong[THREADS] = {0}, any_wrong = 0;
    size_t all = 0;
    for (int i = 0; i < THREADS; i++)
        if (pthread_create(&threads[i], NULL, call, &wrong[i]) != 0) exit(2);
    for (int i = 0; i < THREADS; i++) {
        void *done;
        pthread_join(threads[i], &done);
        all += (size_t)done;
        any_wrong |= wrong[i];
    }
    printf("%d calls in threads, %zu done, %s\n", THREADS * CALLS, all, any_wrong ? "some wrong" : "the others refused");
    return all > 0 && !any_wrong;
}

static void read_file(const char *name, uint8_t *to, size_t len) {
    FILE *file = fopen(name, "rb");
    if (file == NULL || fread(to, 1, len, file) != len) exit(2);
    fclose(file);
}

int main(int count, char **words) {
    if (count != 3) return 2;
    read_file(words[1], sig, sizeof sig);
    read_file(words[2], digest, sizeof digest);
    left = 3;
    if (verify() != SLH_DONE) return puts("a call in which others came is not done"), 1;
    if (refused != 3) return puts("a call that comes in is not refused"), 1;
    if (verify() != SLH_DONE) return puts("the next call is not done"), 1;
    return threads_are_refused() ? 0 : 1;
}
