/*
 * Stands in for malloc and free of slh.c, which is compiled with -Dmalloc=tried_malloc -Dfree=tried_free and
 * -DSLH_TRAP=trapped, in tests/test_portable.py. What is given is painted. The program ends with status 9 where what
 * is given back has a byte that is not zero, or where the proved code comes where it never comes. With SLH_REFUSE in
 * the environment all memory is refused.
 */
#include <stdint.h>
#include <stdio.h>
#include <stdlib.h>
#include <string.h>

void *tried_malloc(size_t n);
void tried_free(void *memory);
void trapped(const char *why);

enum { HEAD = 16, PAINT = 0xa5 };

static void stop(const char *why) {
    fprintf(stderr, "%s\n", why);
    fflush(stdout);
    exit(9);
}

void *tried_malloc(size_t n) {
    uint8_t *memory = getenv("SLH_REFUSE") != NULL ? NULL : malloc(HEAD + n);
    if (memory == NULL) return NULL;
    memcpy(memory, &n, sizeof n);
    memset(memory + HEAD, PAINT, n);
    return memory + HEAD;
}

void tried_free(void *memory) {
    uint8_t *bytes = memory;
    size_t n;
    memcpy(&n, bytes - HEAD, sizeof n);
    for (size_t i = 0; i < n; i++)
        if (bytes[i] != 0) stop("memory is given back that is not erased");
    free(bytes - HEAD);
}

void trapped(const char *why) { stop(why); }
