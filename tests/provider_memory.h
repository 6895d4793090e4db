/* Memory for OpenSSL in tests of the provider: the file that includes this looks at each block before it is freed. */
#ifndef PROVIDER_MEMORY_H
#define PROVIDER_MEMORY_H

#include <stdlib.h>
#include <string.h>

enum { BEFORE_BLOCK = 16 };

static void look_at(const unsigned char *block, size_t size);

static size_t *size_of(void *it) { return (void *)((char *)it - BEFORE_BLOCK); }

static void *take(size_t size, const char *file, int line) {
    size_t *whole = malloc(size + BEFORE_BLOCK);
    (void)file, (void)line;
    if (whole == NULL) return NULL;
    *whole = size;
    return (char *)whole + BEFORE_BLOCK;
}

static void give_back(void *it, const char *file, int line) {
    (void)file, (void)line;
    if (it == NULL) return;
    look_at(it, *size_of(it));
    free(size_of(it));
}

static void *take_other(void *it, size_t size, const char *file, int line) {
    void *other = take(size, file, line);
    if (it != NULL && other != NULL) {
        memcpy(other, it, *size_of(it) < size ? *size_of(it) : size);
        give_back(it, file, line);
    }
    return other;
}

#endif
