// Preloaded under a program: of each three reads the first two fail as where a signal interrupts them, and the third
// takes at most 100 bytes; and so of each three writes. The file that INTERRUPTED names is made where a write fails so.
#define _GNU_SOURCE
#include <dlfcn.h>
#include <errno.h>
#include <fcntl.h>
#include <stdatomic.h>
#include <stdlib.h>
#include <unistd.h>

enum { MOST_BYTES = 100 };

static atomic_ulong reads, writes;

static size_t some(size_t size) { return size < MOST_BYTES ? size : MOST_BYTES; }

static int is_interrupted(atomic_ulong *calls) {
    if (atomic_fetch_add(calls, 1) % 3 == 2) return 0;
    errno = EINTR;
    return 1;
}

static void note(void) {
    const char *met = getenv("INTERRUPTED");
    int fd = met ? open(met, O_CREAT | O_WRONLY, 0600) : -1;
    if (fd >= 0) close(fd);
    errno = EINTR;
}

ssize_t read(int fd, void *bytes, size_t size) {
    ssize_t (*real_read)(int, void *, size_t);
    *(void **)&real_read = dlsym(RTLD_NEXT, "read");
    return is_interrupted(&reads) ? -1 : real_read(fd, bytes, some(size));
}

ssize_t write(int fd, const void *bytes, size_t size) {
    ssize_t (*real_write)(int, const void *, size_t);
    *(void **)&real_write = dlsym(RTLD_NEXT, "write");
    if (!is_interrupted(&writes)) return real_write(fd, bytes, some(size));
    note();
    return -1;
}
