/* Does something at the Nth call that changes a file below a folder. tests/test_archive_ends.py loads this before
   examples/archive.py, by LD_PRELOAD. The variables are SLH_BELOW, the folder; SLH_PLACE, the number of the call from 1
   on, or 0 for none; SLH_COUNT, a file that gets the number of all calls at the end; and SLH_ACT:

     kill   ends the process by SIGKILL, before the call
     cut    has ext4 lose all that it was not asked to sync, and ends the process: as if the power was cut
     int    sends SIGINT to the process
     full   this call and all later ones that need room fail by ENOSPC
     once   this call fails by EIO, and no other one */
#define _GNU_SOURCE
#include <dlfcn.h>
#include <errno.h>
#include <fcntl.h>
#include <signal.h>
#include <stdarg.h>
#include <stdio.h>
#include <stdlib.h>
#include <string.h>
#include <sys/ioctl.h>
#include <sys/types.h>
#include <unistd.h>

/* Of linux/fs.h and ext4's header, which programs have not. */
#define EXT4_IOC_SHUTDOWN _IOR('X', 125, unsigned)
enum { WITHOUT_THE_JOURNAL = 2 };

/* How many calls there were: tests/archive_forks.py sets it back. */
unsigned slh_places;

static const char *word(const char *name) {
    const char *found = getenv(name);
    return found ? found : "";
}

static int acts_by(const char *act) { return strcmp(word("SLH_ACT"), act) == 0; }

static void cut(void) {
    unsigned how = WITHOUT_THE_JOURNAL;
    int folder = open(word("SLH_BELOW"), O_RDONLY | O_DIRECTORY);
    if (ioctl(folder, EXT4_IOC_SHUTDOWN, &how) != 0) perror("SLH_ACT=cut"), _exit(77);
}

/* Counts a call. Whether it has to fail: `needs_room` tells if one that a full disk refuses. */
static int fails(int needs_room) {
    unsigned place = strtoul(word("SLH_PLACE"), NULL, 10), call = __atomic_add_fetch(&slh_places, 1, __ATOMIC_SEQ_CST);
    if (place == 0 || call < place) return 0;
    if (acts_by("full") && needs_room) return errno = ENOSPC, 1;
    if (call > place) return 0;
    if (acts_by("cut")) cut();
    if (acts_by("cut") || acts_by("kill")) kill(getpid(), SIGKILL);
    if (acts_by("int")) kill(getpid(), SIGINT);
    return acts_by("once") ? errno = EIO, 1 : 0;
}

static int is_below(int file) {
    char link[64], path[4096];
    snprintf(link, sizeof link, "/proc/self/fd/%d", file);
    ssize_t len = readlink(link, path, sizeof path - 1);
    const char *below = word("SLH_BELOW");
    return len > 0 && *below && strncmp(path, below, strlen(below)) == 0;
}

#define NEXT(name, ...) ((__typeof__(&name))dlsym(RTLD_NEXT, #name))(__VA_ARGS__)

ssize_t write(int file, const void *bytes, size_t len) {
    return is_below(file) && fails(1) ? -1 : NEXT(write, file, bytes, len);
}
ssize_t pwrite64(int file, const void *bytes, size_t len, off64_t at) {
    return is_below(file) && fails(1) ? -1 : NEXT(pwrite64, file, bytes, len, at);
}
int ftruncate64(int file, off64_t len) { return is_below(file) && fails(0) ? -1 : NEXT(ftruncate64, file, len); }
int fsync(int file) { return is_below(file) && fails(0) ? -1 : NEXT(fsync, file); }
int fdatasync(int file) { return is_below(file) && fails(0) ? -1 : NEXT(fdatasync, file); }
int unlink(const char *path) { return fails(0) ? -1 : NEXT(unlink, path); }
int unlinkat(int at, const char *path, int how) { return fails(0) ? -1 : NEXT(unlinkat, at, path, how); }
int rename(const char *from, const char *to) { return fails(0) ? -1 : NEXT(rename, from, to); }
int link(const char *from, const char *to) { return fails(1) ? -1 : NEXT(link, from, to); }
int linkat(int from_at, const char *from, int to_at, const char *to, int how) {
    return fails(1) ? -1 : NEXT(linkat, from_at, from, to_at, to, how);
}

/* A file that is made is a place, too. */
int open64(const char *path, int how, ...) {
    va_list more;
    va_start(more, how);
    unsigned mode = how & O_CREAT ? va_arg(more, unsigned) : 0;
    va_end(more);
    return how & O_CREAT && fails(1) ? -1 : NEXT(open64, path, how, mode);
}

__attribute__((destructor)) static void tell(void) {
    FILE *file = *word("SLH_COUNT") ? fopen(word("SLH_COUNT"), "w") : NULL;
    if (file) fprintf(file, "%u\n", slh_places), fclose(file);
}
