/* Signs each file that standard input names, one a line, by one process a processor, and counts for Prometheus.

   usage: sign_queue KEY PORT [PROCESSES] < QUEUE

   KEY has the 64 bytes of a secret key of the set 128f: sed -n 3p secret.key | xxd -r -p > KEY. The signature of FILE
   goes into a new file FILE.sig, once it was computed two times and verified. A scraper reads the counters from
   http://127.0.0.1:PORT/metrics: slh_signatures_total, slh_failures_total and slh_signing_seconds_total.

   QUEUE may be a pipe that never ends. At its end the program ends, with status 1 if something failed or a process was
   lost. SIGTERM and Ctrl-C end it, too: each name that was taken from the queue is signed, or named as a failure, and
   the others stay in the queue. Names have at most 4,000 bytes, and files 16 MB. */
#define _GNU_SOURCE
#include <slh.h>

#include <errno.h>
#include <fcntl.h>
#include <libgen.h>
#include <netinet/in.h>
#include <poll.h>
#include <sched.h>
#include <signal.h>
#include <stdatomic.h>
#include <stdio.h>
#include <stdlib.h>
#include <string.h>
#include <sys/mman.h>
#include <sys/prctl.h>
#include <sys/random.h>
#include <sys/signalfd.h>
#include <sys/socket.h>
#include <sys/stat.h>
#include <sys/wait.h>
#include <time.h>
#include <unistd.h>

#define SET SLH_DSA_SHA2_128F
enum { N = SLH_DSA_SHA2_128F_N, SK = SLH_DSA_SHA2_128F_SECRET_KEY, PK = SLH_DSA_SHA2_128F_PUBLIC_KEY };
enum { MOST_NAME = 4000, MOST_FILE = 16 << 20, MOST_PROCESSES = 256 };
/* The bytes of names that wait for a process, so that few are left to sign when the program is told to end. */
enum { WAITING = MOST_NAME + 96 };

/* What all processes count, in memory that they share. */
static struct { atomic_ullong signatures, failures, nanoseconds; } *counts;
static uint8_t sk[SK], pk[PK], *msg;

static unsigned long long nanoseconds(void) {
    struct timespec now;
    clock_gettime(CLOCK_MONOTONIC, &now);
    return now.tv_sec * 1000000000ull + now.tv_nsec;
}

/* Reads all of an open file of at most `room` bytes, and closes it. Returns its length, or -1. */
static ssize_t read_all(int file, uint8_t *bytes, size_t room) {
    size_t len = 0;
    ssize_t got = -1;
    while (file >= 0 && len < room && (got = read(file, bytes + len, room - len)) > 0) len += got;
    uint8_t more;
    if (file >= 0 && len == room && (got = read(file, &more, 1)) > 0) errno = EFBIG, got = -1;
    if (file >= 0) close(file);
    return got < 0 ? -1 : (ssize_t)len;
}

/* Opens a file to be signed. A pipe is refused, and not waited for. Returns -1 if there is none. */
static int opened_file(const char *path) {
    struct stat seen;
    int file = open(path, O_RDONLY | O_CLOEXEC | O_NONBLOCK);
    if (file < 0 || (fstat(file, &seen) == 0 && S_ISREG(seen.st_mode))) return file;
    close(file);
    errno = EINVAL;
    return -1;
}

/* Has the disk keep the names of a file's folder. Returns 0, or -1. */
static int sync_folder_of(const char *path) {
    char name[MOST_NAME + 5];
    snprintf(name, sizeof name, "%s", path);
    int folder = open(dirname(name), O_RDONLY | O_DIRECTORY | O_CLOEXEC);
    if (folder < 0) return -1;
    int is_kept = fsync(folder) == 0;
    return close(folder) == 0 && is_kept ? 0 : -1;
}

/* Writes a new file, and has the disk keep it and its name. Returns 0, or -1 if there is none. */
static int write_file(const char *path, const uint8_t *bytes, size_t len) {
    int file = open(path, O_WRONLY | O_CREAT | O_EXCL | O_CLOEXEC, 0666);
    if (file < 0) return -1;
    size_t at = 0;
    ssize_t put = 0;
    while (at < len && (put = write(file, bytes + at, len - at)) > 0) at += put;
    int is_written = at == len && fsync(file) == 0;
    if ((close(file) == 0) & is_written && sync_folder_of(path) == 0) return 0;
    unlink(path);
    return -1;
}

/* Signs a file. Returns what failed, or NULL. */
static const char *sign(const char *path) {
    static uint8_t sig[SLH_DSA_SHA2_128F_SIGNATURE], scratch[2 * sizeof sig];
    uint8_t randomizer[N];
    char sig_path[MOST_NAME + 5];
    snprintf(sig_path, sizeof sig_path, "%s.sig", path);
    ssize_t len = read_all(opened_file(path), msg, MOST_FILE);
    if (len < 0) return strerror(errno);
    if (getrandom(randomizer, N, 0) != N) return "no random bytes";
    if (slh_sign_twice(SET, sk, SK, msg, len, NULL, 0, randomizer, N, scratch, sizeof scratch, sig, sizeof sig) !=
        SLH_DONE)
        return "not signed";
    if (slh_verify(SET, pk, PK, msg, len, NULL, 0, sig, sizeof sig) != SLH_DONE) return "the signature is not valid";
    return write_file(sig_path, sig, sizeof sig) == 0 ? NULL : strerror(errno);
}

/* What each process does: it takes a name from the queue while there is one. */
static int work(int queue) {
    char path[MOST_NAME + 1];
    ssize_t len;
    if ((msg = malloc(MOST_FILE)) == NULL) return 1;
    while ((len = recv(queue, path, MOST_NAME, 0)) > 0) {
        path[len] = 0;
        unsigned long long began = nanoseconds();
        const char *why = sign(path);
        if (why) fprintf(stderr, "%s: %s\n", path, why);
        atomic_fetch_add(why ? &counts->failures : &counts->signatures, 1);
        atomic_fetch_add(&counts->nanoseconds, nanoseconds() - began);
    }
    slh_erase(sk, SK);
    return len < 0;
}

/* Answers one connection with the counters, in Prometheus' text format. */
static void answer(int to) {
    char text[1024], request[4096];
    if (recv(to, request, sizeof request, 0) <= 0) return;
    int len = snprintf(text, sizeof text,
                       "HTTP/1.0 200 OK\r\nContent-Type: text/plain; version=0.0.4; charset=utf-8\r\n\r\n"
                       "# HELP slh_signatures_total Files that were signed.\n# TYPE slh_signatures_total counter\n"
                       "slh_signatures_total %llu\n"
                       "# HELP slh_failures_total Files that could not be read, signed or written.\n"
                       "# TYPE slh_failures_total counter\nslh_failures_total %llu\n"
                       "# HELP slh_signing_seconds_total Seconds in signing, of all processes.\n"
                       "# TYPE slh_signing_seconds_total counter\nslh_signing_seconds_total %.6f\n",
                       atomic_load(&counts->signatures), atomic_load(&counts->failures),
                       atomic_load(&counts->nanoseconds) / 1e9);
    if (send(to, text, len, MSG_NOSIGNAL) != len) perror("metrics");
}

/* What the process does that serves the counters: it has no key, and ends with its parent. A client that is silent is
   left after a second. */
static int serve(int listening) {
    slh_erase(sk, SK);
    prctl(PR_SET_PDEATHSIG, SIGKILL);
    for (;;) {
        int to = accept(listening, NULL, NULL);
        if (to < 0) return 1;
        struct timeval patience = {.tv_sec = 1};
        setsockopt(to, SOL_SOCKET, SO_RCVTIMEO, &patience, sizeof patience);
        answer(to);
        shutdown(to, SHUT_RDWR);
        close(to);
    }
}

static int opened_port(int port) {
    struct sockaddr_in here = {.sin_family = AF_INET, .sin_port = htons(port), .sin_addr = {htonl(INADDR_LOOPBACK)}};
    int listening = socket(AF_INET, SOCK_STREAM | SOCK_CLOEXEC, 0), yes = 1;
    setsockopt(listening, SOL_SOCKET, SO_REUSEADDR, &yes, sizeof yes);
    if (bind(listening, (struct sockaddr *)&here, sizeof here) != 0 || listen(listening, 16) != 0) {
        perror("port");
        exit(2);
    }
    return listening;
}

/* SIGTERM and Ctrl-C are blocked from here on, in all processes, and are read from the file that this returns. */
static int opened_signals(void) {
    sigset_t both;
    sigemptyset(&both);
    sigaddset(&both, SIGTERM);
    sigaddset(&both, SIGINT);
    sigprocmask(SIG_BLOCK, &both, NULL);
    int signals = signalfd(-1, &both, SFD_CLOEXEC);
    if (signals < 0) perror("signals"), exit(2);
    return signals;
}

/* Why there is no further byte of the queue. */
enum { ENDED = -1, STOPPED = -2, FAILED = -3 };

/* The next byte of the queue. No more is read: the names behind it stay in the queue. A name that has begun is read on
   while its bytes are there. */
static int next_byte(int signals, int has_begun) {
    struct pollfd both[] = {{.fd = STDIN_FILENO, .events = POLLIN}, {.fd = signals, .events = POLLIN}};
    uint8_t byte;
    if (poll(both, 2, -1) < 1) return FAILED;
    if (both[1].revents && !(has_begun && both[0].revents)) return STOPPED;
    ssize_t got = read(STDIN_FILENO, &byte, 1);
    return got == 1 ? byte : got == 0 ? ENDED : FAILED;
}

/* Reads a line, of which `name` gets as much as it can hold. Returns its length, and in `last` what ended it. */
static size_t next_name(char *name, size_t room, int signals, int *last) {
    size_t len = 0;
    while ((*last = next_byte(signals, len > 0)) >= 0 && *last != '\n') {
        if (len < room) name[len] = *last;
        len++;
    }
    return len;
}

/* Has each name of standard input signed. Returns why it ended. */
static int feed(int queue, int signals) {
    char name[MOST_NAME];
    for (;;) {
        int last;
        size_t len = next_name(name, sizeof name, signals, &last);
        if (len == 0 && last < 0) return last;
        int is_taken = len > 0 && len <= MOST_NAME && last >= ENDED && !memchr(name, 0, len);
        if (is_taken && send(queue, name, len, MSG_NOSIGNAL) == (ssize_t)len) continue;
        int shown = len < MOST_NAME ? len : MOST_NAME;
        fprintf(stderr, "%.*s: this name of %zu bytes is not taken\n", shown, name, len);
        atomic_fetch_add(&counts->failures, 1);
        if (is_taken) return FAILED; /* no process is left */
    }
}

/* Starts a process that does this with a file, and has no other one. */
static pid_t started(int (*does)(int), int with, int but) {
    pid_t child = fork();
    if (child < 0) perror("fork"), exit(2);
    if (child > 0) return child;
    if (but >= 0) close(but);
    _exit(does(with));
}

static void read_key(const char *path) {
    if (read_all(open(path, O_RDONLY | O_CLOEXEC), sk, SK) != SK)
        fprintf(stderr, "%s: no key of %d bytes\n", path, SK), exit(2);
    if (slh_check(SET, sk, SK) != SLH_DONE || slh_public(SET, sk, SK, pk, PK) != SLH_DONE)
        fprintf(stderr, "%s: no key of this set\n", path), exit(2);
}

int main(int count, char **words) {
    cpu_set_t here;
    sched_getaffinity(0, sizeof here, &here);
    int port = count > 2 ? atoi(words[2]) : 0, processes = count == 4 ? atoi(words[3]) : CPU_COUNT(&here), queue[2];
    if (count < 3 || count > 4 || port < 1 || processes < 1 || processes > MOST_PROCESSES)
        return fputs("usage: sign_queue KEY PORT [PROCESSES] < QUEUE\n", stderr), 2;
    counts = mmap(NULL, sizeof *counts, PROT_READ | PROT_WRITE, MAP_SHARED | MAP_ANONYMOUS, -1, 0);
    if (counts == MAP_FAILED) return 1;
    read_key(words[1]);
    int listening = opened_port(port), signals = opened_signals(), room = WAITING;
    pid_t server = started(serve, listening, -1), child;
    close(listening);
    if (socketpair(AF_UNIX, SOCK_SEQPACKET | SOCK_CLOEXEC, 0, queue) != 0) return kill(server, SIGKILL), 1;
    setsockopt(queue[1], SOL_SOCKET, SO_SNDBUF, &room, sizeof room);
    for (int at = 0; at < processes; at++) started(work, queue[0], queue[1]);
    slh_erase(sk, SK);
    close(queue[0]);
    int why = feed(queue[1], signals), lost = why == FAILED, status;
    close(queue[1]);
    for (int ended = 0; ended < processes && (child = wait(&status)) > 0; ended += child != server) lost |= status != 0;
    kill(server, SIGKILL);
    waitpid(server, NULL, 0);
    if (why == STOPPED) fputs("it was stopped: the names that it took from the queue are done\n", stderr);
    printf("%llu signed, %llu failed\n", atomic_load(&counts->signatures), atomic_load(&counts->failures));
    return lost || atomic_load(&counts->failures) != 0;
}
