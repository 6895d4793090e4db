/*
 * Tells on standard error what the threads of a program did, preloaded under it. A run of threads is from the start of
 * the first thread while there is no other until the last one has ended. The first thread of the program takes part.
 * Printed are the means over the runs, in microseconds, and after them the same of the shortest run:
 *
 *     alone    between the end of the run before and this run: the program's first thread alone
 *     span     how long the run took
 *     work     the processor time of the threads that worked, over their number
 *     start    how long after the start of the run such a thread began, the mean
 *     wait     how long such a thread could have run and had no processor, after it had begun, the mean
 *     tail     how long before the end of the run such a thread had nothing more to do, the mean
 *     others   the processor time of all other threads: those that took less than a tenth of what one took that worked,
 *              since they did no more than start threads
 *
 * So span is about work + start + wait + tail. Then `shared`, the runs in which two threads that worked began on one
 * processor.
 *
 *     cc -O1 -shared -fPIC -o times.so tests/benches/thread_times.c
 *     LD_PRELOAD=./times.so crates/slh_bench/out/slh_bench sign_par 50 SLH-DSA-SHA2-128f 4
 *
 * The test command does not run it.
 */
#define _GNU_SOURCE
#include <dlfcn.h>
#include <fcntl.h>
#include <pthread.h>
#include <sched.h>
#include <stdint.h>
#include <stdio.h>
#include <stdlib.h>
#include <sys/syscall.h>
#include <time.h>
#include <unistd.h>

enum { MOST_THREADS = 128 };

typedef int64_t nanoseconds;

/* A thread within a run: its clock, processor time and time without a processor when it began and when it was done. */
struct part {
    nanoseconds began, done, work_before, work, wait_before, wait;
    int processor;
};

struct run {
    nanoseconds alone, span, work, start, wait, tail, others;
};

static pthread_mutex_t lock = PTHREAD_MUTEX_INITIALIZER;
static struct part parts[MOST_THREADS];
static int begun, living;
static nanoseconds run_start, run_end;
static struct run sum, shortest;
static long runs, shared;
static __thread struct part *mine;

static nanoseconds now(clockid_t clock) {
    struct timespec t;
    clock_gettime(clock, &t);
    return t.tv_sec * 1000000000LL + t.tv_nsec;
}

/* The second number of the thread's schedstat. */
static nanoseconds waited(void) {
    char path[64], text[128] = "";
    snprintf(path, sizeof path, "/proc/self/task/%ld/schedstat", syscall(SYS_gettid));
    int file = open(path, O_RDONLY);
    long long ran = 0, wait = 0;
    if (file >= 0 && read(file, text, sizeof text - 1) > 0) sscanf(text, "%lld %lld", &ran, &wait);
    if (file >= 0) close(file);
    return wait;
}

static void begin(struct part *part) {
    *part = (struct part){.began = now(CLOCK_MONOTONIC), .processor = sched_getcpu()};
    part->wait_before = waited();
    part->work_before = now(CLOCK_THREAD_CPUTIME_ID);
    mine = part;
}

/* Called when a thread first waits for another, and when it ends: the first counts. */
static void be_done(void) {
    if (mine == NULL || mine->done != 0) return;
    mine->done = now(CLOCK_MONOTONIC);
    mine->work = now(CLOCK_THREAD_CPUTIME_ID) - mine->work_before;
    mine->wait = waited() - mine->wait_before;
}

static void add(struct run *to, const struct run *from) {
    to->alone += from->alone, to->span += from->span, to->work += from->work;
    to->start += from->start, to->wait += from->wait, to->tail += from->tail, to->others += from->others;
}

/* Moves the threads that worked to the front, gives the processor time of the others to the run, and returns how many
 * worked. */
static int workers(struct run *run) {
    nanoseconds most = 0;
    int count = 0;
    for (int i = 0; i < begun; i++) most = parts[i].work > most ? parts[i].work : most;
    for (int i = 0; i < begun; i++) {
        if (10 * parts[i].work >= most) parts[count++] = parts[i];
        else run->others += parts[i].work;
    }
    return count;
}

/* Adds up the run that has just ended. */
static void end_run(void) {
    nanoseconds before = run_end, last = 0;
    struct run run = {0};
    int met = 0;
    run_end = now(CLOCK_MONOTONIC);
    int count = workers(&run);
    for (int i = 0; i < count; i++) last = parts[i].done > last ? parts[i].done : last;
    for (int i = 0; i < count; i++) {
        run.work += parts[i].work / count, run.wait += parts[i].wait / count;
        run.start += (parts[i].began - run_start) / count, run.tail += (last - parts[i].done) / count;
        for (int k = 0; k < i; k++) met |= parts[i].processor == parts[k].processor;
    }
    run.span = run_end - run_start, run.alone = run_start - before;
    if (before == 0) return; /* nothing is known of the time before the first run */
    if (runs == 0 || run.span < shortest.span) shortest = run;
    add(&sum, &run), runs++, shared += met;
}

struct call {
    void *(*function)(void *);
    void *argument;
    struct part *part;
};

static void *thread(void *given) {
    struct call call = *(struct call *)given;
    free(given);
    begin(call.part);
    void *answer = call.function(call.argument);
    be_done();
    return answer;
}

int pthread_create(pthread_t *id, const pthread_attr_t *attributes, void *(*function)(void *), void *argument) {
    int (*create)(pthread_t *, const pthread_attr_t *, void *(*)(void *), void *) = dlsym(RTLD_NEXT, "pthread_create");
    struct call *call = malloc(sizeof *call);
    pthread_mutex_lock(&lock);
    if (living == 0) {
        begun = 0, run_start = now(CLOCK_MONOTONIC);
        begin(&parts[begun++]);
    }
    living++;
    *call = (struct call){function, argument, &parts[begun < MOST_THREADS ? begun++ : MOST_THREADS - 1]};
    pthread_mutex_unlock(&lock);
    return create(id, attributes, thread, call);
}

int pthread_join(pthread_t id, void **answer) {
    int (*join)(pthread_t, void **) = dlsym(RTLD_NEXT, "pthread_join");
    be_done();
    int status = join(id, answer);
    pthread_mutex_lock(&lock);
    if (--living == 0) end_run();
    pthread_mutex_unlock(&lock);
    return status;
}

static void print(const char *name, const struct run *run, long over) {
    double scale = 1000.0 * (double)over;
    fprintf(stderr, "%s: alone %.0f span %.0f work %.0f start %.0f wait %.0f tail %.0f others %.0f\n", name,
            run->alone / scale, run->span / scale, run->work / scale, run->start / scale, run->wait / scale,
            run->tail / scale, run->others / scale);
}

/* A program of `rt` ends by `_exit`. */
void _exit(int status) {
    if (runs != 0) {
        print("mean", &sum, runs);
        print("shortest", &shortest, 1);
        fprintf(stderr, "runs %ld, shared %ld\n", runs, shared);
    }
    for (;;) syscall(SYS_exit_group, status);
}
