/*
 * Tells on standard error how many bytes of stack a program took: the first thread, from the start of this library on,
 * and the one of the other threads that took the most. Each stack is filled with one byte value before the thread runs,
 * and what no longer has it was used. The test command does not run it.
 *
 *     cc -O1 -shared -fPIC -o stack.so tests/benches/program_stack.c
 *     LD_PRELOAD=./stack.so out/program/x86-64-v2/slh sign --key secret.key --message letter.txt --workers 64 > letter.sig
 */
#define _GNU_SOURCE
#include <dlfcn.h>
#include <pthread.h>
#include <stdint.h>
#include <stdio.h>
#include <stdlib.h>
#include <string.h>
#include <sys/mman.h>
#include <unistd.h>

enum { STACK = 1 << 20, FIRST = 600000, PAINT = 0x5c, MOST_THREADS = 4096 };

static uint8_t *first, *stacks[MOST_THREADS];
static size_t threads;

static size_t used(const uint8_t *low, size_t size) {
    size_t untouched = 0;
    while (untouched < size && low[untouched] == PAINT) untouched++;
    return size - untouched;
}

/* Every thread gets a painted stack, whatever size was asked for. */
int pthread_create(pthread_t *thread, const pthread_attr_t *asked, void *(*run)(void *), void *it) {
    int (*create)(pthread_t *, const pthread_attr_t *, void *(*)(void *), void *);
    *(void **)&create = dlsym(RTLD_NEXT, "pthread_create");
    uint8_t *stack = mmap(NULL, STACK, PROT_READ | PROT_WRITE, MAP_PRIVATE | MAP_ANONYMOUS | MAP_STACK, -1, 0);
    size_t number = __atomic_fetch_add(&threads, 1, __ATOMIC_SEQ_CST);
    pthread_attr_t attributes;
    int detached = PTHREAD_CREATE_JOINABLE;
    if (stack == MAP_FAILED || number >= MOST_THREADS) abort();
    memset(stack, PAINT, STACK);
    stacks[number] = stack;
    pthread_attr_init(&attributes);
    pthread_attr_setstack(&attributes, stack, STACK);
    if (asked) pthread_attr_getdetachstate(asked, &detached);
    pthread_attr_setdetachstate(&attributes, detached);
    return create(thread, &attributes, run, it);
}

static __attribute__((noinline)) void paint_below(void) {
    uint8_t room[FIRST];
    memset(room, PAINT, FIRST);
    __asm__ volatile("" : : "r"(room) : "memory");
}

__attribute__((constructor)) static void begin(void) {
    first = __builtin_frame_address(0);
    paint_below();
}

static void tell(void) {
    char line[100];
    size_t most = 0;
    for (size_t i = 0; i < threads; i++)
        if (used(stacks[i], STACK) > most) most = used(stacks[i], STACK);
    int length = snprintf(line, sizeof line, "stack: first thread %zu, of %zu others at most %zu\n",
                          used(first - FIRST + 4096, FIRST - 4096), threads, most);
    if (write(2, line, (size_t)length) < 0) return;
}

__attribute__((destructor)) static void end(void) { tell(); }

/* Where the program ends by it, no destructor runs. */
void _exit(int status) {
    void (*leave)(int) __attribute__((noreturn));
    *(void **)&leave = dlsym(RTLD_NEXT, "_exit");
    tell();
    leave(status);
}
