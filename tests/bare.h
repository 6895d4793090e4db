/* What tests/target_calls.c takes of C where there is no C library: a program for Linux on 32-bit RISC-V, which
   qemu-riscv32 runs. Memory is given once and never again. Formats are those that the program uses. */
#ifndef BARE_H
#define BARE_H
#include <stdarg.h>
#include <stddef.h>
#include <stdint.h>

#define EOF (-1)
#define stdout 1
#define stderr 2
enum { READ = 63, WRITE = 64, EXIT = 93, ARENA = 1 << 26 };

int main(void);

static long ask(long what, long a, long b, long c) {
    register long a0 __asm__("a0") = a, a1 __asm__("a1") = b, a2 __asm__("a2") = c, a7 __asm__("a7") = what;
    __asm__ volatile("ecall" : "+r"(a0) : "r"(a1), "r"(a2), "r"(a7) : "memory");
    return a0;
}

_Noreturn static void exit(int status) {
    ask(EXIT, status, 0, 0);
    for (;;) {}
}

__attribute__((used)) static void begin(void) { exit(main()); }

__attribute__((naked, used)) void _start(void);
void _start(void) {
    __asm__ volatile(".option push\n.option norelax\nla gp, __global_pointer$\n.option pop\nj begin");
}

void *memcpy(void *to, const void *from, size_t n) {
    for (size_t i = 0; i < n; i++) ((volatile uint8_t *)to)[i] = ((const uint8_t *)from)[i];
    return to;
}

void *memmove(void *to, const void *from, size_t n) {
    if ((uintptr_t)to <= (uintptr_t)from) return memcpy(to, from, n);
    for (size_t i = n; i > 0; i--) ((volatile uint8_t *)to)[i - 1] = ((const uint8_t *)from)[i - 1];
    return to;
}

void *memset(void *to, int byte, size_t n) {
    for (size_t i = 0; i < n; i++) ((volatile uint8_t *)to)[i] = (uint8_t)byte;
    return to;
}

/* A quotient of 64 bits, which the compiler asks for by this name. */
uint64_t __udivdi3(uint64_t a, uint64_t b) {
    uint64_t quotient = 0, rest = 0;
    for (int bit = 63; bit >= 0; bit--) {
        rest = rest << 1 | (a >> bit & 1);
        if (rest >= b) rest -= b, quotient |= (uint64_t)1 << bit;
    }
    return quotient;
}

static inline int strcmp(const char *a, const char *b) {
    while (*a && *a == *b) a++, b++;
    return *a - *b;
}

/* The block that was given last grows where it is: no other is asked to. */
static inline void *realloc(void *it, size_t n) {
    static uint64_t arena[ARENA / 8];
    static size_t taken;
    if (it == NULL) it = arena + taken;
    taken = (size_t)((uint64_t *)it - arena) + (n + 7) / 8;
    if (taken > ARENA / 8) exit(3);
    return it;
}

static inline void free(void *it) { (void)it; }

static inline int getchar(void) {
    static uint8_t read[4096];
    static long at, end;
    if (at == end) at = 0, end = ask(READ, 0, (long)read, sizeof read);
    return end > 0 ? read[at++] : EOF;
}

static char written[4096];
static size_t waiting;

static void fflush(int file) {
    for (size_t at = 0; at < waiting;) at += (size_t)ask(WRITE, file, (long)written + (long)at, (long)(waiting - at));
    waiting = 0;
}

static void put(char it) {
    if (waiting == sizeof written) fflush(stdout);
    written[waiting++] = it;
}

static void fputs(const char *text, int file) {
    (void)file;
    while (*text) put(*text++);
}

static void puts(const char *text) { fputs(text, stdout), put('\n'); }

/* A number in the base of a format, `%u` or `%02x`. */
static void printf(const char *format, unsigned number) {
    unsigned base = format[1] == 'u' ? 10 : 16;
    char digits[12], *at = digits + sizeof digits;
    *--at = 0;
    do *--at = "0123456789abcdef"[number % base];
    while ((number /= base) > 0 || (base == 16 && at > digits + sizeof digits - 3));
    fputs(at, stdout);
}

#define fprintf(file, format, name) (fflush(stdout), fputs(name, file), fflush(file))
#endif
