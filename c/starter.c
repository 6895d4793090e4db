/*
 * FOLDER/x86-64/slh, which runs FOLDER/x86-64-v2/slh, or that of -v3 or -v4, in its own place. FOLDER is dist/, where
 * ./slh runs it, or PREFIX/lib/slh, where PREFIX/bin/slh is a link to it. It chooses at each start, since machines of
 * different kinds may share one installation, and by c/exports/chosen.c, as the library does. SLH_CPU, x86-64-v2,
 * x86-64-v3 or x86-64-v4, chooses in its place.
 *
 * It asks Linux for its own path, so that links to it work and FOLDER can be moved. It takes 0.1 ms, and would take 0.3
 * with a C library, even a static one. So it has none. tools/program.sh builds it.
 */
#include "exports/exports.h"

/* Numbers of Linux: system calls on x86-64, and the longest path, with the byte that ends it. */
enum { WRITE = 1, EXECVE = 59, READLINK = 89, EXIT_GROUP = 231 };
enum { LONGEST_PATH = 4096 };
/* Status 1 says that a signature is invalid. */
enum { STANDARD_ERROR = 2, REFUSED = 2 };

#define OWN_PATH "/proc/self/exe"
#define NAME "slh: "
#define BUILD "/../x86-64-v#/slh"
#define FAULT " can't be run\n"
#define LEVEL "x86-64-v"
#define LACKS "this processor is not of the level " LEVEL "#"

/* What is said where the build can't be run: its path is behind the name. */
static char text[sizeof NAME + LONGEST_PATH + sizeof BUILD + sizeof FAULT];

static long system_call(long number, long first, long second, long third) {
    long answer;
    __asm__ volatile("syscall"
                     : "=a"(answer)
                     : "a"(number), "D"(first), "S"(second), "d"(third)
                     : "rcx", "r11", "memory");
    return answer;
}

/* Writes a text, with the byte that ends it, and returns where that byte is. `level` stands in place of '#'. */
static char *put(char *to, const char *it, char level) {
    for (; *it != 0; it++) *to++ = *it == '#' ? level : *it;
    *to = 0;
    return to;
}

/* Says the text up to `end`, and ends. */
static void refuse(const char *end) {
    system_call(WRITE, STANDARD_ERROR, (long)text, end - text);
    for (;;) system_call(EXIT_GROUP, REFUSED, 0, 0);
}

/* Reads the path of this file to `path`, and returns where that of its folder ends, or null. */
static char *read_folder(char *path) {
    long length = system_call(READLINK, (long)OWN_PATH, (long)path, LONGEST_PATH);
    if (length <= 0 || length >= LONGEST_PATH) return 0;
    while (length > 0 && path[length] != '/') length--;
    return path + length;
}

/* What follows `start` in a text that begins with it, or null. */
static const char *after(const char *it, const char *start) {
    for (; *start != 0; it++, start++)
        if (*it != *start) return 0;
    return it;
}

/* The level that SLH_CPU names, 0 if it is not set or empty, or UNKNOWN. */
enum { UNKNOWN = 1 };
static uint32_t level_asked_for(char **environment) {
    const char *it = 0;
    while (*environment != 0 && it == 0) it = after(*environment++, "SLH_CPU=");
    if (it == 0 || *it == 0) return 0;
    it = after(it, LEVEL);
    return it != 0 && *it >= '2' && *it <= '4' && it[1] == 0 ? (uint32_t)(*it - '0') : UNKNOWN;
}

/* What Linux leaves on the stack of a new process: the number of its arguments, these, NULL, and the environment. */
HIDDEN void slh_start(char **stack);
void slh_start(char **stack) {
    char **arguments = stack + 1, **environment = arguments + (size_t)*stack + 1;
    char *path = put(text, NAME, 0), *end = read_folder(path);
    if (!end) refuse(put(path, OWN_PATH " can't be read\n", 0));
    uint32_t level = slh_choose() & LEVEL_MASK, asked_for = level_asked_for(environment);
    if (asked_for == UNKNOWN) refuse(put(path, "SLH_CPU is x86-64-v2, x86-64-v3 or x86-64-v4\n", 0));
    if (level == BELOW_V2) refuse(put(path, LACKS "\n", '2'));
    if (asked_for > level) refuse(put(path, LACKS ": unset SLH_CPU\n", (char)('0' + asked_for)));
    end = put(end, BUILD, (char)('0' + (asked_for != 0 ? asked_for : level)));
    system_call(EXECVE, (long)path, (long)arguments, (long)environment);
    refuse(put(end, FAULT, 0));
}

__asm__(".globl _start\n"
        "_start:\n"
        "    xor %ebp, %ebp\n"
        "    mov %rsp, %rdi\n"
        "    call slh_start\n");
