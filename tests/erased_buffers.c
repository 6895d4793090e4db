/*
 * Tries slh_erase: it overwrites what it is told and no byte beside, does nothing for no bytes, and stays where an
 * optimizing compiler sees that nobody reads the bytes again. And tries that a program's first call leaves zeros alone
 * below its caller: this one is to be linked so that the loader finds the calls of C when they are called (-z lazy).
 * The status is 0 where all is so.
 */
#define _GNU_SOURCE
#include <slh.h>

#include <stdio.h>
#include <string.h>
#include <ucontext.h>

enum { SECRET = 64, ROOM = 4096, STACK = 1 << 14, PAINT = 0x5c, FRAME = 256 };

static uint8_t secret[SECRET], painted[STACK], pk[SLH_DSA_SHA2_128F_PUBLIC_KEY];
static uint8_t *top;
static uint32_t result;

static void first_call(void) {
    top = __builtin_frame_address(0);
    result = slh_public(SLH_DSA_SHA2_128F, secret, sizeof secret, pk, sizeof pk);
}

/* Whether the call leaves bytes of two values alone, the paint and 0, but for the frame of its caller. No memcpy or
   memset comes before it, so that the loader is not asked for one. */
static int leaves_zeros(void) {
    ucontext_t inner, outer;
    size_t others = 0, zeros = 0;
    for (volatile uint8_t *at = painted; at < painted + STACK; at++) *at = PAINT;
    if (getcontext(&inner)) return 0;
    inner.uc_stack.ss_sp = painted;
    inner.uc_stack.ss_size = STACK;
    inner.uc_link = &outer;
    makecontext(&inner, first_call, 0);
    if (swapcontext(&outer, &inner) || result != SLH_DONE) return 0;
    for (uint8_t *at = painted; at < top - FRAME; at++) {
        zeros += *at == 0;
        others += *at != 0 && *at != PAINT;
    }
    return zeros > 0 && others == 0;
}

static int spoils(void);
static int finds(void);
/* The compiler can't see which function is called, and so merges no frames. */
static int (*volatile spoil)(void) = spoils, (*volatile find)(void) = finds;

/* Has copies of the secret in a buffer of its own, uses them, and erases the buffer at its end. */
static int spoils(void) {
    uint8_t copies[ROOM];
    int sum = 0;
    for (size_t i = 0; i < sizeof copies; i += SECRET) memcpy(copies + i, secret, SECRET);
    for (volatile uint8_t *at = copies; at < copies + sizeof copies; at += 5) sum += *at;
    slh_erase(copies, sizeof copies);
    return sum;
}

/* Whether a copy is in the stack below: in what this function has not written yet. */
static int finds(void) {
    volatile uint8_t room[STACK];
    size_t same = 0;
    room[0] = 0;
    for (size_t i = 1; i < sizeof room; i++) {
        same = room[i] == secret[same] ? same + 1 : room[i] == secret[0];
        if (same == SECRET) return 1;
    }
    return 0;
}

static int is_told(const char *what, int is_right) {
    if (!is_right) printf("%s\n", what);
    return is_right;
}

int main(void) {
    uint8_t some[9] = "abcdefgh";
    int is_right = 1;
    for (size_t i = 0; i < sizeof secret; i++) secret[i] = (uint8_t)(255 - 3 * i);
    is_right &= is_told("the first call leaves more than zeros", leaves_zeros());
    slh_erase(NULL, 0);
    slh_erase(some, 0);
    is_right &= is_told("no bytes are not nothing", memcmp(some, "abcdefgh", 9) == 0);
    slh_erase(some + 2, 3);
    is_right &= is_told("other bytes than those", memcmp(some, "ab\0\0\0fgh", 9) == 0);
    is_right &= is_told("the buffer was not used", spoil() != 0);
    is_right &= is_told("the buffer is still there", !find());
    return !is_right;
}
