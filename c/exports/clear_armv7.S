/*
 * uint32_t slh_clear(uint32_t result, size_t depth, uint32_t vectors) on 32-bit ARM with NEON: exports.h says what it
 * does.
 *
 * As in clear_aarch64.S: registers go first, then the stack by 16 bytes at a time. A callee keeps r4 to r11 and d8 to
 * d15.
 */
#include "assembler.h"
        .syntax unified
        .fpu neon
        begin_function slh_clear
        .irp number, 0, 1, 2, 3, 8, 9, 10, 11, 12, 13, 14, 15
        vmov.i32 q\number, #0
        .endr
        mov r2, sp
        sub r1, sp, r1
        mov r3, #0
        mov r12, #0
1:      push {r3, r12}
        push {r3, r12}
        cmp sp, r1
        bhi 1b
        mov sp, r2
        mov r1, #0
        mov r2, #0
        bx lr
        end_function slh_clear
