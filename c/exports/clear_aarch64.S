/*
 * uint32_t slh_clear(uint32_t result, size_t depth, uint32_t vectors): exports.h says what it does.
 *
 * Registers go first, so that a signal that comes while the stack is cleared saves none of the call's values. The stack
 * pointer is below all that is cleared meanwhile, so that the frame of a signal is never in it. It goes down by 16
 * bytes at a time, so that a stack that is too short ends at its guard page. x18 is the system's. A callee keeps the
 * lower halves of v8 to v15 alone: to write them clears the rest, of longer vectors (SVE), too.
 */
#include "assembler.h"
        begin_function slh_clear
        .irp number, 0, 1, 2, 3, 4, 5, 6, 7, 16, 17, 18, 19, 20, 21, 22, 23, 24, 25, 26, 27, 28, 29, 30, 31
        movi v\number\().2d, #0
        .endr
        .irp number, 8, 9, 10, 11, 12, 13, 14, 15
        fmov d\number, d\number
        .endr
        .irp number, 3, 4, 5, 6, 7, 8, 9, 10, 11, 12, 13, 14, 15, 16, 17
        mov x\number, #0
        .endr
        mov x2, sp
        sub x1, x2, x1
1:      stp xzr, xzr, [sp, #-16]!
        cmp sp, x1
        b.hi 1b
        mov sp, x2
        mov w0, w0
        mov x1, #0
        mov x2, #0
        ret
        end_function slh_clear
