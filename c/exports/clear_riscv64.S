/*
 * uint32_t slh_clear(uint32_t result, size_t depth, uint32_t vectors) on 64-bit RISC-V: exports.h says what it does.
 *
 * As in clear_aarch64.S: registers go first, then the stack by 16 bytes at a time. A callee keeps s0 to s11 and fs0 to
 * fs11. a0 has the result as a call hands it back, its 32 bits with their sign.
 */
#include "assembler.h"
        begin_function slh_clear
        .irp name, ft0, ft1, ft2, ft3, ft4, ft5, ft6, ft7, ft8, ft9, ft10, ft11, fa0, fa1, fa2, fa3, fa4, fa5, fa6, fa7
        fmv.d.x \name, zero
        .endr
        .irp name, a2, a3, a4, a5, a6, a7, t1, t2, t3, t4, t5, t6
        li \name, 0
        .endr
        mv t0, sp
        sub a1, sp, a1
1:      addi sp, sp, -16
        sd zero, 0(sp)
        sd zero, 8(sp)
        bltu a1, sp, 1b
        mv sp, t0
        li t0, 0
        li a1, 0
        ret
        end_function slh_clear
