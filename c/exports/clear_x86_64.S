/*
 * uint32_t slh_clear(uint32_t result, size_t depth, uint32_t vectors): exports.h says what it does.
 *
 * Registers go first, so that a signal that comes while the stack is cleared saves none of the call's values. The stack
 * pointer is below all that is cleared meanwhile, so that the frame of a signal is never in it. It goes down by a page
 * at most before that is written, so that a stack that is too short ends at its guard page.
 */
#include "assembler.h"
        begin_function slh_clear
        mov %edx, %ecx
        mov %edi, %edx
        cmp $1, %ecx
        jb 1f
        je 2f
        .irp number, 16, 17, 18, 19, 20, 21, 22, 23, 24, 25, 26, 27, 28, 29, 30, 31
        vpxord %zmm\number, %zmm\number, %zmm\number
        .endr
        .irp number, 0, 1, 2, 3, 4, 5, 6, 7
        kxorw %k\number, %k\number, %k\number
        .endr
2:      vzeroall
        jmp 3f
1:      .irp number, 0, 1, 2, 3, 4, 5, 6, 7, 8, 9, 10, 11, 12, 13, 14, 15
        pxor %xmm\number, %xmm\number
        .endr
3:      mov %rsp, %r8
        xor %eax, %eax
4:      mov $4096, %ecx
        cmp %rcx, %rsi
        cmovb %rsi, %rcx
        sub %rcx, %rsi
        sub %rcx, %rsp
        shr $3, %rcx
        mov %rsp, %rdi
        rep stosq
        test %rsi, %rsi
        jnz 4b
        mov %r8, %rsp
        mov %edx, %eax
        xor %edx, %edx
        xor %esi, %esi
        xor %edi, %edi
        xor %r8d, %r8d
        xor %r9d, %r9d
        xor %r10d, %r10d
        xor %r11d, %r11d
        ret
        end_function slh_clear
