/*
 * uint32_t slh_clear(uint32_t result, size_t depth, uint32_t vectors) on x86-64 Windows: exports.h says what it does.
 *
 * Registers go first, and the stack pointer is below all that is cleared meanwhile, as in clear_x86_64.S. It goes down
 * by a page at most before that is written: the system takes pages into the stack one by one. A callee keeps rbx, rbp,
 * rsi, rdi, r12 to r15, and the lower 128 bits of xmm6 to xmm15: of these the upper bits are cleared alone. The 32
 * bytes above the address of return are the callee's, too.
 */
#include "assembler.h"
        begin_function slh_clear
        push %rbp
        .seh_pushreg %rbp
        mov %rsp, %rbp
        .seh_setframe %rbp, 0
        .seh_endprologue
        cmp $1, %r8d
        jb 1f
        je 2f
        .irp number, 16, 17, 18, 19, 20, 21, 22, 23, 24, 25, 26, 27, 28, 29, 30, 31
        vpxord %zmm\number, %zmm\number, %zmm\number
        .endr
        .irp number, 0, 1, 2, 3, 4, 5, 6, 7
        kxorw %k\number, %k\number, %k\number
        .endr
2:      vzeroupper
1:      .irp number, 0, 1, 2, 3, 4, 5
        pxor %xmm\number, %xmm\number
        .endr
        mov %ecx, %r9d
        mov %rdi, %r10
        xor %eax, %eax
        .irp at, 16, 24, 32, 40
        mov %rax, \at(%rbp)
        .endr
4:      mov $4096, %ecx
        cmp %rcx, %rdx
        cmovb %rdx, %rcx
        sub %rcx, %rdx
        sub %rcx, %rsp
        shr $3, %rcx
        mov %rsp, %rdi
        rep stosq
        test %rdx, %rdx
        jnz 4b
        mov %r10, %rdi
        mov %r9d, %eax
        xor %r8d, %r8d
        xor %r9d, %r9d
        xor %r10d, %r10d
        xor %r11d, %r11d
        mov %rbp, %rsp
        pop %rbp
        ret
        end_function slh_clear
