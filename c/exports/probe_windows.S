/*
 * Reads each page of a frame of RAX bytes that its caller is about to take, from the top, so that the system takes them
 * into the stack: what ___chkstk_ms of MinGW does, under a name of our own, for which the proved code asks here. It
 * changes no register.
 */
#include "assembler.h"
        begin_function slh_probe
        push %rcx
        .seh_pushreg %rcx
        push %rax
        .seh_pushreg %rax
        .seh_endprologue
        lea 24(%rsp), %rcx
        cmp $4096, %rax
        jb 2f
1:      sub $4096, %rcx
        test %rcx, (%rcx)
        sub $4096, %rax
        cmp $4096, %rax
        ja 1b
2:      sub %rax, %rcx
        test %rcx, (%rcx)
        pop %rax
        pop %rcx
        ret
        end_function slh_probe
