/*
 * How a function in assembler begins, and how a file ends: in ELF, in Mach-O and in COFF. If the compiler lets
 * functions begin with a pad for indirect branches (tools/targets.py), these do, too, and have the note that says so:
 * the linker marks a program or a shared object only if all of its objects have it.
 */
#if defined(__APPLE__)
        .macro begin_function name
        .text
        .globl _\name
        .private_extern _\name
        .p2align 4
_\name:
        .endm
        .macro end_function name
        .endm
        .subsections_via_symbols
#elif defined(_WIN32)
        .macro begin_function name
        .text
        .def \name
        .scl 2
        .type 32
        .endef
        .globl \name
        .p2align 4
\name:
        .seh_proc \name
        .endm
        .macro end_function name
        .seh_endproc
        .endm
#else
#if defined(__CET__)
        .macro begin_pad
        endbr64
        .endm
#define NOTE_KIND 0xc0000002
#elif defined(__ARM_FEATURE_BTI_DEFAULT)
        .macro begin_pad
        hint #34
        .endm
#define NOTE_KIND 0xc0000000
#else
        .macro begin_pad
        .endm
#endif
        .macro begin_function name
        .section .text.\name, "ax", %progbits
        .globl \name
        .hidden \name
        .type \name, %function
        .p2align 4
\name:
        begin_pad
        .endm
        .macro end_function name
        .size \name, . - \name
        .section .note.GNU-stack, "", %progbits
#ifdef NOTE_KIND
        .section .note.gnu.property, "a", %note
        .p2align 3
        .long 4, 16, 5
        .asciz "GNU"
        .long NOTE_KIND, 4, 3, 0
#endif
        .endm
#endif
