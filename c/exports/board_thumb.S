/*
 * What linkers compare of the archives for Thumb, in place of what the compiler writes: no call takes a floating-point
 * number or an enum. So a program links them whatever it does about these.
 */
    .syntax unified
    .eabi_attribute 24, 1 /* Tag_ABI_align_needed: 8 bytes */
    .eabi_attribute 25, 1 /* Tag_ABI_align_preserved: 8 bytes, except leaf functions' stack pointer */
    .eabi_attribute 28, 3 /* Tag_ABI_VFP_args: either */
    .section .note.GNU-stack, "", %progbits
