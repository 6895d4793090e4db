/*
 * SLH-DSA (FIPS 205) with SHA-2 as portable C: all calls of slh.h and slh_internal.h. Version @VERSION@.
 *
 * SPDX-License-Identifier: MIT OR Apache-2.0
 *
 *   cc program.c slh.c
 *
 * It takes a C11 compiler, and the headers slh.h, slh_verify.h and slh_internal.h. Of C it uses malloc, free, abort,
 * memcpy, memmove and memset. Each call takes its memory by malloc, some 64 KB and its arguments, and gives it back
 * overwritten with zeros. Where malloc refuses, the call returns SLH_NO_MEMORY, and has written nothing. Any number of
 * threads may call at once.
 *
@COMMON@
 *
 * Not cleared is what a call leaves in C's own stack and registers: a compiler puts secrets there, too.
 */
#include <slh_internal.h>

#include <stddef.h>
#include <stdint.h>
#include <stdlib.h>
#include <string.h>

#define STOP(why) ((void)(why), abort())
#define MEMORY_BYTES
