/*
 * Verifying signatures of SLH-DSA (FIPS 205) with SHA-2 as portable C: the calls of slh_verify.h. Version @VERSION@.
 *
 * SPDX-License-Identifier: MIT OR Apache-2.0
 *
 *   cc -Os program.c slh_verify.c
 *
 * It takes a C11 compiler, and the header slh_verify.h. Of C it uses memcpy, memmove and memset. It is for devices:
 * all calls share one static memory of SLH_VERIFY_MEMORY bytes, so one call runs at a time. SLH_NO_MEMORY is returned
 * by a call that comes in meanwhile, from an interrupt or another thread, and by one whose arguments do not fit.
 *
 *   -DSLH_VERIFY_MEMORY=SLH_DSA_SHA2_128S_VERIFY_MEMORY   for one set; by itself it is enough for each set
 *   -DSLH_VERIFY_MEMORY_AT=NAME                           a memory of your own, uint64_t NAME[SLH_VERIFY_MEMORY / 8]
 *   -DSLH_VERIFY_128                                      leaves out SHA-512, which the sets 128s and 128f do without
 *
 * With the last one the other sets are refused (SLH_NO_SUCH_SET), and by slh_hash_verify the functions that are made of
 * SHA-512 (SLH_NO_SUCH_FUNCTION); a digest by them is taken.
 *
 * A message in memory is copied there: slh_verify and slh_hash_verify take some 100 bytes, or as many more as
 * SLH_VERIFY_MEMORY is made larger. slh_hash_verify_digest takes any image by its digest.
 *
@COMMON@
 */
#include <slh_verify.h>

#include <stddef.h>
#include <stdint.h>
#include <string.h>
#ifndef __STDC_NO_ATOMICS__
#include <stdatomic.h>
#if ATOMIC_CHAR_LOCK_FREE == 2
#define EXCHANGES_BYTES
#endif
#endif

#define STOP(why) ((void)(why))
#ifndef SLH_VERIFY_MEMORY
#define SLH_VERIFY_MEMORY SLH_MAX_VERIFY_MEMORY
#endif
#define MEMORY_BYTES (SLH_VERIFY_MEMORY - 2 * 8)
