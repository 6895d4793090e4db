/*
 * The internal functions of SLH-DSA that sign and verify (FIPS 205, section 9): for test vectors of these functions.
 * They are not for applications, which call slh_sign, slh_verify and the other calls of slh.h.
 *
 * SPDX-License-Identifier: MIT OR Apache-2.0
 *
 * They take M' itself. There is no context, and nothing separates the pure form from the pre-hash form. If others
 * choose the bytes that slh_sign_internal signs, they can choose the M' of any message, under any context and in either
 * form.
 *
 * The rules of slh.h on arguments, results and outputs hold here, too.
 */
#ifndef SLH_INTERNAL_H
#define SLH_INTERNAL_H

#include <slh.h>

#ifdef __cplusplus
extern "C" {
#endif

/*
 * To check test vectors of Algorithm 19: signs M', without context or form. The lengths are those of slh_sign.
 * Returns: SLH_DONE; SLH_NO_SUCH_SET, SLH_BAD_LENGTH, SLH_BAD_RANDOMIZER_LENGTH, SLH_BAD_OUTPUT_LENGTH.
 */
SLH_MUST_USE SLH_API
uint32_t slh_sign_internal(uint32_t set, const uint8_t *sk, size_t sk_len, const uint8_t *msg, size_t msg_len,
                           const uint8_t *randomizer, size_t randomizer_len, uint8_t *sig, size_t sig_len);

/*
 * To check test vectors of Algorithm 20: verifies a signature of M'. The lengths are those of slh_verify.
 * Returns: SLH_DONE if the bytes are a valid signature of M', SLH_INVALID if they are not; SLH_NO_SUCH_SET,
 * SLH_BAD_LENGTH.
 */
SLH_MUST_USE SLH_API
uint32_t slh_verify_internal(uint32_t set, const uint8_t *pk, size_t pk_len, const uint8_t *msg, size_t msg_len,
                             const uint8_t *sig, size_t sig_len);

#ifdef __cplusplus
}
#endif

#endif
