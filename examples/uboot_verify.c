/* SPDX-License-Identifier: MIT OR Apache-2.0 */
/* Verifying a FIT image in U-Boot: a function of the form that U-Boot's table of algorithms asks for (crypto_algo,
   include/image.h), over libslh_verify.a for 64-bit ARM. What U-Boot's headers would give stands at the top. The regions
   are the parts of the image that the signature node names. They are hashed by SHA-256, end to end, and the signature is
   one under the set SET with SHA2-256. */
#include <slh_verify.h>

#include <errno.h>
#include <stddef.h>

#include "sha256.h"

#ifndef SET
#define SET SLH_DSA_SHA2_128S
#endif

struct image_region {
    const void *data;
    int size;
};

struct image_sign_info {
    const void *key; /* PK.seed || PK.root */
    int keylen;
};

int slh_dsa_verify(struct image_sign_info *info, const struct image_region region[], int region_count, uint8_t *sig,
                   unsigned sig_len);

/* 0 for a valid signature, and else -EPERM. */
int slh_dsa_verify(struct image_sign_info *info, const struct image_region region[], int region_count, uint8_t *sig,
                   unsigned sig_len) {
    volatile uint32_t verdict = SLH_HARDENED_INVALID;
    struct sha256 state;
    uint8_t digest[32];
    sha256_begin(&state);
    for (int i = 0; i < region_count; i++) sha256_piece(&state, region[i].data, (size_t)region[i].size);
    sha256_end(&state, digest);
    verdict = slh_hash_verify_digest_hardened(SET, SLH_SHA2_256, info->key, (size_t)info->keylen, digest,
                                              sizeof digest, NULL, 0, sig, sig_len);
    if (SLH_IS_VALID(verdict)) return 0;
    return -EPERM;
}
