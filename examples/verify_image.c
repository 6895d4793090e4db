/* SPDX-License-Identifier: MIT OR Apache-2.0 */
/* Verifies an image under a public key that is compiled in, as a device does: the image is read in blocks and hashed,
   and never stands in memory whole. verify_image IMAGE SIGNATURE ends with status 0 where the signature is valid.

   public_key.h has the bytes of the public key, of which a key file of slh has the digits in line 3:
     sed -n 3p public.key | xxd -r -p | xxd -i > public_key.h
   The image is signed in the pre-hash form with SHA2-256: by slh_hash_sign_digest, slh_hash_sign or slh sign --prehash.
   SET is the one of the key: change it and the two lengths for another. A file that can't be read has status 2. */
#include <slh_verify.h>

#include <stdio.h>

#include "sha256.h"

#define SET SLH_DSA_SHA2_128F

static const uint8_t pk[] = {
#include "public_key.h"
};
/* An array of -1 elements, which no compiler takes, unless public_key.h has just the bytes of a public key. */
typedef char public_key_has_its_length[sizeof pk == SLH_DSA_SHA2_128F_PUBLIC_KEY ? 1 : -1];

/* The SHA-256 of a file, block by block. Whether all of it was read. */
static int hash_file(const char *path, uint8_t digest[32]) {
    uint8_t block[4096];
    struct sha256 state;
    size_t got;
    FILE *file = fopen(path, "rb");
    if (file == NULL) return perror(path), 0;
    sha256_begin(&state);
    while ((got = fread(block, 1, sizeof block, file)) > 0) sha256_piece(&state, block, got);
    sha256_end(&state, digest);
    int is_whole = !ferror(file);
    if (!is_whole) perror(path);
    fclose(file);
    return is_whole;
}

/* Reads a signature of just the set's length. A shorter or longer file is none. */
static int read_signature(const char *path, uint8_t sig[SLH_DSA_SHA2_128F_SIGNATURE]) {
    FILE *file = fopen(path, "rb");
    if (file == NULL) return perror(path), 0;
    int is_whole = fread(sig, 1, SLH_DSA_SHA2_128F_SIGNATURE, file) == SLH_DSA_SHA2_128F_SIGNATURE;
    is_whole = is_whole && fgetc(file) == EOF && !ferror(file);
    if (!is_whole) fprintf(stderr, "%s is no signature of this set: it has another length\n", path);
    fclose(file);
    return is_whole;
}

int main(int count, char **words) {
    static uint8_t sig[SLH_DSA_SHA2_128F_SIGNATURE];
    uint8_t digest[32];
    if (count != 3) return fputs("usage: verify_image IMAGE SIGNATURE\n", stderr), 2;
    if (!hash_file(words[1], digest) || !read_signature(words[2], sig)) return 2;
    /* an empty context */
    uint32_t result =
        slh_hash_verify_digest(SET, SLH_SHA2_256, pk, sizeof pk, digest, sizeof digest, NULL, 0, sig, sizeof sig);
    puts(result == SLH_DONE ? "valid" : "invalid");
    return result != SLH_DONE;
}
