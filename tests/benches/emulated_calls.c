/*
 * Makes the key of the seeds 00, 01, 02, .., signs "abc" with it, and verifies: by libslh, or with OPENSSL by OpenSSL.
 * Usage: emulated_calls SET STEPS, where SET is 1 to 6, and STEPS how many of the three are taken. It ends with 0 if each
 * did what was asked.
 */
#include <stdint.h>
#include <stdlib.h>

enum { SETS = 6 };
static const size_t n[SETS + 1] = {0, 16, 16, 24, 24, 32, 32};
static unsigned char seeds[3 * 32], sig[49856];

#ifdef OPENSSL
#include <openssl/core_names.h>
#include <openssl/evp.h>
#include <openssl/params.h>

static const char *const names[] = {"", "SLH-DSA-SHA2-128s", "SLH-DSA-SHA2-128f", "SLH-DSA-SHA2-192s",
                                    "SLH-DSA-SHA2-192f", "SLH-DSA-SHA2-256s", "SLH-DSA-SHA2-256f"};

static int take(int set, int steps) {
    int deterministic = 1;
    size_t len = sizeof sig;
    const unsigned char *message = (const unsigned char *)"abc";
    OSSL_PARAM seed[] = {OSSL_PARAM_construct_octet_string(OSSL_PKEY_PARAM_SLH_DSA_SEED, seeds, 3 * n[set]),
                         OSSL_PARAM_construct_end()};
    OSSL_PARAM how[] = {OSSL_PARAM_construct_int(OSSL_SIGNATURE_PARAM_DETERMINISTIC, &deterministic),
                        OSSL_PARAM_construct_end()};
    EVP_PKEY *key = NULL;
    EVP_PKEY_CTX *makes = EVP_PKEY_CTX_new_from_name(NULL, names[set], NULL);
    EVP_SIGNATURE *form = EVP_SIGNATURE_fetch(NULL, names[set], NULL);
    if (EVP_PKEY_keygen_init(makes) <= 0 || EVP_PKEY_CTX_set_params(makes, seed) <= 0) return 1;
    if (steps == 0) return 0;
    if (EVP_PKEY_generate(makes, &key) <= 0) return 1;
    if (steps == 1) return 0;
    EVP_PKEY_CTX *signs = EVP_PKEY_CTX_new(key, NULL), *verifies = EVP_PKEY_CTX_new(key, NULL);
    if (EVP_PKEY_sign_message_init(signs, form, how) <= 0 || EVP_PKEY_sign(signs, sig, &len, message, 3) <= 0) return 1;
    if (steps == 2) return 0;
    return EVP_PKEY_verify_message_init(verifies, form, NULL) <= 0 ||
        EVP_PKEY_verify(verifies, sig, len, message, 3) <= 0;
}
#else
#include <slh.h>

static const size_t lens[SETS + 1] = {0, 7856, 17088, 16224, 35664, 29792, 49856};

static int take(int set, int steps) {
    static uint8_t sk[4 * 32];
    size_t k = n[set];
    const uint8_t *message = (const uint8_t *)"abc";
    if (steps == 0) return 0;
    if (slh_keygen((uint32_t)set, seeds, k, seeds + k, k, seeds + 2 * k, k, sk, 4 * k) != SLH_DONE) return 1;
    if (steps == 1) return 0;
    if (slh_sign((uint32_t)set, sk, 4 * k, message, 3, NULL, 0, NULL, 0, sig, lens[set]) != SLH_DONE) return 1;
    if (steps == 2) return 0;
    return slh_verify((uint32_t)set, sk + 2 * k, 2 * k, message, 3, NULL, 0, sig, lens[set]) != SLH_DONE;
}
#endif

int main(int count, char **words) {
    int set = count == 3 ? atoi(words[1]) : 0;
    if (set < 1 || set > SETS) return 2;
    for (size_t i = 0; i < sizeof seeds; i++) seeds[i] = (unsigned char)i;
    return take(set, atoi(words[2]));
}
