/*
 * Hands messages in pieces to the provider `slh`, for tests/test_provider.py, which runs it with the provider under the
 * sanitizers, too:
 *
 *     provider_pieces MODULES STEPS      the folder that has slh.so, and how many calls the random walk makes
 *
 * OpenSSL's default provider, which takes no pieces, judges the signatures and makes some to verify. The random walk
 * calls the provider's own functions in any order, with no OpenSSL between, and compares each answer with a model. Freed
 * memory is searched for the message. The provider may hold 4,096 bytes of a message, so a longer one that is taken was
 * hashed. The last line has the counts, and the status is 0 if nothing failed.
 */
#include "provider_memory.h"

#include <openssl/core_dispatch.h>
#include <openssl/core_names.h>
#include <openssl/err.h>
#include <openssl/evp.h>
#include <openssl/params.h>
#include <openssl/provider.h>
#include <stdint.h>
#include <stdio.h>
#include <stdlib.h>
#include <string.h>

#define FAST "SLH-DSA-SHA2-128f"
#define OURS "provider=slh"
#define THEIRS "provider=default"
enum { MOST = 4096, SIG = 17088, MOST_SIG = 49856, CONTEXTS = 4, MARK = 24 };

static OSSL_LIB_CTX *libctx;
static OSSL_PROVIDER *slh;
static EVP_PKEY *key, *other_key;
static unsigned char sig[MOST_SIG], again[MOST_SIG], msg[2 * MOST];
static int passed, failed;

static void must(int holds, const char *what) {
    if (holds) return;
    ERR_print_errors_fp(stdout);
    printf("provider_pieces: %s\n0 passed, 1 failed\n", what);
    exit(2);
}

/* ---- memory of OpenSSL: whether a freed block has bytes of the message ---- */

static unsigned unerased, looked_at;

static void look_at(const unsigned char *block, size_t size) {
    looked_at++;
    for (size_t at = 0; at + MARK <= size; at++)
        if (block[at] == msg[0] && memcmp(block + at, msg, MARK) == 0) unerased++;
}

/* ---- signing and verifying ---- */

static EVP_PKEY *generate(const char *set, const char *where, unsigned char first) {
    EVP_PKEY_CTX *it = EVP_PKEY_CTX_new_from_name(libctx, set, where);
    unsigned char seeds[96];
    EVP_PKEY *made = NULL;
    for (int i = 0; i < 96; i++) seeds[i] = (unsigned char)(first + i);
    OSSL_PARAM params[] = {OSSL_PARAM_construct_octet_string("seed", seeds, (size_t)(3 * atoi(set + 13) / 8)),
                           OSSL_PARAM_construct_end()};
    must(it != NULL && EVP_PKEY_keygen_init(it) == 1 && EVP_PKEY_CTX_set_params(it, params) == 1 &&
         EVP_PKEY_generate(it, &made) == 1, "no key");
    EVP_PKEY_CTX_free(it);
    return made;
}

/* Begins to sign deterministically, or to verify. */
static EVP_MD_CTX *begun(EVP_PKEY *by, const char *where, int is_sign) {
    EVP_MD_CTX *it = EVP_MD_CTX_new();
    int yes = 1;
    OSSL_PARAM same[] = {OSSL_PARAM_construct_int("deterministic", &yes), OSSL_PARAM_construct_end()};
    must(it != NULL && (is_sign ? EVP_DigestSignInit_ex(it, NULL, NULL, libctx, where, by, same)
                                : EVP_DigestVerifyInit_ex(it, NULL, NULL, libctx, where, by, NULL)) == 1, "no context");
    return it;
}

static size_t sign_whole(EVP_PKEY *by, const char *where, const unsigned char *m, size_t m_len, unsigned char *to) {
    EVP_MD_CTX *it = begun(by, where, 1);
    size_t len = MOST_SIG;
    int is = EVP_DigestSign(it, to, &len, m, m_len) == 1;
    EVP_MD_CTX_free(it);
    return is ? len : 0;
}

static int verifies_whole(EVP_PKEY *by, const unsigned char *m, size_t m_len, const unsigned char *of, size_t len) {
    EVP_MD_CTX *it = begun(by, THEIRS, 0);
    int is = EVP_DigestVerify(it, of, len, m, m_len) == 1;
    EVP_MD_CTX_free(it);
    return is;
}

static int final(EVP_MD_CTX *it, unsigned char *to, size_t *len) {
    *len = MOST_SIG;
    return EVP_DigestSignFinal(it, to, len) == 1;
}

/* Whether the known key's signature of this message, by pieces in a context, is the one of the whole. */
static int is_signature_of(EVP_MD_CTX *it, EVP_PKEY *by, const unsigned char *m, size_t m_len) {
    size_t len;
    return final(it, sig, &len) && sign_whole(by, OURS, m, m_len, again) == len && memcmp(sig, again, len) == 0;
}

/* ---- tests ---- */

/* Each set: pieces of many lengths are signed, and the default provider takes it; its own is verified by pieces. */
static int each_set_takes_pieces(void) {
    static const char *const sets[] = {"128s", FAST + 13, "192s", "192f", "256s", "256f"};
    static const size_t pieces[] = {1, 0, 63, 64, 65, 127, 0, 128, 1000, 2};
    for (int set = 0; set < 6; set++) {
        char name[32];
        snprintf(name, sizeof name, "SLH-DSA-SHA2-%s", sets[set]);
        EVP_PKEY *by = generate(name, OURS, 1);
        EVP_MD_CTX *it = begun(by, OURS, 1), *judge = begun(by, OURS, 0);
        size_t at = 0, len;
        for (size_t i = 0; i < sizeof pieces / sizeof *pieces; at += pieces[i++])
            must(EVP_DigestSignUpdate(it, msg + at, pieces[i]) == 1 &&
                 EVP_DigestVerifyUpdate(judge, msg + at, pieces[i]) == 1, "a piece is refused");
        int is = final(it, sig, &len) && verifies_whole(by, msg, at, sig, len) &&
                 !verifies_whole(by, msg, at - 1, sig, len) && EVP_DigestVerifyFinal(judge, sig, len) == 1;
        sig[len - 1] ^= 1;
        is = is && EVP_DigestVerifyFinal(judge, sig, len) != 1;
        EVP_MD_CTX_free(it), EVP_MD_CTX_free(judge), EVP_PKEY_free(by);
        if (!is) return 0;
    }
    return 1;
}

static int they_are_the_whole(void) {
    EVP_MD_CTX *it = begun(key, OURS, 1);
    for (size_t at = 0; at < 300; at++)
        if (EVP_DigestSignUpdate(it, msg + at, 1) != 1) return 0;
    size_t len;
    int is = final(it, sig, &len) && sign_whole(key, THEIRS, msg, 300, again) == len && memcmp(sig, again, len) == 0;
    EVP_MD_CTX_free(it);
    return is;
}

static int none_is_the_empty_message(void) {
    EVP_MD_CTX *it = begun(key, OURS, 1), *judge = begun(key, OURS, 0), *null = begun(key, OURS, 1);
    size_t len;
    int is = final(it, sig, &len) && verifies_whole(key, msg, 0, sig, len) &&
             EVP_DigestVerifyFinal(judge, sig, len) == 1 && EVP_DigestSignUpdate(null, NULL, 0) == 1 &&
             is_signature_of(null, key, msg, 0);
    EVP_MD_CTX_free(it), EVP_MD_CTX_free(judge), EVP_MD_CTX_free(null);
    return is;
}

/* Up to the limit, and not one byte more. After the refusal neither the beginning nor another message is signed. */
static int there_is_a_limit(void) {
    EVP_MD_CTX *it = begun(key, OURS, 1), *judge = begun(key, OURS, 0);
    size_t len = MOST_SIG;
    int is = EVP_DigestSignUpdate(it, msg, MOST) == 1 && is_signature_of(it, key, msg, MOST) &&
             EVP_DigestSignUpdate(it, msg, 1) != 1 && !final(it, again, &len) &&
             EVP_DigestSignUpdate(it, msg, 1) != 1 && !final(it, again, &len) && EVP_DigestSignUpdate(it, msg, 0) != 1 &&
             EVP_DigestSign(it, again, &len, msg, 1) != 1 && EVP_DigestSign(it, again, &len, NULL, 0) != 1;
    is = is && EVP_DigestVerifyUpdate(judge, msg, MOST) == 1 && EVP_DigestVerifyFinal(judge, sig, SIG) == 1 &&
         EVP_DigestVerifyUpdate(judge, msg, 1) != 1 && EVP_DigestVerifyFinal(judge, sig, SIG) != 1;
    EVP_MD_CTX_free(it), EVP_MD_CTX_free(judge);
    it = begun(key, OURS, 1);
    is = is && EVP_DigestSignUpdate(it, msg, MOST + 1) != 1 && !final(it, again, &len);
    EVP_MD_CTX_free(it);
    return is && sign_whole(key, OURS, msg, 2 * MOST, sig) == SIG;
}

/* The greatest lengths are refused, and nothing is read. */
static int lengths_do_not_overflow(void) {
    static const size_t lengths[] = {SIZE_MAX, SIZE_MAX - 1, SIZE_MAX / 2, SIZE_MAX - MOST, SIZE_MAX - MOST + 1};
    for (size_t i = 0; i < sizeof lengths / sizeof *lengths; i++) {
        EVP_MD_CTX *it = begun(key, OURS, 1);
        size_t len;
        int is = EVP_DigestSignUpdate(it, msg, 2) == 1 && EVP_DigestSignUpdate(it, msg, lengths[i]) != 1 &&
                 !final(it, sig, &len);
        EVP_MD_CTX_free(it);
        if (!is) return 0;
    }
    return 1;
}

static int a_null_piece_is_refused(void) {
    EVP_MD_CTX *it = begun(key, OURS, 1);
    size_t len;
    int is = EVP_DigestSignUpdate(it, msg, 2) == 1 && EVP_DigestSignUpdate(it, NULL, 2) != 1 && !final(it, sig, &len);
    EVP_MD_CTX_free(it);
    return is;
}

/* A copy goes on by itself, and has the first pieces, also when the other is gone. */
static int copies_part(void) {
    EVP_MD_CTX *it = begun(key, OURS, 1), *copy = EVP_MD_CTX_new();
    int is = EVP_DigestSignUpdate(it, msg, 100) == 1 && EVP_MD_CTX_copy_ex(copy, it) == 1 &&
             EVP_DigestSignUpdate(it, msg, 7) == 1;
    EVP_MD_CTX_free(it);
    is = is && EVP_DigestSignUpdate(copy, msg + 100, 50) == 1 && is_signature_of(copy, key, msg, 150);
    EVP_MD_CTX_free(copy);
    return is;
}

/* As a digest: without the flag FINALISE the final call ends a copy, and the message goes on. With it all is over. */
static int over_is_over(void) {
    EVP_MD_CTX *it = begun(key, OURS, 1), *once = begun(key, OURS, 1);
    size_t len = 0;
    int is = EVP_DigestSignUpdate(it, msg, 3) == 1 && is_signature_of(it, key, msg, 3) &&
             is_signature_of(it, key, msg, 3) && EVP_DigestSignUpdate(it, msg + 3, 3) == 1 &&
             is_signature_of(it, key, msg, 6);
    EVP_MD_CTX_set_flags(once, EVP_MD_CTX_FLAG_FINALISE);
    is = is && EVP_DigestSignUpdate(once, msg, 3) == 1 && is_signature_of(once, key, msg, 3) &&
         !final(once, sig, &len) && EVP_DigestSignUpdate(once, msg, 3) != 1 && !final(once, sig, &len);
    EVP_MD_CTX_free(it), EVP_MD_CTX_free(once);
    return is;
}

/* A context that begins again has no pieces. OpenSSL keeps its key, unless it was reset. */
static int beginning_again_drops_pieces(void) {
    EVP_MD_CTX *it = begun(key, OURS, 1);
    int yes = 1;
    OSSL_PARAM same[] = {OSSL_PARAM_construct_int("deterministic", &yes), OSSL_PARAM_construct_end()};
    int is = EVP_DigestSignUpdate(it, msg, 9) == 1 &&
             EVP_DigestSignInit_ex(it, NULL, NULL, libctx, OURS, NULL, same) == 1 &&
             EVP_DigestSignUpdate(it, msg + 9, 9) == 1 && is_signature_of(it, key, msg + 9, 9) &&
             EVP_MD_CTX_reset(it) == 1 &&
             EVP_DigestSignInit_ex(it, NULL, NULL, libctx, OURS, other_key, same) == 1 &&
             EVP_DigestSignUpdate(it, msg, 5) == 1 && is_signature_of(it, other_key, msg, 5) &&
             !verifies_whole(key, msg, 5, sig, SIG);
    EVP_MD_CTX_free(it);
    return is;
}

/* A whole message behind pieces would drop them. */
static int a_whole_is_refused_behind_pieces(void) {
    EVP_MD_CTX *it = begun(key, OURS, 1), *judge = begun(key, OURS, 0);
    size_t len = MOST_SIG;
    int is = EVP_DigestSignUpdate(it, msg, 3) == 1 && EVP_DigestSign(it, sig, &len, msg + 3, 3) != 1 &&
             sign_whole(key, THEIRS, msg + 3, 3, sig) == SIG && EVP_DigestVerifyUpdate(judge, msg, 3) == 1 &&
             EVP_DigestVerify(judge, sig, SIG, msg + 3, 3) != 1;
    EVP_MD_CTX_free(it), EVP_MD_CTX_free(judge);
    return is;
}

static int the_length_is_told(void) {
    EVP_MD_CTX *it = begun(key, OURS, 1);
    size_t len = 0, little = SIG - 1;
    int is = EVP_DigestSignUpdate(it, msg, 3) == 1 && EVP_DigestSignFinal(it, NULL, &len) == 1 && len == SIG &&
             EVP_DigestSignFinal(it, sig, &little) != 1 && EVP_DigestSignUpdate(it, msg + 3, 1) == 1 &&
             is_signature_of(it, key, msg, 4);
    EVP_MD_CTX_free(it);
    return is;
}

/* A context string and workers that are set between pieces count for the message. */
static int parameters_count(void) {
    EVP_MD_CTX *it = EVP_MD_CTX_new(), *judge = EVP_MD_CTX_new(), *bare = begun(key, THEIRS, 0);
    EVP_PKEY_CTX *of = NULL, *of_judge = NULL;
    unsigned workers = 3;
    size_t len;
    OSSL_PARAM params[] = {OSSL_PARAM_construct_octet_string("context-string", msg, 5), OSSL_PARAM_construct_end()};
    OSSL_PARAM more[] = {OSSL_PARAM_construct_uint("workers", &workers), OSSL_PARAM_construct_end()};
    int is = EVP_DigestSignInit_ex(it, &of, NULL, libctx, OURS, key, NULL) == 1 &&
             EVP_DigestSignUpdate(it, msg, 70) == 1 && EVP_PKEY_CTX_set_params(of, params) == 1 &&
             EVP_PKEY_CTX_set_params(of, more) == 1 && EVP_DigestSignUpdate(it, msg + 70, 7) == 1 &&
             final(it, sig, &len) &&
             EVP_DigestVerifyInit_ex(judge, &of_judge, NULL, libctx, THEIRS, key, params) == 1 &&
             EVP_DigestVerify(judge, sig, len, msg, 77) == 1 && EVP_DigestVerify(bare, sig, len, msg, 77) != 1;
    EVP_MD_CTX_free(it), EVP_MD_CTX_free(judge), EVP_MD_CTX_free(bare);
    return is;
}

static size_t signatures(void) {
    size_t found = 0;
    OSSL_PARAM params[] = {OSSL_PARAM_construct_size_t("signatures", &found), OSSL_PARAM_construct_end()};
    must(OSSL_PROVIDER_get_params(slh, params) == 1, "no count");
    return found;
}

static int signatures_are_counted(void) {
    size_t before = signatures();
    EVP_MD_CTX *it = begun(key, OURS, 1);
    size_t len;
    int is = EVP_DigestSignUpdate(it, msg, 3) == 1 && EVP_DigestSignFinal(it, NULL, &len) == 1 &&
             signatures() == before && final(it, sig, &len) && signatures() == before + 1 &&
             sign_whole(key, THEIRS, msg, 3, sig) == SIG && signatures() == before + 1 &&
             sign_whole(key, OURS, msg, 3, sig) == SIG && signatures() == before + 2;
    EVP_MD_CTX_free(it);
    return is;
}

/* ---- messages whose signature is set before them ---- */

static unsigned char context[5] = "files";
static size_t sig_len;

/* Begins to sign, or to verify a message whose signature is set first. */
static EVP_PKEY_CTX *begin(EVP_PKEY *by, const char *where, int is_sign, const OSSL_PARAM params[]) {
    EVP_SIGNATURE *scheme = EVP_SIGNATURE_fetch(libctx, EVP_PKEY_get0_type_name(by), where);
    EVP_PKEY_CTX *it = EVP_PKEY_CTX_new_from_pkey(libctx, by, where);
    must(scheme != NULL && it != NULL &&
         (is_sign ? EVP_PKEY_sign_message_init : EVP_PKEY_verify_message_init)(it, scheme, params) == 1, "no context");
    EVP_SIGNATURE_free(scheme);
    return it;
}
static EVP_PKEY_CTX *judge(void) { return begin(key, OURS, 0, NULL); }
static int set(EVP_PKEY_CTX *it, const unsigned char *by, size_t len) {
    return EVP_PKEY_CTX_set_signature(it, by, len) == 1;
}
static int takes(EVP_PKEY_CTX *it, size_t from, size_t len) {
    return EVP_PKEY_verify_message_update(it, msg + from, len) == 1;
}

/* The answer of the final call, which ends the context. */
static int ends(EVP_PKEY_CTX *it) {
    int is = EVP_PKEY_verify_message_final(it) == 1;
    EVP_PKEY_CTX_free(it);
    return is;
}

/* Signs under the context, and verifies: by our provider in three pieces, and whole by the default one. */
static void sign_under(EVP_PKEY *by, size_t len) {
    OSSL_PARAM under[] = {OSSL_PARAM_construct_octet_string("context-string", context, sizeof context),
                          OSSL_PARAM_construct_end()};
    EVP_PKEY_CTX *it = begin(by, OURS, 1, under);
    sig_len = sizeof sig;
    must(EVP_PKEY_sign(it, sig, &sig_len, msg, len) == 1, "no signature");
    EVP_PKEY_CTX_free(it);
}
static int judged(EVP_PKEY *by, size_t len, const char *where) {
    OSSL_PARAM under[] = {OSSL_PARAM_construct_octet_string("context-string", context, sizeof context),
                          OSSL_PARAM_construct_end()};
    EVP_PKEY_CTX *it = begin(by, where, 0, under);
    int is_whole = strcmp(where, THEIRS) == 0;
    int is = is_whole ? EVP_PKEY_verify(it, sig, sig_len, msg, len) == 1
                      : set(it, sig, sig_len) && takes(it, 0, len / 3) && takes(it, len / 3, len / 3) &&
                            takes(it, len / 3 * 2, len - len / 3 * 2) && EVP_PKEY_verify_message_final(it) == 1;
    EVP_PKEY_CTX_free(it);
    return is;
}

/* Whether it is invalid by both if one bit is wrong. */
static int is_noticed(EVP_PKEY *by, size_t len, unsigned char *byte) {
    *byte ^= 4;
    int is = !judged(by, len, OURS) && !judged(by, len, THEIRS);
    *byte ^= 4;
    return is;
}

/* Each set: messages of no byte, of one and of more than can be held. A wrong bit in the message, the context, or in R,
   FORS or the last WOTS+ of the signature is noticed. */
static int each_set_is_hashed(void) {
    static const char *const sets[] = {"128s", FAST + 13, "192s", "192f", "256s", "256f"};
    static const size_t lengths[] = {0, 1, 2 * MOST};
    for (int i = 0; i < 18; i++) {
        char name[32];
        size_t len = lengths[i % 3];
        snprintf(name, sizeof name, "SLH-DSA-SHA2-%s", sets[i / 3]);
        EVP_PKEY *by = generate(name, OURS, 1);
        sign_under(by, len);
        int is = judged(by, len, OURS) && judged(by, len, THEIRS) && is_noticed(by, len, context + 4) &&
                 is_noticed(by, len, sig) && is_noticed(by, len, sig + 40) && is_noticed(by, len, sig + sig_len - 1) &&
                 (len == 0 || (is_noticed(by, len, msg) && is_noticed(by, len, msg + len - 1))) &&
                 judged(by, len, OURS);
        EVP_PKEY_free(by);
        if (!is) return printf("%s, %zu bytes\n", name, len), 0;
    }
    return 1;
}

/* No piece at all is the empty message, and an empty piece is none. */
static int no_piece_has_a_signature(void) {
    EVP_PKEY_CTX *none = judge(), *null = judge();
    int is = sign_whole(key, OURS, msg, 0, sig) == SIG && set(none, sig, SIG) && set(null, sig, SIG) &&
             EVP_PKEY_verify_message_update(null, NULL, 0) == 1;
    return ends(none) + ends(null) == 2 && is;
}

/* A signature that is set late finds the pieces held, so that there is the limit. Without one nothing is valid. */
static int late_signatures_count(void) {
    EVP_PKEY_CTX *it = judge(), *wrong = judge(), *none = judge(), *much = judge();
    int is = sign_whole(key, OURS, msg, 90, sig) == SIG && takes(it, 0, 30) && set(it, sig, SIG) && takes(it, 30, 60) &&
             takes(wrong, 0, 90) && set(wrong, sig, SIG) && takes(wrong, 90, 1) && set(wrong, sig, SIG) &&
             takes(none, 0, 90) && sign_whole(key, OURS, msg, MOST + 1, again) == SIG && takes(much, 0, MOST) &&
             set(much, again, SIG) && !takes(much, MOST, 1);
    int is_valid = ends(it);
    return !ends(wrong) && !ends(none) && !ends(much) && is && is_valid;
}

/* Before the message, or while it is held, the last signature counts: also a refused one. */
static int the_last_signature_counts(void) {
    EVP_PKEY_CTX *it = judge(), *wrong = judge(), *held = judge(), *null = judge(), *short_one = judge();
    int is = sign_whole(key, OURS, msg, 90, sig) == SIG && sign_whole(key, OURS, msg, 91, again) == SIG &&
             set(it, again, SIG) && set(it, again, 5) && set(it, sig, SIG) && takes(it, 0, 90) &&
             set(wrong, sig, SIG) && set(wrong, again, SIG) && takes(wrong, 0, 90) &&
             takes(held, 0, 90) && set(held, again, SIG) && set(held, sig, SIG) &&
             set(null, sig, SIG) && !set(null, NULL, SIG) && takes(null, 0, 90) &&
             set(short_one, sig, SIG) && set(short_one, sig, SIG - 1) && takes(short_one, 0, 90);
    int are_valid = ends(it) + ends(held) == 2;
    return !ends(wrong) && !ends(null) && !ends(short_one) && is && are_valid;
}

/* Once a piece is hashed each parameter is refused, and the message is over: R and the context are hashed. */
static int parameters_are_too_late(void) {
    int form = 1, least = 0;
    OSSL_PARAM all[][2] = {{OSSL_PARAM_construct_octet_string("signature", sig, SIG), OSSL_PARAM_construct_end()},
                           {OSSL_PARAM_construct_octet_string("signature", sig, 5), OSSL_PARAM_construct_end()},
                           {OSSL_PARAM_construct_octet_string("context-string", msg, 0), OSSL_PARAM_construct_end()},
                           {OSSL_PARAM_construct_octet_string("context-string", msg, 4), OSSL_PARAM_construct_end()},
                           {OSSL_PARAM_construct_int("message-encoding", &form), OSSL_PARAM_construct_end()},
                           {OSSL_PARAM_construct_int("message-encoding", &least), OSSL_PARAM_construct_end()}};
    int is = sign_whole(key, OURS, msg, 90, sig) == SIG;
    for (int i = 0; i < 6; i++) {
        EVP_PKEY_CTX *it = judge();
        is = is && set(it, sig, SIG) && takes(it, 0, 30) && EVP_PKEY_CTX_set_params(it, all[i]) != 1;
        is = is && !takes(it, 30, 60);
        is = !ends(it) && is;
    }
    return is;
}

/* A signature of another length is taken, and so are the pieces. It is invalid at the end, and nothing was held. */
static int other_lengths_are_invalid(void) {
    static const size_t lengths[] = {0, 1, 16, SIG - 1, SIG + 1, MOST_SIG};
    int is = sign_whole(key, OURS, msg, 2 * MOST, sig) == SIG;
    for (int i = 0; i < 6; i++) {
        EVP_PKEY_CTX *it = judge(), *none = judge();
        is = is && set(it, sig, lengths[i]) && set(none, sig, lengths[i]) && takes(it, 0, MOST);
        is = is && takes(it, MOST, MOST);
        is = !ends(it) && !ends(none) && is;
    }
    return is;
}

/* What stands before the message can't be handed in as its beginning, under a signature without an R. */
static int the_front_is_not_a_piece(void) {
    unsigned char front[50] = {0};
    size_t len = 0;
    EVP_PKEY_CTX *it = judge();
    int is = sign_whole(key, OURS, msg, 90, sig) == SIG &&
             EVP_PKEY_get_octet_string_param(key, "pub", front + 16, 32, &len) == 1 && len == 32 && set(it, sig, 16);
    memcpy(front, sig, 16);
    is = is && EVP_PKEY_verify_message_update(it, front, 50) == 1 && takes(it, 0, 90) && !set(it, sig, SIG);
    return !ends(it) && is;
}

/* Copies of a context hash on by themselves, also when the other is gone. So do copies that hold. */
static int hashing_copies_part(void) {
    EVP_PKEY_CTX *it = judge(), *held = judge();
    int is = sign_whole(key, OURS, msg, 2 * MOST, sig) == SIG && sign_whole(key, OURS, msg, 90, again) == SIG &&
             set(it, sig, SIG) && takes(it, 0, 100) && takes(held, 0, 80);
    EVP_PKEY_CTX *copy = EVP_PKEY_CTX_dup(it), *held_copy = EVP_PKEY_CTX_dup(held);
    is = is && copy != NULL && held_copy != NULL && takes(it, 0, 7) && set(held, again, SIG) && takes(held, 80, 9);
    is = !ends(it) && !ends(held) && is && takes(copy, 100, 2 * MOST - 100) && set(held_copy, again, SIG);
    EVP_PKEY_CTX *early = EVP_PKEY_CTX_dup(held_copy);
    is = is && early != NULL && takes(held_copy, 80, 10) && takes(early, 80, 10);
    int are_valid = ends(copy) + ends(held_copy) + ends(early) == 3;
    return is && are_valid;
}

/* A hashed message is over by its end, by a null piece, and by one of a length that no piece has. */
static int hashed_is_over(void) {
    static const size_t lengths[] = {SIZE_MAX, SIZE_MAX / 2 + 1};
    EVP_PKEY_CTX *it = judge(), *null = judge();
    int is = sign_whole(key, OURS, msg, 90, sig) == SIG && set(it, sig, SIG) && takes(it, 0, 90) &&
             EVP_PKEY_verify_message_final(it) == 1 && EVP_PKEY_verify_message_final(it) != 1 && !takes(it, 0, 90) &&
             set(null, sig, SIG) && takes(null, 0, 90) && EVP_PKEY_verify_message_update(null, NULL, 1) != 1;
    is = !ends(it) && !ends(null) && is;
    for (int i = 0; i < 2; i++) {
        EVP_PKEY_CTX *huge = judge();
        is = is && set(huge, sig, SIG) && takes(huge, 0, 90) && !takes(huge, 90, lengths[i]) && !takes(huge, 90, 0);
        is = !ends(huge) && is;
    }
    return is;
}

/* A whole message behind pieces is refused, and an empty one, too. After it the pieces go on. */
static int a_whole_is_refused_behind_hashed(void) {
    EVP_PKEY_CTX *it = judge();
    int is = sign_whole(key, OURS, msg, 0, again) == SIG && sign_whole(key, OURS, msg, 90, sig) == SIG &&
             set(it, sig, SIG) && takes(it, 0, 60) && EVP_PKEY_verify(it, sig, SIG, msg, 90) != 1 &&
             EVP_PKEY_verify(it, again, SIG, NULL, 0) != 1 && takes(it, 60, 30);
    return ends(it) && is;
}

/* In the internal form the message is M': of the pure form two bytes more. It is held. */
static int the_internal_form_is_held(void) {
    static const unsigned char head[2] = {0, 0};
    int form = 0;
    OSSL_PARAM internal[] = {OSSL_PARAM_construct_int("message-encoding", &form), OSSL_PARAM_construct_end()};
    EVP_PKEY_CTX *it = begin(key, OURS, 0, internal), *much = begin(key, OURS, 0, internal);
    int is = sign_whole(key, OURS, msg, 90, sig) == SIG && set(it, sig, SIG) && set(much, sig, SIG) &&
             EVP_PKEY_verify_message_update(it, head, 2) == 1 && takes(it, 0, 90) && takes(much, 0, MOST) &&
             !takes(much, MOST, 1);
    int is_valid = ends(it);
    return !ends(much) && is && is_valid;
}

/* ---- 64 MB, which a provider without a setting may hold ---- */

enum { PIECE = 1 << 16, PIECES = 1 << 10 };

static void fill(unsigned char *piece, uint64_t number) {
    uint64_t state = number + 1;
    for (size_t at = 0; at < PIECE; at += 8) {
        state ^= state << 13, state ^= state >> 7, state ^= state << 17;
        memcpy(piece + at, &state, 8);
    }
}

/* The KB of memory that the process has, counted page by page. */
static long resident(void) {
    char line[200];
    long found = 0;
    FILE *file = fopen("/proc/self/smaps_rollup", "r");
    while (file != NULL && found == 0 && fgets(line, sizeof line, file) != NULL) sscanf(line, "Rss: %ld", &found);
    must(found > 0, "no /proc/self/smaps_rollup");
    fclose(file);
    return found;
}

static void sign_long(void) {
    unsigned char *all = malloc((size_t)PIECES * PIECE);
    must(all != NULL, "no memory");
    for (size_t number = 0; number < PIECES; number++) fill(all + number * PIECE, number);
    must(sign_whole(key, OURS, all, (size_t)PIECES * PIECE, sig) == SIG, "no signature");
    free(all);
}

/* By how many KB the process grows while it verifies the long message in pieces; -1 if that fails. */
static long growth(int is_late, size_t wrong) {
    static unsigned char piece[PIECE];
    long before = resident(), most = 0;
    EVP_PKEY_CTX *it = judge();
    int is = is_late || set(it, sig, SIG);
    for (size_t number = 0; number < PIECES; number++) {
        fill(piece, number);
        if (number == wrong) piece[PIECE - 1] ^= 1;
        is = is && EVP_PKEY_verify_message_update(it, piece, PIECE) == 1;
        long now = number % 8 == 7 ? resident() - before : 0;
        if (now > most) most = now;
    }
    is = is && (!is_late || set(it, sig, SIG));
    return ends(it) && is ? most : -1;
}

/* What may be added to a process that holds no message, in KB. AddressSanitizer adds pages of its own: 1,064 KB of GCC
   14 were seen, for 180 without it. Clang tells of it by a feature. */
#ifdef __has_feature
#if __has_feature(address_sanitizer)
#define UNDER_SANITIZER
#endif
#endif
#if defined(__SANITIZE_ADDRESS__) || defined(UNDER_SANITIZER)
enum { MOST_GROWTH = 8192 };
#else
enum { MOST_GROWTH = 1023 };
#endif

/* With the signature first the process grows by less than 1 MB. With the signature last it grows by what is held. The
   library context prefers slh, as slh.cnf has it. */
static int a_long_message_is_not_held(const char *modules) {
    OSSL_LIB_CTX *before = libctx;
    EVP_PKEY *key_before = key;
    libctx = OSSL_LIB_CTX_new();
    OSSL_PROVIDER_set_default_search_path(libctx, modules);
    OSSL_PROVIDER *theirs = OSSL_PROVIDER_load(libctx, "default"), *ours = OSSL_PROVIDER_load(libctx, "slh");
    must(theirs != NULL && ours != NULL && EVP_set_default_properties(libctx, "?slh.first=yes") == 1, "no provider");
    key = generate(FAST, OURS, 1);
    sign_long();
    long grown = growth(0, PIECES), held = growth(1, PIECES);
    int is = grown >= 0 && grown <= MOST_GROWTH && held > PIECES / 2 * (PIECE / 1024) && growth(0, PIECES - 1) == -1;
    printf("64 MB: %ld KB with the signature first, %ld KB with it last\n", grown, held);
    EVP_PKEY_free(key), OSSL_PROVIDER_unload(ours), OSSL_PROVIDER_unload(theirs), OSSL_LIB_CTX_free(libctx);
    libctx = before, key = key_before;
    return is;
}

/* ---- the random walk ---- */

static OSSL_FUNC_signature_newctx_fn *make;
static OSSL_FUNC_signature_freectx_fn *drop;
static OSSL_FUNC_signature_dupctx_fn *copy_of;
static OSSL_FUNC_signature_digest_sign_init_fn *sign_init;
static OSSL_FUNC_signature_digest_sign_update_fn *sign_update;
static OSSL_FUNC_signature_digest_sign_final_fn *sign_final;
static OSSL_FUNC_signature_digest_sign_fn *sign_at_once;
static OSSL_FUNC_signature_digest_verify_init_fn *verify_init;
static OSSL_FUNC_signature_digest_verify_update_fn *verify_update;
static OSSL_FUNC_signature_digest_verify_final_fn *verify_final;
static OSSL_FUNC_signature_set_ctx_params_fn *set_params;
static OSSL_FUNC_signature_verify_message_init_fn *message_init;
static OSSL_FUNC_signature_verify_message_update_fn *message_update;
static OSSL_FUNC_signature_verify_message_final_fn *message_final;
static void *keys[2];

/* The signatures of the walk, by each of both keys: of the beginnings of msg that have these lengths. */
static const size_t signed_lengths[] = {0, 1, 65, 500, MOST + 1};
enum { SIGNED = sizeof signed_lengths / sizeof *signed_lengths, MOST_MODEL = 4 * MOST };
static unsigned char known[2 * SIGNED][SIG];
static unsigned judged_true;

/* A context, and what it has by the model: a key or none (-1), the message so far, whether it is hashed, and whether it
   is over; and the signature that was set: UNSET, OTHER if it has a wrong length, or its place in known. */
enum { UNSET = -2, OTHER = -1 };
static struct model {
    void *it;
    int key, has_begun, is_hashed, is_over, signature;
    size_t len;
    unsigned char message[MOST_MODEL];
} models[CONTEXTS];

static void take_functions(void) {
    int no_cache;
    const OSSL_ALGORITHM *all = OSSL_PROVIDER_query_operation(slh, OSSL_OP_SIGNATURE, &no_cache);
    while (strncmp(all->algorithm_names, FAST ":", sizeof FAST) != 0) all++;
    for (const OSSL_DISPATCH *f = all->implementation; f->function_id != 0; f++) {
        if (f->function_id == OSSL_FUNC_SIGNATURE_NEWCTX) make = OSSL_FUNC_signature_newctx(f);
        if (f->function_id == OSSL_FUNC_SIGNATURE_FREECTX) drop = OSSL_FUNC_signature_freectx(f);
        if (f->function_id == OSSL_FUNC_SIGNATURE_DUPCTX) copy_of = OSSL_FUNC_signature_dupctx(f);
        if (f->function_id == OSSL_FUNC_SIGNATURE_DIGEST_SIGN_INIT) sign_init = OSSL_FUNC_signature_digest_sign_init(f);
        if (f->function_id == OSSL_FUNC_SIGNATURE_DIGEST_SIGN_UPDATE)
            sign_update = OSSL_FUNC_signature_digest_sign_update(f);
        if (f->function_id == OSSL_FUNC_SIGNATURE_DIGEST_SIGN_FINAL)
            sign_final = OSSL_FUNC_signature_digest_sign_final(f);
        if (f->function_id == OSSL_FUNC_SIGNATURE_DIGEST_SIGN) sign_at_once = OSSL_FUNC_signature_digest_sign(f);
        if (f->function_id == OSSL_FUNC_SIGNATURE_DIGEST_VERIFY_INIT)
            verify_init = OSSL_FUNC_signature_digest_verify_init(f);
        if (f->function_id == OSSL_FUNC_SIGNATURE_DIGEST_VERIFY_UPDATE)
            verify_update = OSSL_FUNC_signature_digest_verify_update(f);
        if (f->function_id == OSSL_FUNC_SIGNATURE_DIGEST_VERIFY_FINAL)
            verify_final = OSSL_FUNC_signature_digest_verify_final(f);
        if (f->function_id == OSSL_FUNC_SIGNATURE_SET_CTX_PARAMS) set_params = OSSL_FUNC_signature_set_ctx_params(f);
        if (f->function_id == OSSL_FUNC_SIGNATURE_VERIFY_MESSAGE_INIT)
            message_init = OSSL_FUNC_signature_verify_message_init(f);
        if (f->function_id == OSSL_FUNC_SIGNATURE_VERIFY_MESSAGE_UPDATE)
            message_update = OSSL_FUNC_signature_verify_message_update(f);
        if (f->function_id == OSSL_FUNC_SIGNATURE_VERIFY_MESSAGE_FINAL)
            message_final = OSSL_FUNC_signature_verify_message_final(f);
    }
}

/* The two keys in the provider's own form, of the bytes that EVP exports. */
static void *own_key(EVP_PKEY *of) {
    int no_cache;
    unsigned char priv[64];
    size_t len = 0;
    void *made = NULL;
    const OSSL_ALGORITHM *all = OSSL_PROVIDER_query_operation(slh, OSSL_OP_KEYMGMT, &no_cache);
    while (strncmp(all->algorithm_names, FAST ":", sizeof FAST) != 0) all++;
    must(EVP_PKEY_get_octet_string_param(of, "priv", priv, sizeof priv, &len) == 1, "no bytes");
    OSSL_PARAM params[] = {OSSL_PARAM_construct_octet_string("priv", priv, len), OSSL_PARAM_construct_end()};
    for (const OSSL_DISPATCH *f = all->implementation; f->function_id != 0; f++)
        if (f->function_id == OSSL_FUNC_KEYMGMT_NEW)
            made = OSSL_FUNC_keymgmt_new(f)(OSSL_PROVIDER_get0_provider_ctx(slh));
    for (const OSSL_DISPATCH *f = all->implementation; f->function_id != 0; f++)
        if (f->function_id == OSSL_FUNC_KEYMGMT_IMPORT)
            must(OSSL_FUNC_keymgmt_import(f)(made, EVP_PKEY_KEYPAIR, params) == 1, "no key");
    return made;
}
static void free_own_key(void *it) {
    int no_cache;
    const OSSL_ALGORITHM *all = OSSL_PROVIDER_query_operation(slh, OSSL_OP_KEYMGMT, &no_cache);
    for (const OSSL_DISPATCH *f = all->implementation; f->function_id != 0; f++)
        if (f->function_id == OSSL_FUNC_KEYMGMT_FREE) OSSL_FUNC_keymgmt_free(f)(it);
}

static unsigned random_below(unsigned most) {
    static uint64_t state = 88172645463325252u;
    state ^= state << 13, state ^= state >> 7, state ^= state << 17;
    return (unsigned)(state >> 33) % most;
}

/* The message has ended, or has not begun: nothing is left of it. */
static void model_drop(struct model *m, int is_over) {
    m->len = 0, m->is_hashed = 0, m->signature = UNSET, m->has_begun = m->is_over = is_over;
}

static int steps_begin(struct model *m) {
    int by = (int)random_below(3) - 1, yes = 1, how = (int)random_below(3);
    OSSL_PARAM same[] = {OSSL_PARAM_construct_int("deterministic", &yes), OSSL_PARAM_construct_end()};
    void *with = by < 0 ? NULL : keys[by];
    int is = how == 2 ? message_init(m->it, with, NULL) : (how ? sign_init : verify_init)(m->it, NULL, with, same);
    if (by < 0 && m->key < 0) return !is;
    if (by >= 0) m->key = by;
    model_drop(m, 0);
    /* the random walk signs by deterministic contexts alone */
    return is && (how != 2 || set_params(m->it, same) == 1);
}

/* A piece is refused if the message is over, if it is null, or longer than one that is held or hashed may be. */
static int model_takes(struct model *m, const unsigned char *piece, size_t len) {
    int is = !m->is_over && (piece != NULL || len == 0) && len <= MOST_MODEL &&
             (m->is_hashed || m->len + len <= MOST);
    if (is && len != 0) memcpy(m->message + m->len, piece, len);
    if (is) m->len += len, m->has_begun = 1;
    else model_drop(m, 1);
    return is;
}

/* Pieces from anywhere, or what the signature's message still lacks. Only the calls for such messages begin to hash. */
static int steps_update(struct model *m) {
    static const size_t lengths[] = {0, 0, 1, 7, 64, 65, 500, MOST / 2, MOST, MOST + 1, SIZE_MAX};
    size_t len = lengths[random_below(sizeof lengths / sizeof *lengths)], from = random_below(MOST / 2);
    const unsigned char *piece = random_below(20) == 0 ? NULL : msg + from;
    size_t wanted = m->signature < 0 ? 0 : signed_lengths[m->signature % SIGNED];
    int how = (int)random_below(4);
    if (m->len < wanted && random_below(8) != 0) {
        piece = msg + m->len;
        len = random_below(2) ? wanted - m->len : (wanted - m->len) / 2;
    }
    if (len <= MOST + 1 && m->len + len > MOST_MODEL) return 1;
    if (how > 1 && !m->has_begun && !m->is_over && m->key >= 0 && m->signature != UNSET) m->is_hashed = 1;
    int is = (how > 1 ? message_update : how ? sign_update : verify_update)(m->it, piece, len);
    return is == model_takes(m, piece, len);
}

static int is_by_default(const struct model *m) {
    size_t len = sign_whole(m->key == 0 ? key : other_key, OURS, m->message, m->len, again);
    return len == SIG && memcmp(sig, again, SIG) == 0;
}

static int steps_sign(struct model *m) {
    size_t len = 0, room = random_below(4) == 0 ? SIG - 1 : SIG;
    int is = sign_final(m->it, sig, &len, room);
    int wanted = m->key >= 0 && !m->is_over && !m->is_hashed && room == SIG;
    int is_right = is == wanted && (!is || is_by_default(m));
    if (is) model_drop(m, 1);
    return is_right;
}

static int steps_verify(struct model *m) {
    int is_true = m->key >= 0 && random_below(2), wanted = is_true && !m->is_over && !m->is_hashed;
    if (is_true) sign_whole(m->key == 0 ? key : other_key, OURS, m->message, m->len, again);
    if (!is_true) memset(again, 0, SIG);
    model_drop(m, 1);
    return verify_final(m->it, again, SIG) == wanted;
}

/* Mostly a signature by the context's key. */
static int steps_set(struct model *m) {
    int which = (int)random_below(SIGNED) + (random_below(4) == 0 || m->key != 1 ? 0 : SIGNED), wanted = !m->is_hashed;
    size_t len = random_below(5) != 0 ? SIG : random_below(2) ? SIG + random_below(3) - 1 : 0;
    OSSL_PARAM params[] = {OSSL_PARAM_construct_octet_string("signature", known[which], len),
                           OSSL_PARAM_construct_end()};
    if (random_below(10) == 0) params[0].data = NULL;
    int is_null = params[0].data == NULL;
    if (m->is_hashed) model_drop(m, 1);
    else m->signature = is_null || len != SIG ? OTHER : which;
    return set_params(m->it, params) == (wanted && !is_null);
}

static int steps_message_final(struct model *m) {
    int at = m->signature;
    size_t len = at < 0 ? 0 : signed_lengths[at % SIGNED];
    int wanted = at >= 0 && !m->is_over && m->key == at / SIGNED && m->len == len && memcmp(m->message, msg, len) == 0;
    judged_true += wanted && m->is_hashed;
    model_drop(m, 1);
    return message_final(m->it) == wanted;
}

static int steps_message(struct model *m) {
    return steps_begin(m) && steps_set(m) && steps_update(m) && steps_update(m) && steps_message_final(m);
}

static int steps_whole(struct model *m) {
    size_t len = 0;
    int is = sign_at_once(m->it, sig, &len, SIG, msg, 11), wanted = m->key >= 0 && !m->has_begun;
    return is == wanted && (!is || (sign_whole(m->key == 0 ? key : other_key, OURS, msg, 11, again) == SIG &&
                                    memcmp(sig, again, SIG) == 0));
}

static int steps_copy(struct model *m) {
    struct model *to = &models[random_below(CONTEXTS)];
    if (to == m) return 1;
    drop(to->it);
    *to = *m;
    return (to->it = copy_of(m->it)) != NULL;
}

static int steps_anew(struct model *m) {
    drop(m->it);
    *m = (struct model){.it = make(OSSL_PROVIDER_get0_provider_ctx(slh), NULL), .key = -1, .signature = UNSET};
    return m->it != NULL;
}

static int walk(int steps) {
    static int (*const all[])(struct model *) = {steps_begin,         steps_set,     steps_update,  steps_update,
                                                 steps_update,        steps_sign,    steps_verify,  steps_whole,
                                                 steps_message_final, steps_message, steps_message, steps_copy,
                                                 steps_anew};
    for (int i = 0; i < 2 * SIGNED; i++)
        sign_whole(i < SIGNED ? key : other_key, OURS, msg, signed_lengths[i % SIGNED], known[i]);
    for (int i = 0; i < CONTEXTS; i++) steps_anew(&models[i]);
    for (int step = 0; step < steps; step++) {
        unsigned which = random_below(sizeof all / sizeof *all);
        int is = all[which](&models[random_below(CONTEXTS)]);
        ERR_clear_error();
        if (!is) return printf("step %d, of kind %u\n", step, which), 0;
    }
    for (int i = 0; i < CONTEXTS; i++) drop(models[i].it);
    printf("%u hashed messages were valid\n", judged_true);
    return steps > 0 && judged_true >= (unsigned)steps / 1000;
}

static void tell(const char *name, int is_right) {
    is_right ? passed++ : failed++;
    printf("%s: %s\n", name, is_right ? "yes" : "no");
}

static void run_all(const char *modules, int steps) {
    tell("each set takes pieces", each_set_takes_pieces());
    tell("pieces of 1 byte are the whole message", they_are_the_whole());
    tell("no piece is the empty message", none_is_the_empty_message());
    tell("there is a limit, and nothing of a longer message is signed", there_is_a_limit());
    tell("lengths do not overflow", lengths_do_not_overflow());
    tell("a null piece is refused", a_null_piece_is_refused());
    tell("copies go on by themselves", copies_part());
    tell("a message that is over is over", over_is_over());
    tell("beginning again drops the pieces", beginning_again_drops_pieces());
    tell("a whole message is refused behind pieces", a_whole_is_refused_behind_pieces());
    tell("the length is told, and pieces stay", the_length_is_told());
    tell("parameters that are set between pieces count", parameters_count());
    tell("signatures are counted", signatures_are_counted());
    tell("each set hashes a message behind its signature", each_set_is_hashed());
    tell("no piece is the empty message, by a signature before", no_piece_has_a_signature());
    tell("a signature that is set late counts", late_signatures_count());
    tell("the last signature counts", the_last_signature_counts());
    tell("no parameter changes a message that is hashed", parameters_are_too_late());
    tell("a signature of another length is invalid at the end", other_lengths_are_invalid());
    tell("the front is no piece", the_front_is_not_a_piece());
    tell("copies hash on by themselves", hashing_copies_part());
    tell("a hashed message that is over is over", hashed_is_over());
    tell("a whole message is refused behind hashed pieces", a_whole_is_refused_behind_hashed());
    tell("the internal form is held", the_internal_form_is_held());
    tell("64 MB are not held", a_long_message_is_not_held(modules));
    tell("random calls answer as the model", walk(steps));
    tell("messages are erased", unerased == 0 && looked_at > 1000);
}

int main(int count, char **words) {
    char most[] = "4096";
    OSSL_PARAM limited[] = {OSSL_PARAM_construct_utf8_string("max_message", most, 0), OSSL_PARAM_construct_end()};
    if (count != 3 || !CRYPTO_set_mem_functions(take, take_other, give_back)) return 2;
    for (size_t i = 0; i < sizeof msg; i++) msg[i] = (unsigned char)(random_below(255) + 1);
    libctx = OSSL_LIB_CTX_new();
    must(libctx != NULL && OSSL_PROVIDER_set_default_search_path(libctx, words[1]) == 1 &&
         OSSL_PROVIDER_load(libctx, "default") != NULL &&
         (slh = OSSL_PROVIDER_load_ex(libctx, "slh", limited)) != NULL, "no provider");
    key = generate(FAST, OURS, 1), other_key = generate(FAST, OURS, 100);
    take_functions();
    keys[0] = own_key(key), keys[1] = own_key(other_key);
    run_all(words[1], atoi(words[2]));
    free_own_key(keys[0]), free_own_key(keys[1]);
    EVP_PKEY_free(key), EVP_PKEY_free(other_key);
    printf("%d passed, %d failed\n", passed, failed);
    return failed != 0;
}
