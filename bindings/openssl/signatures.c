/* Signing and verifying, as OpenSSL's default provider does it, and of messages that come in pieces. */
#include "provider.h"
#include <limits.h>
#include <slh_internal.h>

static void *signature_new(struct provider *prov, uint32_t number) {
    struct signature *it = OPENSSL_zalloc(sizeof *it);
    if (it == NULL) return NULL;
    it->prov = prov, it->set = set_of(number);
    it->workers = prov->workers, it->twice = prov->twice, it->encoding = 1;
    return it;
}

/* Erases the pieces of a message, and drops its signature. */
static void drop(struct signature *it, int pieces) {
    OPENSSL_clear_free(it->held, it->held_room);
    OPENSSL_free(it->sig), EVP_MD_CTX_free(it->hash);
    it->held = it->sig = NULL, it->hash = NULL, it->held_len = it->held_room = it->sig_len = 0, it->pieces = pieces;
}

static void signature_free(void *handed) {
    struct signature *it = handed;
    if (it == NULL) return;
    drop(it, NO_PIECES), key_free(it->key);
    OPENSSL_clear_free(it, sizeof *it);
}

/* EVP_MD_CTX_dup is not in OpenSSL 3.0, which has to load this to be told that it is too old. */
static void *signature_dup(void *handed) {
    const struct signature *from = handed;
    struct signature *it = OPENSSL_memdup(from, sizeof *it);
    if (it == NULL) return NULL;
    it->held = OPENSSL_memdup(from->held, it->held_room = it->held_len);
    it->sig = OPENSSL_memdup(from->sig, it->set->sig_len);
    it->hash = from->hash == NULL ? NULL : EVP_MD_CTX_new();
    if (it->key != NULL) atomic_fetch_add(&it->key->holders, 1);
    int is_copied = it->hash == NULL || EVP_MD_CTX_copy_ex(it->hash, from->hash);
    if (!it->held == !from->held && !it->sig == !from->sig && !it->hash == !from->hash && is_copied) return it;
    return signature_free(it), NULL;
}

/* Ends a message in pieces that is refused: what is signed or verified must not be a part of it. */
static int refuse(struct signature *it, const char *text) {
    return drop(it, OVER), fail(PROV_R_INVALID_DATA, text);
}

static int set_number(const OSSL_PARAM params[], const char *name, int least, int most, int *to) {
    const OSSL_PARAM *from = OSSL_PARAM_locate_const(params, name);
    int found = *to;
    if (from != NULL && (from->data == NULL || !OSSL_PARAM_get_int(from, &found) || found < least || found > most))
        return fail(PROV_R_INVALID_DATA, name);
    *to = found;
    return 1;
}

/* A refused value changes nothing, so that nothing is signed under a part of a context. */
static int set_bytes(const OSSL_PARAM params[], const char *name, uint8_t *to, size_t least, size_t most, size_t *len) {
    const OSSL_PARAM *from = OSSL_PARAM_locate_const(params, name);
    if (from == NULL) return 1;
    if (!has_bytes(from) || from->data_size < least || from->data_size > most)
        return fail(PROV_R_INVALID_DATA, name);
    memcpy(to, from->data, *len = from->data_size);
    return 1;
}

/* The last signature counts, also if it is refused. One of a wrong length is as invalid as one of no bytes. */
static int set_signature(struct signature *it, const OSSL_PARAM params[]) {
    const OSSL_PARAM *from = OSSL_PARAM_locate_const(params, OSSL_SIGNATURE_PARAM_SIGNATURE);
    size_t len = it->set->sig_len;
    if (from == NULL) return 1;
    if (it->sig == NULL && (it->sig = OPENSSL_zalloc(len)) == NULL) return 0;
    it->sig_len = 0;
    return (has_bytes(from) && from->data_size != len) || set_bytes(params, from->key, it->sig, len, len, &it->sig_len);
}

static int set_params(void *handed, const OSSL_PARAM params[]) {
    struct signature *it = handed;
    size_t n = it->set->n;
    if (it->pieces == HASHED && params != NULL && params->key != NULL) return refuse(it, "a parameter came too late");
    return set_number(params, OSSL_SIGNATURE_PARAM_DETERMINISTIC, INT_MIN, INT_MAX, &it->deterministic) &&
           set_number(params, OSSL_SIGNATURE_PARAM_MESSAGE_ENCODING, 0, 1, &it->encoding) &&
           set_number(params, "workers", 1, MOST_WORKERS, &it->workers) &&
           set_number(params, "twice", 0, 1, &it->twice) &&
           set_bytes(params, OSSL_SIGNATURE_PARAM_CONTEXT_STRING, it->context, 0, SLH_MAX_CONTEXT, &it->context_len) &&
           set_bytes(params, OSSL_SIGNATURE_PARAM_TEST_ENTROPY, it->entropy, n, n, &it->entropy_len) &&
           set_signature(it, params);
}

LIST(settable, BYTES(OSSL_SIGNATURE_PARAM_CONTEXT_STRING), BYTES(OSSL_SIGNATURE_PARAM_TEST_ENTROPY),
     BYTES(OSSL_SIGNATURE_PARAM_SIGNATURE), INT(OSSL_SIGNATURE_PARAM_DETERMINISTIC),
     INT(OSSL_SIGNATURE_PARAM_MESSAGE_ENCODING), INT("workers"), INT("twice"))

/* The AlgorithmIdentifier is a sequence of the object identifier alone: it has no parameters. */
static int get_params(void *handed, OSSL_PARAM params[]) {
    const struct signature *it = handed;
    uint8_t id[] = {0x30, 11, 6, 9, 0x60, 0x86, 0x48, 1, 0x65, 3, 4, 3, (uint8_t)(19 + it->set->number)};
    return PUT(params, OSSL_SIGNATURE_PARAM_ALGORITHM_ID, octet_string, id, sizeof id);
}
LIST(gettable, BYTES(OSSL_SIGNATURE_PARAM_ALGORITHM_ID))

/* Begins to sign or verify, under this key or, without one, that of the call before. SLH-DSA hashes messages
   itself: no digest may be named. */
static int init(struct signature *it, const char *digest, struct key *key, const OSSL_PARAM params[], int needed) {
    if (digest != NULL && *digest != 0) return fail(PROV_R_INVALID_DIGEST, "SLH-DSA takes no digest");
    if (key == NULL) key = it->key;
    if (key == NULL) return fail(PROV_R_NO_KEY_SET, "");
    if (key->set != it->set) return fail(PROV_R_INVALID_KEY, "the key is of another set");
    if (!key_has(key, needed)) return fail(PROV_R_NOT_A_PRIVATE_KEY, "");
    if (needed == PRIVATE && it->workers == 0)
        return fail(PROV_R_INVALID_CONFIG_DATA, "in the configuration workers is 1 to 64, twice 0 or 1, tls draft, and "
                                                "max_message at most 1099511627776");
    drop(it, NO_PIECES);
    atomic_fetch_add(&key->holders, 1);
    key_free(it->key);
    it->key = key;
    return set_params(it, params);
}
static int digest_sign_init(void *it, const char *digest, void *key, const OSSL_PARAM params[]) {
    return init(it, digest, key, params, PRIVATE);
}
static int digest_verify_init(void *it, const char *digest, void *key, const OSSL_PARAM params[]) {
    return init(it, digest, key, params, PUBLIC);
}
static int sign_init(void *it, void *key, const OSSL_PARAM params[]) { return init(it, NULL, key, params, PRIVATE); }
static int verify_init(void *it, void *key, const OSSL_PARAM params[]) { return init(it, NULL, key, params, PUBLIC); }

static uint32_t make_internal(const struct signature *it, const uint8_t *msg, size_t msg_len, uint8_t *sig) {
    return slh_sign_internal(it->set->number, SK(it->key), msg, msg_len, ALL(it, entropy), sig, it->set->sig_len);
}

/* libslh has no call that signs two times in the internal form. */
static uint32_t make_internal_twice(const struct signature *it, const uint8_t *msg, size_t msg_len, uint8_t *sig) {
    size_t len = it->set->sig_len;
    uint8_t *both = OPENSSL_malloc(2 * len);
    if (both == NULL) return SLH_NO_MEMORY;
    uint32_t result = make_internal(it, msg, msg_len, both);
    if (result == SLH_DONE) result = make_internal(it, msg, msg_len, both + len);
    if (result == SLH_DONE && CRYPTO_memcmp(both, both + len, len) != 0)
        result = SLH_FAULT, fail(PROV_R_FAILED_TO_SIGN, "two computations differ, by a fault");
    if (result == SLH_DONE) memcpy(sig, both, len);
    OPENSSL_clear_free(both, 2 * len);
    return result;
}

static uint32_t make(const struct signature *it, const uint8_t *msg, size_t msg_len, uint8_t *sig) {
    uint32_t set = it->set->number;
    if (it->encoding == 0) return (it->twice ? make_internal_twice : make_internal)(it, msg, msg_len, sig);
    if (it->workers > 1 || it->twice) return sign_by_jobs(it, msg, msg_len, sig);
    return slh_sign(set, SK(it->key), msg, msg_len, ALL(it, context), ALL(it, entropy), sig, it->set->sig_len);
}

/* Of a message that began in pieces all pieces are signed or verified, and nothing else. */
static int is_whole(const struct signature *it, const uint8_t *msg) {
    return it->pieces == NO_PIECES || (it->pieces == HELD && msg == it->held) ||
           fail(PROV_R_INVALID_DATA, "the message has begun in pieces, or a piece was refused");
}

/* libslh asks of its caller that an output overlaps no input, and that no length is above PTRDIFF_MAX. */
static int sign(void *handed, unsigned char *sig, size_t *len, size_t room, const unsigned char *msg, size_t msg_len) {
    struct signature it = *(struct signature *)handed;
    size_t n = it.set->n;
    uintptr_t out = (uintptr_t)sig, in = (uintptr_t)msg;
    if (!key_has(it.key, PRIVATE)) return fail(PROV_R_NOT_A_PRIVATE_KEY, "");
    if (sig == NULL) return *len = it.set->sig_len, 1;
    if (room < it.set->sig_len) return fail(PROV_R_INVALID_SIGNATURE_SIZE, "there is no room for the signature");
    if (!is_whole(&it, msg)) return 0;
    if (msg_len > PTRDIFF_MAX || (msg_len != 0 && in < out + it.set->sig_len && out < in + msg_len))
        return fail(PROV_R_INVALID_DATA, "the message is too long, or overlaps the signature");
    if (it.entropy_len == 0 && !it.deterministic) {
        if (RAND_priv_bytes_ex(it.prov->libctx, it.entropy, n, (unsigned)(8 * n)) <= 0) return 0;
        it.entropy_len = n;
    }
    uint32_t result = make(&it, msg, msg_len, sig);
    OPENSSL_cleanse(it.entropy, sizeof it.entropy);
    if (result != SLH_DONE) return fail(PROV_R_FAILED_TO_SIGN, "");
    atomic_fetch_add(&it.prov->signatures, 1);
    return *len = it.set->sig_len, 1;
}

static int verify(void *handed, const unsigned char *sig, size_t len, const unsigned char *msg, size_t msg_len) {
    const struct signature *it = handed;
    if (it->key == NULL) return fail(PROV_R_NO_KEY_SET, "");
    if (!is_whole(it, msg)) return 0;
    if (it->encoding == 0)
        return slh_verify_internal(it->set->number, PK(it->key), msg, msg_len, sig, len) == SLH_DONE;
    return slh_verify(it->set->number, PK(it->key), msg, msg_len, ALL(it, context), sig, len) == SLH_DONE;
}

/* Takes one more piece. Signing hashes the whole message two times. Verifying hashes R before it, which is not known if
   the signature comes last. So pieces are held, unless they are hashed. */
static int update(void *handed, const unsigned char *piece, size_t len) {
    struct signature *it = handed;
    size_t most = it->prov->max_message, all = it->held_len + len;
    if (it->pieces == OVER || (piece == NULL && len != 0)) return refuse(it, "the message is over, or a piece is null");
    if (it->pieces == HASHED)
        return (len <= PTRDIFF_MAX && EVP_DigestUpdate(it->hash, piece, len)) || refuse(it, "the digest failed");
    if (len > most || it->held_len > most - len) return refuse(it, "the pieces are longer than max_message");
    if (all > it->held_room) {
        size_t room = all > most / 2 ? most : 2 * all;
        uint8_t *held = OPENSSL_clear_realloc(it->held, it->held_room, room);
        if (held == NULL) return refuse(it, "there is no memory for the pieces");
        it->held = held, it->held_room = room;
    }
    if (len != 0) memcpy(it->held + it->held_len, piece, len);
    it->held_len = all, it->pieces = HELD;
    return 1;
}

/* Begins the inner hash of H_msg by what stands before the message: R, PK.seed, PK.root and the context. A signature of
   a wrong length has no R, and is invalid at the end. The digest is another provider's, since this one has none. */
static int begin_hash(struct signature *it) {
    uint8_t front[SLH_MAX_FRONT];
    size_t n = it->set->n, len = 3 * n + 2 + it->context_len;
    EVP_MD *md = EVP_MD_fetch(it->prov->libctx, n == 16 ? "SHA2-256" : "SHA2-512", NULL);
    int has_r = slh_verify_front(it->set->number, PK(it->key), ALL(it, context), ALL(it, sig), front, len) == SLH_DONE;
    int is_begun = (has_r || it->sig_len == 0) && md != NULL && (it->hash = EVP_MD_CTX_new()) != NULL &&
                   EVP_DigestInit_ex2(it->hash, md, NULL) && (!has_r || EVP_DigestUpdate(it->hash, front, len));
    EVP_MD_free(md);
    it->pieces = HASHED;
    return is_begun || refuse(it, "no digest begins");
}

/* In the pure form pieces are hashed if the signature is set before them. Else they are held. */
static int verify_update(void *handed, const unsigned char *piece, size_t len) {
    struct signature *it = handed;
    int is_first = it->pieces == NO_PIECES && it->key != NULL && it->sig != NULL && it->encoding == 1;
    return (!is_first || begin_hash(it)) && update(it, piece, len);
}

/* A caller that only asks for the signature's length, or has no room for it, may call again. */
static int sign_final(void *handed, unsigned char *sig, size_t *len, size_t room) {
    struct signature *it = handed;
    if (!sign(it, sig, len, room, it->held, it->held_len)) return 0;
    if (sig != NULL) drop(it, OVER);
    return 1;
}
static int verify_final(void *handed, const unsigned char *sig, size_t len) {
    struct signature *it = handed;
    int is_valid = verify(it, sig, len, it->held, it->held_len);
    return drop(it, OVER), is_valid;
}

/* Verifies the signature that was set, by the hash of the message or by the pieces that are held. */
static int verify_message_final(void *handed) {
    struct signature *it = handed;
    uint8_t hash[EVP_MAX_MD_SIZE];
    unsigned len = 0;
    if (it->pieces != HASHED) return verify_final(it, it->sig, it->sig_len);
    if (!EVP_DigestFinal_ex(it->hash, hash, &len)) return refuse(it, "the digest failed");
    int is_valid = slh_verify_hashed(it->set->number, PK(it->key), hash, len, ALL(it, sig)) == SLH_DONE;
    return drop(it, OVER), is_valid;
}

/* SIGN_INIT and VERIFY_INIT must not stand here: with them `cms` signs the digest of a message in its place. */
#define OF(NAME, name, function) ENTRY(SIGNATURE_##NAME, signature_##name, function)
#define SIGNATURE(number)                                                                                              \
    static void *new_##number(void *prov, const char *query) { return (void)query, signature_new(prov, number); }      \
    static const OSSL_DISPATCH signature_##number[] = {                                                                \
        OF(NEWCTX, newctx, new_##number), OF(FREECTX, freectx, signature_free), OF(DUPCTX, dupctx, signature_dup),     \
        OF(SIGN_MESSAGE_INIT, sign_message_init, sign_init), OF(SIGN, sign, sign), OF(DIGEST_SIGN, digest_sign, sign), \
        OF(DIGEST_SIGN_INIT, digest_sign_init, digest_sign_init), OF(DIGEST_SIGN_UPDATE, digest_sign_update, update),  \
        OF(DIGEST_SIGN_FINAL, digest_sign_final, sign_final), OF(DIGEST_VERIFY_UPDATE, digest_verify_update, update),  \
        OF(DIGEST_VERIFY_INIT, digest_verify_init, digest_verify_init),                                                \
        OF(DIGEST_VERIFY_FINAL, digest_verify_final, verify_final),                                                    \
        OF(VERIFY_MESSAGE_INIT, verify_message_init, verify_init), OF(VERIFY, verify, verify),                         \
        OF(VERIFY_MESSAGE_UPDATE, verify_message_update, verify_update),                                               \
        OF(VERIFY_MESSAGE_FINAL, verify_message_final, verify_message_final), OF(DIGEST_VERIFY, digest_verify, verify),\
        OF(SET_CTX_PARAMS, set_ctx_params, set_params), OF(SETTABLE_CTX_PARAMS, settable_ctx_params, settable),        \
        OF(GET_CTX_PARAMS, get_ctx_params, get_params),                                                                \
        OF(GETTABLE_CTX_PARAMS, gettable_ctx_params, gettable), OSSL_DISPATCH_END};
SIGNATURE(1) SIGNATURE(2) SIGNATURE(3) SIGNATURE(4) SIGNATURE(5) SIGNATURE(6)
const OSSL_ALGORITHM signatures[] = ALL_SETS(signature);
