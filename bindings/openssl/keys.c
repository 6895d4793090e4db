/* Keys: they are made, imported, exported, compared and checked as those of OpenSSL's default provider. */
#include "provider.h"

/* The trees are cut as docs/BENCHMARKS.md has it for four workers. */
#define SET(name, levels) {SLH_DSA_SHA2_##name, levels, SLH_DSA_SHA2_##name##_N, SLH_DSA_SHA2_##name##_SIGNATURE}
const struct set *set_of(uint32_t number) {
    static const struct set sets[] = {SET(128S, 4), SET(128F, 0), SET(192S, 4),
                                      SET(192F, 0), SET(256S, 3), SET(256F, 1)};
    return &sets[number - 1];
}

static struct key *key_new(const struct set *set) {
    struct key *key = OPENSSL_zalloc(sizeof *key);
    if (key != NULL) atomic_init(&key->holders, 1), key->set = set;
    return key;
}

/* A signature context holds its key, too: the last holder erases it. */
void key_free(void *it) {
    struct key *key = it;
    if (key != NULL && atomic_fetch_sub(&key->holders, 1) == 1) OPENSSL_clear_free(key, sizeof *key);
}

int key_has(const void *it, int selection) {
    const struct key *key = it;
    return key != NULL && (selection & OSSL_KEYMGMT_SELECT_KEYPAIR & ~key->has) == 0;
}

/* No private key is without its public key: unless that is selected, nothing is copied. */
static void *key_dup(const void *it, int selection) {
    const struct key *from = it;
    struct key *key = key_new(from->set);
    if (key == NULL || !(from->has & selection & PUBLIC)) return key;
    key->has = from->has & selection & OSSL_KEYMGMT_SELECT_KEYPAIR;
    if (key->has & PRIVATE) memcpy(key->sk, from->sk, pk_len(from));
    memcpy(key->sk + pk_len(from), pk(from), pk_len(from));
    return key;
}

/* Where both keys have what is selected, public keys are compared, and else private ones. */
static int key_match(const void *one, const void *two, int selection) {
    const struct key *a = one, *b = two;
    int both = a->has & b->has & selection;
    if (a->set != b->set) return 0;
    if (!(selection & OSSL_KEYMGMT_SELECT_KEYPAIR)) return 1;
    if (both & PUBLIC) return memcmp(pk(a), pk(b), pk_len(a)) == 0;
    return (both & PRIVATE) && CRYPTO_memcmp(a->sk, b->sk, sk_len(a)) == 0;
}

static int key_validate(const void *it, int selection, int how) {
    const struct key *key = it;
    (void)how;
    if (!(selection & PRIVATE) || !key_has(key, selection)) return key_has(key, selection);
    return slh_check(key->set->number, SK(key)) == SLH_DONE ||
           fail(PROV_R_INVALID_KEY, "PK.root is not the root that the seeds give");
}

/* Copies bytes of one of two lengths, and returns their number; 0 where there are others. */
static size_t copy(const OSSL_PARAM *from, uint8_t *to, size_t len, size_t other) {
    if (!has_bytes(from) || (from->data_size != len && from->data_size != other))
        return (size_t)fail(PROV_R_INVALID_KEY_LENGTH, "priv has 4n bytes, or 2n beside pub, which has 2n");
    return memcpy(to, from->data, from->data_size), from->data_size;
}

static int key_read(struct key *key, int selection, const OSSL_PARAM params[]) {
    const OSSL_PARAM *priv = selection & PRIVATE ? OSSL_PARAM_locate_const(params, OSSL_PKEY_PARAM_PRIV_KEY) : NULL;
    const OSSL_PARAM *pub = OSSL_PARAM_locate_const(params, OSSL_PKEY_PARAM_PUB_KEY);
    uint8_t given[SLH_MAX_PUBLIC_KEY];
    size_t len = 0;
    if (priv != NULL && (len = copy(priv, key->sk, sk_len(key), pk_len(key))) == 0) return 0;
    if (pub == NULL && len != sk_len(key)) return fail(PROV_R_MISSING_KEY, "there is no public key");
    if (pub != NULL && copy(pub, given, pk_len(key), pk_len(key)) == 0) return 0;
    if (pub != NULL && len == sk_len(key) && memcmp(given, pk(key), pk_len(key)) != 0)
        return fail(PROV_R_INVALID_KEY, "pub is not the public key of priv");
    if (pub != NULL) memcpy(key->sk + pk_len(key), given, pk_len(key));
    key->has = priv == NULL ? PUBLIC : PUBLIC | PRIVATE;
    return 1;
}

/* A key that has something stays as it is. */
static int key_import(void *it, int selection, const OSSL_PARAM params[]) {
    struct key *key = it;
    if (!(selection & OSSL_KEYMGMT_SELECT_KEYPAIR) || key->has != 0) return 0;
    if (key_read(key, selection, params)) return 1;
    return OPENSSL_cleanse(key->sk, sizeof key->sk), 0;
}

static int key_export(void *it, int selection, OSSL_CALLBACK *give, void *arg) {
    struct key *key = it;
    OSSL_PARAM params[3], *next = params;
    if (!(selection & OSSL_KEYMGMT_SELECT_KEYPAIR) || !(key->has & PUBLIC)) return 0;
    if (key->has & selection & PRIVATE) *next++ = OSSL_PARAM_construct_octet_string(OSSL_PKEY_PARAM_PRIV_KEY, SK(key));
    *next++ = OSSL_PARAM_construct_octet_string(OSSL_PKEY_PARAM_PUB_KEY, key->sk + pk_len(key), pk_len(key));
    *next = OSSL_PARAM_construct_end();
    return give(params, arg);
}

static const OSSL_PARAM types[] = {
    INT(OSSL_PKEY_PARAM_BITS), INT(OSSL_PKEY_PARAM_SECURITY_BITS), INT(OSSL_PKEY_PARAM_MAX_SIZE),
    OSSL_PARAM_utf8_string(OSSL_PKEY_PARAM_MANDATORY_DIGEST, NULL, 0), BYTES(OSSL_PKEY_PARAM_PUB_KEY),
    BYTES(OSSL_PKEY_PARAM_PRIV_KEY), OSSL_PARAM_END};
static const OSSL_PARAM *key_gettable(void *prov) { return (void)prov, types; }
/* The last two of these are imported and exported. */
static const OSSL_PARAM *key_types(int selection) { return selection & (PRIVATE | PUBLIC) ? types + 4 : NULL; }

/* The mandatory digest is an empty text: programs that need the name of one then take none. */
static int key_get_params(void *it, OSSL_PARAM params[]) {
    const struct key *key = it;
    return PUT(params, OSSL_PKEY_PARAM_BITS, size_t, 8 * pk_len(key)) &&
           PUT(params, OSSL_PKEY_PARAM_SECURITY_BITS, size_t, 8 * key->set->n) &&
           PUT(params, OSSL_PKEY_PARAM_MAX_SIZE, size_t, key->set->sig_len) &&
           (!(key->has & PUBLIC) || PUT(params, OSSL_PKEY_PARAM_PUB_KEY, octet_string, PK(key))) &&
           (!(key->has & PRIVATE) || PUT(params, OSSL_PKEY_PARAM_PRIV_KEY, octet_string, SK(key))) &&
           PUT(params, OSSL_PKEY_PARAM_MANDATORY_DIGEST, utf8_string, "");
}

/* A key that is to be made, of the seeds SK.seed, SK.prf and PK.seed where they are given. */
struct generation {
    OSSL_LIB_CTX *libctx;
    const struct set *set;
    size_t given;
    uint8_t seeds[3 * SLH_MAX_N];
};

/* After seeds that are refused there are none, as in the default provider: they are drawn then. */
static int generation_set_params(void *handed, const OSSL_PARAM params[]) {
    struct generation *it = handed;
    const OSSL_PARAM *from = OSSL_PARAM_locate_const(params, OSSL_PKEY_PARAM_SLH_DSA_SEED);
    const OSSL_PARAM *text = OSSL_PARAM_locate_const(params, OSSL_PKEY_PARAM_PROPERTIES);
    if (from != NULL) it->given = 0;
    if (from != NULL && (!has_bytes(from) || from->data_size > sizeof it->seeds))
        return fail(PROV_R_INVALID_SEED_LENGTH, "the seeds have 3n bytes");
    if (from != NULL) memcpy(it->seeds, from->data, it->given = from->data_size);
    return text == NULL || (text->data_type == OSSL_PARAM_UTF8_STRING && text->data != NULL) ||
           fail(PROV_R_INVALID_DATA, "properties is a text");
}

/* "properties" tells the default provider where its hash functions are from, and nothing here. */
LIST(generation_settable, BYTES(OSSL_PKEY_PARAM_SLH_DSA_SEED),
     OSSL_PARAM_utf8_string(OSSL_PKEY_PARAM_PROPERTIES, NULL, 0))

static void generation_free(void *it) { OPENSSL_clear_free(it, sizeof(struct generation)); }

static void *generation_new(struct provider *prov, uint32_t number, const OSSL_PARAM params[]) {
    struct generation *it = OPENSSL_zalloc(sizeof *it);
    if (it == NULL) return NULL;
    it->libctx = prov->libctx, it->set = set_of(number);
    if (generation_set_params(it, params)) return it;
    return generation_free(it), NULL;
}

/* Whether there are seeds, given or drawn: SK.seed and SK.prf as secret bytes, PK.seed as public ones. */
static int has_seeds(struct generation *it) {
    size_t n = it->set->n;
    unsigned strength = (unsigned)(8 * n);
    if (it->given != 0) return it->given == 3 * n || fail(PROV_R_INVALID_SEED_LENGTH, "the seeds have 3n bytes");
    return RAND_priv_bytes_ex(it->libctx, it->seeds, 2 * n, strength) > 0 &&
           RAND_bytes_ex(it->libctx, it->seeds + 2 * n, n, strength) > 0;
}

static void *generation_run(void *handed, OSSL_CALLBACK *tell, void *arg) {
    struct generation *it = handed;
    size_t n = it->set->n;
    struct key *key = has_seeds(it) ? key_new(it->set) : NULL;
    (void)tell, (void)arg;
    if (key == NULL) return NULL;
    key->has = PUBLIC | PRIVATE;
    uint32_t result = slh_keygen(it->set->number, it->seeds, n, it->seeds + n, n, it->seeds + 2 * n, n, SK(key));
    if (result == SLH_DONE && slh_check(it->set->number, SK(key)) == SLH_DONE) return key;
    if (result == SLH_DONE) fail(PROV_R_INVALID_KEY, "the key that was made is wrong, by a fault");
    return key_free(key), NULL;
}

#define OF(NAME, name, function) ENTRY(KEYMGMT_##NAME, keymgmt_##name, function)
#define KEYMGMT(number)                                                                                                \
    static void *new_##number(void *prov) { return (void)prov, key_new(set_of(number)); }                              \
    static void *generation_##number(void *prov, int selection, const OSSL_PARAM params[]) {                           \
        return (void)selection, generation_new(prov, number, params);                                                  \
    }                                                                                                                  \
    static const OSSL_DISPATCH keymgmt_##number[] = {                                                                  \
        OF(NEW, new, new_##number), OF(FREE, free, key_free), OF(HAS, has, key_has), OF(DUP, dup, key_dup),            \
        OF(MATCH, match, key_match), OF(VALIDATE, validate, key_validate), OF(IMPORT, import, key_import),             \
        OF(IMPORT_TYPES, import_types, key_types), OF(EXPORT, export, key_export),                                     \
        OF(EXPORT_TYPES, export_types, key_types), OF(GET_PARAMS, get_params, key_get_params),                         \
        OF(GETTABLE_PARAMS, gettable_params, key_gettable), OF(GEN_INIT, gen_init, generation_##number),               \
        OF(GEN_SET_PARAMS, gen_set_params, generation_set_params), OF(GEN, gen, generation_run),                       \
        OF(GEN_SETTABLE_PARAMS, gen_settable_params, generation_settable),                                             \
        OF(GEN_CLEANUP, gen_cleanup, generation_free), OSSL_DISPATCH_END};
KEYMGMT(1) KEYMGMT(2) KEYMGMT(3) KEYMGMT(4) KEYMGMT(5) KEYMGMT(6)
const OSSL_ALGORITHM keymgmts[] = ALL_SETS(keymgmt);
