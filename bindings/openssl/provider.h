/* Declarations that the files of the provider `slh` for OpenSSL share. docs/OPENSSL.md explains its use. */
#ifndef SLH_OPENSSL_PROVIDER_H
#define SLH_OPENSSL_PROVIDER_H

#include <openssl/core_dispatch.h>
#include <openssl/core_names.h>
#include <openssl/err.h>
#include <openssl/evp.h>
#include <openssl/proverr.h>
#include <openssl/rand.h>
#include <slh.h>
#include <stdatomic.h>
#include <string.h>

enum { MOST_WORKERS = 64, PRIVATE = OSSL_KEYMGMT_SELECT_PRIVATE_KEY, PUBLIC = OSSL_KEYMGMT_SELECT_PUBLIC_KEY };

/* An entry of a table of functions. The compiler reports a function whose type is not the one that OpenSSL calls. */
#define ENTRY(NAME, name, function) {OSSL_FUNC_##NAME, (void (*)(void))(1 ? (function) : (OSSL_FUNC_##name##_fn *)0)}

/* Entries of a list of parameters, and a function that lists some. */
#define BYTES(name) OSSL_PARAM_octet_string(name, NULL, 0)
#define INT(name) OSSL_PARAM_int(name, NULL)
#define LIST(function, ...)                                                                                            \
    static const OSSL_PARAM *function(void *it, void *prov) {                                                          \
        static const OSSL_PARAM all[] = {__VA_ARGS__, OSSL_PARAM_END};                                                 \
        return (void)it, (void)prov, all;                                                                              \
    }

/* A parameter set: libslh's number of it, by how many levels its XMSS trees are cut into jobs, and lengths in bytes. */
struct set {
    uint32_t number, xmss_levels;
    size_t n, sig_len;
};
const struct set *set_of(uint32_t number);

/* A provider's context: where random bytes are drawn, and how signatures are made, by how many threads and whether each
   job is done two times and its answers compared. 0 workers stand for a configuration that is wrong. tls is whether TLS
   is told the sets, and max_message how many bytes of a message are held. settings is all this as a text. */
struct provider {
    OSSL_LIB_CTX *libctx;
    int workers, twice, tls;
    size_t max_message;
    char settings[112];
    atomic_size_t signatures;
};

/* A key: it has PRIVATE, PUBLIC, both or nothing. sk is SK.seed || SK.prf || PK.seed || PK.root; in a public key the
   first half is zero. Once a key has something it does not change, so threads may share it. */
struct key {
    atomic_uint holders;
    const struct set *set;
    int has;
    uint8_t sk[SLH_MAX_SECRET_KEY];
};
void key_free(void *key);
int key_has(const void *key, int selection);
static inline size_t sk_len(const struct key *it) { return 4 * it->set->n; }
static inline size_t pk_len(const struct key *it) { return 2 * it->set->n; }
static inline const uint8_t *pk(const struct key *it) { return it->sk + pk_len(it); }
/* Bytes and their number, as libslh takes them: of a key, and of a member that has its own length. */
#define SK(key) (key)->sk, sk_len(key)
#define PK(key) pk(key), pk_len(key)
#define ALL(it, member) (it)->member, (it)->member##_len

/* The options of a caller for signatures under a key. encoding is 1 in the pure form. It is 0 in the internal form, for
   test vectors, whose message is M' as it is. The pieces of a message are held until it is over, or hashed, if sig is
   its signature that was set before them. sig_len is 0 if that has a wrong length. */
struct signature {
    struct provider *prov;
    const struct set *set;
    struct key *key;
    int workers, twice, deterministic, encoding;
    enum { NO_PIECES, HELD, HASHED, OVER } pieces;
    uint8_t *held, *sig;
    EVP_MD_CTX *hash;
    size_t held_len, held_room, sig_len, context_len, entropy_len;
    uint8_t context[SLH_MAX_CONTEXT], entropy[SLH_MAX_N];
};
/* Makes a signature of the pure form by its jobs, with the entropy as its randomizer. Unless it returns SLH_DONE it has
   written nothing: so it is where two answers of one job differ. */
uint32_t sign_by_jobs(const struct signature *it, const uint8_t *msg, size_t msg_len, uint8_t *sig);

/* Whether a parameter has bytes, as the default provider takes them: no pointer to a pointer, and not null. */
static inline int has_bytes(const OSSL_PARAM *it) {
    return it->data_type == OSSL_PARAM_OCTET_STRING && it->data != NULL;
}

/* Puts a value of this type into a parameter, if the caller asks for it. */
#define PUT(params, name, type, ...)                                                                                   \
    (OSSL_PARAM_locate(params, name) == NULL || OSSL_PARAM_set_##type(OSSL_PARAM_locate(params, name), __VA_ARGS__))

/* Queues an error, and returns 0. */
static inline int fail(int why, const char *text) { return ERR_raise_data(ERR_LIB_PROV, why, "slh: %s", text), 0; }

extern const OSSL_ALGORITHM keymgmts[], signatures[];

/* The six sets, by the default provider's names, with the tables NAME_1 to NAME_6. slh.cnf prefers slh.first. */
#define ALGORITHM(set, oid, table)                                                                                     \
    {"SLH-DSA-SHA2-" set ":id-slh-dsa-sha2-" set ":2.16.840.1.101.3.4.3." oid, "provider=slh,slh.first=yes", table,    \
     "by libslh"}
#define ALL_SETS(name)                                                                                                 \
    {ALGORITHM("128s", "20", name##_1), ALGORITHM("128f", "21", name##_2), ALGORITHM("192s", "22", name##_3),          \
     ALGORITHM("192f", "23", name##_4), ALGORITHM("256s", "24", name##_5), ALGORITHM("256f", "25", name##_6), {0}}

#endif
