/* A provider for OpenSSL 3.5 and later: SLH-DSA (FIPS 205) with SHA-2, by libslh. Encoding and decoding of keys stay
   OpenSSL's. It keeps no state but its context and what the caller holds. */
#include "provider.h"

#include <openssl/conf.h>
#include <openssl/provider.h>
#include <stdio.h>
#include <stdlib.h>

/* `openssl list -providers -verbose` prints "buildinfo". "signatures" is how many were made since the provider was
   loaded. */
static const OSSL_PARAM *gettable(void *prov) {
    static const OSSL_PARAM types[] = {
        OSSL_PARAM_utf8_ptr(OSSL_PROV_PARAM_NAME, NULL, 0), OSSL_PARAM_utf8_ptr(OSSL_PROV_PARAM_VERSION, NULL, 0),
        OSSL_PARAM_utf8_ptr(OSSL_PROV_PARAM_BUILDINFO, NULL, 0), OSSL_PARAM_uint(OSSL_PROV_PARAM_STATUS, NULL),
        OSSL_PARAM_size_t("signatures", NULL), OSSL_PARAM_END};
    return (void)prov, types;
}

static int get_params(void *handed, OSSL_PARAM params[]) {
    struct provider *prov = handed;
    return PUT(params, OSSL_PROV_PARAM_NAME, utf8_ptr, "SLH-DSA by libslh") &&
           PUT(params, OSSL_PROV_PARAM_VERSION, utf8_ptr, SLH_VERSION) &&
           PUT(params, OSSL_PROV_PARAM_BUILDINFO, utf8_ptr, prov->settings) &&
           PUT(params, OSSL_PROV_PARAM_STATUS, size_t, 1) &&
           PUT(params, "signatures", size_t, atomic_load(&prov->signatures));
}

static const OSSL_ALGORITHM *query(void *prov, int operation, int *no_cache) {
    (void)prov, *no_cache = 0;
    return operation == OSSL_OP_KEYMGMT ? keymgmts : operation == OSSL_OP_SIGNATURE ? signatures : NULL;
}

/* The sets as signature algorithms of TLS 1.3, by the code points 0x0911 to 0x0916 of the Internet-Draft
   draft-reddy-tls-slhdsa. OpenSSL copies the texts. */
#define OF_TLS(type, NAME, ...) OSSL_PARAM_construct_##type(OSSL_CAPABILITY_TLS_SIGALG_##NAME, __VA_ARGS__)
static int tell_tls(unsigned number, OSSL_CALLBACK *give, void *arg) {
    unsigned code = 0x0910 + number, bits = (unsigned)(8 * set_of(number)->n);
    int tls_1_3 = 0x0304, no_limit = 0, none = -1;
    char name[24], set[8], oid[32], iana[24];
    sscanf(signatures[number - 1].algorithm_names, "%23[^:]:id-slh-dsa-sha2-%7[^:]:%31s", name, set, oid);
    snprintf(iana, sizeof iana, "slhdsa_sha2_%s", set);
    OSSL_PARAM params[] = {
        OF_TLS(utf8_string, IANA_NAME, iana, 0), OF_TLS(utf8_string, NAME, name, 0), OF_TLS(utf8_string, OID, oid, 0),
        OF_TLS(uint, CODE_POINT, &code), OF_TLS(uint, SECURITY_BITS, &bits), OF_TLS(int, MIN_TLS, &tls_1_3),
        OF_TLS(int, MAX_TLS, &no_limit), OF_TLS(int, MIN_DTLS, &none), OF_TLS(int, MAX_DTLS, &none),
        OSSL_PARAM_construct_end()};
    return give(params, arg);
}

static int capabilities(void *prov, const char *name, OSSL_CALLBACK *give, void *arg) {
    if (!((struct provider *)prov)->tls || OPENSSL_strcasecmp(name, "TLS-SIGALG") != 0) return 1;
    for (unsigned number = 1; number <= 6; number++)
        if (!tell_tls(number, give, arg)) return 0;
    return 1;
}

static void teardown(void *prov) {
    OSSL_LIB_CTX_free(((struct provider *)prov)->libctx);
    OPENSSL_free(prov);
}

/* Reads a number of the provider's section of the configuration, if it stands there. */
static int read_number(const char *text, unsigned long least, unsigned long most, unsigned long *to) {
    char *end;
    if (text == NULL) return 1;
    *to = strtoul(text, &end, 10);
    return *text >= '0' && *text <= '9' && *end == 0 && least <= *to && *to <= most;
}

/* What OpenSSL and its configuration say. Without a provider that it can't load OpenSSL goes on, and signs by another:
   so a wrong value does not keep this one from being loaded, but from signing. */
#define TEXT(name, to) OSSL_PARAM_construct_utf8_ptr(name, &(to), 0)
static int read_core(struct provider *prov, const OSSL_CORE_HANDLE *handle, const OSSL_DISPATCH *in) {
    char *version = NULL, *workers = NULL, *twice = NULL, *tls = NULL, *max_message = NULL;
    unsigned major = 0, minor = 0;
    unsigned long threads = 1, times = 1, most = 1ul << 26;
    OSSL_PARAM params[] = {TEXT(OSSL_PROV_PARAM_CORE_VERSION, version), TEXT("workers", workers), TEXT("twice", twice),
                           TEXT("tls", tls), TEXT("max_message", max_message), OSSL_PARAM_construct_end()};
    while (in->function_id != 0 && in->function_id != OSSL_FUNC_CORE_GET_PARAMS) in++;
    if (in->function_id == 0 || !OSSL_FUNC_core_get_params(in)(handle, params) || version == NULL ||
        sscanf(version, "%u.%u", &major, &minor) != 2 || major < 3 || (major == 3 && minor < 5))
        return fail(ERR_R_UNSUPPORTED, "it needs OpenSSL 3.5 or later, which has SLH-DSA");
    if (slh_version() < SLH_VERSION_NUMBER) return fail(ERR_R_UNSUPPORTED, "it needs libslh " SLH_VERSION " or later");
    prov->tls = tls != NULL && strcmp(tls, "draft") == 0;
    if (!read_number(workers, 1, MOST_WORKERS, &threads) || !read_number(twice, 0, 1, &times) ||
        !read_number(max_message, 0, 1ul << 40, &most) || (tls != NULL && !prov->tls))
        threads = 0;
    prov->workers = (int)threads, prov->twice = (int)times, prov->max_message = most;
    snprintf(prov->settings, sizeof prov->settings, "workers=%lu twice=%lu tls=%s max_message=%lu", threads, times,
             prov->tls ? "draft" : "none", most);
    return 1;
}

#define OF(NAME, name, function) ENTRY(PROVIDER_##NAME, provider_##name, function)
int OSSL_provider_init(const OSSL_CORE_HANDLE *handle, const OSSL_DISPATCH *in, const OSSL_DISPATCH **out,
                       void **provctx) {
    static const OSSL_DISPATCH functions[] = {
        OF(TEARDOWN, teardown, teardown), OF(QUERY_OPERATION, query_operation, query),
        OF(GET_CAPABILITIES, get_capabilities, capabilities), OF(GETTABLE_PARAMS, gettable_params, gettable),
        OF(GET_PARAMS, get_params, get_params), OSSL_DISPATCH_END};
    struct provider *prov = OPENSSL_zalloc(sizeof *prov);
    *out = functions;
    *provctx = prov;
    if (prov == NULL) return 0;
    if (read_core(prov, handle, in) && (prov->libctx = OSSL_LIB_CTX_new_child(handle, in)) != NULL) return 1;
    return OPENSSL_free(prov), 0;
}

/* Whether a text of words has these words one after the other. */
static int has_words(const char *text, const char *words) {
    size_t len = strlen(words);
    for (const char *at = text; (at = strstr(at, words)) != NULL; at++)
        if ((at == text || at[-1] == ' ') && (at[len] == ' ' || at[len] == 0)) return 1;
    return 0;
}

/* OpenSSL runs this, by a name under which its headers have another function, for a section of its configuration that
   names this module by `path` (slh.cnf). It is an error unless the provider is active, with the section's settings. */
int is_required(CONF_IMODULE *section, const CONF *conf) __asm__("OPENSSL_init");
int is_required(CONF_IMODULE *section, const CONF *conf) {
    OSSL_LIB_CTX *libctx = NCONF_get0_libctx(conf);
    const char *wanted = NCONF_get_string(conf, CONF_imodule_get_value(section), "settings");
    char *settings = NULL;
    OSSL_PARAM params[] = {TEXT(OSSL_PROV_PARAM_BUILDINFO, settings), OSSL_PARAM_construct_end()};
    OSSL_PROVIDER *slh = OSSL_PROVIDER_available(libctx, "slh") ? OSSL_PROVIDER_load(libctx, "slh") : NULL;
    int is = slh != NULL && OSSL_PROVIDER_get_params(slh, params) && settings != NULL && wanted != NULL &&
             has_words(settings, wanted);
    OSSL_PROVIDER_unload(slh);
    return is || fail(PROV_R_INVALID_CONFIG_DATA, "the provider is required, and not active with these settings");
}
