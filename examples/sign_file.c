/* Makes a key, signs a file and verifies the signature, and then writes it into FILE.sig and the public key, as a key
   file of slh, into FILE.pub: sign_file FILE
   So it verifies by: slh verify --key FILE.pub --message FILE --signature FILE.sig */
#include <slh.h>

#include <stdio.h>
#include <stdlib.h>

#define SET SLH_DSA_SHA2_128F
enum { N = SLH_DSA_SHA2_128F_N };

static void expect_done(const char *step, uint32_t result) {
    if (result == SLH_DONE) return;
    char name[SLH_MAX_NAME] = "Invalid";
    slh_refusal_name(result, name, sizeof name);
    fprintf(stderr, "%s: %u %s\n", step, (unsigned)result, name);
    exit(1);
}

static FILE *opened(const char *path, const char *suffix, const char *mode) {
    char name[4096];
    int is_whole = (size_t)snprintf(name, sizeof name, "%s%s", path, suffix) < sizeof name;
    FILE *file = is_whole ? fopen(name, mode) : NULL;
    if (file == NULL) perror(name), exit(2);
    return file;
}

static uint8_t *read_file(const char *path, size_t *len) {
    FILE *file = opened(path, "", "rb");
    uint8_t *bytes = NULL;
    size_t room = 0, got = 0;
    while (!feof(file) && !ferror(file)) {
        if (got == room && (bytes = realloc(bytes, room = 2 * room + 4096)) == NULL) break;
        got += fread(bytes + got, 1, room - got, file);
    }
    if (bytes == NULL || ferror(file)) perror(path), exit(2);
    fclose(file);
    *len = got;
    return bytes;
}

int main(int count, char **words) {
    uint8_t seeds[4 * N], sk[SLH_DSA_SHA2_128F_SECRET_KEY], pk[SLH_DSA_SHA2_128F_PUBLIC_KEY];
    static uint8_t sig[SLH_DSA_SHA2_128F_SIGNATURE], scratch[2 * sizeof sig];
    if (count != 2) return fputs("usage: sign_file FILE\n", stderr), 2;
    size_t len;
    uint8_t *msg = read_file(words[1], &len);
    FILE *random = opened("/dev/urandom", "", "rb");
    setbuf(random, NULL); /* a buffer of C would keep a copy of the seeds */
    if (fread(seeds, 1, sizeof seeds, random) != sizeof seeds || fclose(random) != 0) return 1;

    expect_done("keygen", slh_keygen(SET, seeds, N, seeds + N, N, seeds + 2 * N, N, sk, sizeof sk));
    expect_done("public", slh_public(SET, sk, sizeof sk, pk, sizeof pk));
    /* two times, which finds a fault of memory or the processor; an empty context, and a randomizer of n bytes */
    expect_done("sign", slh_sign_twice(SET, sk, sizeof sk, msg, len, NULL, 0, seeds + 3 * N, N, scratch, sizeof scratch,
                                       sig, sizeof sig));
    slh_erase(seeds, sizeof seeds);
    slh_erase(sk, sizeof sk);
    expect_done("verify", slh_verify(SET, pk, sizeof pk, msg, len, NULL, 0, sig, sizeof sig));

    FILE *out = opened(words[1], ".sig", "wb"), *key = opened(words[1], ".pub", "wb");
    if (fwrite(sig, 1, sizeof sig, out) != sizeof sig || fclose(out) != 0) return 1;
    fputs("slh-dsa-public 2\nSLH-DSA-SHA2-128f\n", key);
    for (size_t at = 0; at < sizeof pk; at++) fprintf(key, "%02x%s", pk[at], at + 1 < sizeof pk ? "" : "\n");
    if (ferror(key) || fclose(key) != 0) return 1;
    puts("valid");
    free(msg);
    return 0;
}
