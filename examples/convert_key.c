/* Reads a key as other programs write it, in PEM or DER, and writes it as a key file of slh, and the other way:

     convert_key FILE > KEY         of SubjectPublicKeyInfo or PKCS#8, in PEM or DER
     convert_key --pem KEY > FILE   of a key file of slh

   The library reads one form of each kind and set. All else is refused with status 2, as an encrypted key: the message
   has the command of OpenSSL 3.5 that converts it. Buffers with the key are overwritten. Set the umask first:
   (umask 077; convert_key FILE > KEY). */
#include <slh.h>

#include <stdio.h>
#include <stdlib.h>
#include <string.h>

/* No file of a key has so many bytes. */
enum { MOST_FILE = 512 };

static uint8_t file[MOST_FILE], key[SLH_MAX_SECRET_KEY], made[SLH_MAX_KEY_FILE];
static uint32_t set, kind;

static void clear_all(void) {
    slh_erase(file, sizeof file);
    slh_erase(key, sizeof key);
    slh_erase(made, sizeof made);
}

static void refuse(const char *path, const char *why) {
    clear_all();
    fprintf(stderr, "%s: %s\n", path, why);
    exit(2);
}

/* Takes the key of PEM or DER. */
static int take_pkix(size_t len) {
    return slh_der_read(file, len, &set, &kind, key, sizeof key) == SLH_DONE ||
           slh_pem_read(file, len, &set, &kind, key, sizeof key) == SLH_DONE;
}

static int take_key_file(size_t len) { return slh_key_read(file, len, &set, &kind, key, sizeof key) == SLH_DONE; }

static size_t key_length(void) {
    size_t pk, sk, sig, n;
    if (slh_lengths(set, &pk, &sk, &sig, &n) != SLH_DONE) return 0;
    return kind == SLH_SECRET_KEY ? sk : pk;
}

/* Writes the key in PEM into `made`, and returns the length. */
static size_t put_pem(void) {
    uint32_t len = 0;
    return slh_pem_write(set, kind, key, key_length(), &len, made, sizeof made) == SLH_DONE ? len : 0;
}

/* Writes a key file of version 2 into `made`, and returns the length. */
static size_t put_key_file(void) {
    char *text = (char *)made;
    return slh_key_write(set, kind, key, key_length(), text, sizeof made) == SLH_DONE ? strlen(text) : 0;
}

static const char *why_refused(void) {
    if (memcmp(file, "-----BEGIN ENCRYPTED PRIVATE", 28) == 0)
        return "the key is encrypted; this asks for its password: openssl pkey -in FILE -out NEW";
    if (memcmp(file, "-----BEGIN PUBLIC", 17) == 0)
        return "not the one form of a key; this converts it: openssl pkey -pubin -in FILE -pubout -out NEW";
    return "not the one form of a key; this converts it: openssl pkey -in FILE -out NEW (-inform DER if it is DER)";
}

int main(int count, char **words) {
    int is_back = count == 3 && strcmp(words[1], "--pem") == 0;
    if (count != 2 + is_back) return fputs("usage: convert_key FILE | --pem KEY\n", stderr), 2;
    const char *path = words[count - 1];
    FILE *from = fopen(path, "rb");
    if (from == NULL) return perror(path), 2;
    setbuf(from, NULL); /* a buffer of C would keep a copy of the key */
    size_t len = fread(file, 1, sizeof file, from);
    if (ferror(from)) return perror(path), clear_all(), 2;
    fclose(from);
    if (is_back && !take_key_file(len)) refuse(path, "no key file of slh");
    if (!is_back && !take_pkix(len)) refuse(path, why_refused());
    if (kind == SLH_SECRET_KEY && slh_check(set, key, key_length()) != SLH_DONE)
        refuse(path, "the root is not that of the seeds");
    setbuf(stdout, NULL);
    size_t out = is_back ? put_pem() : put_key_file();
    int is_written = out > 0 && fwrite(made, 1, out, stdout) == out;
    clear_all();
    if (!is_written) return perror("output"), 2;
    return 0;
}
