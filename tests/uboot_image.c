/* Calls examples/uboot_verify.c as U-Boot does, over an image in two regions, its first byte and the others: uboot_image
   IMAGE SIGNATURE prints `valid` or `invalid`, with the status 0 or 1. public_key.h has the key's bytes. */
#include "../examples/uboot_verify.c"

#include <stdio.h>

enum { MOST = 1 << 20, FIRST = 1 };

static const uint8_t pk[] = {
#include "public_key.h"
};

static int read_file(const char *name, uint8_t *at) {
    FILE *file = fopen(name, "rb");
    int len = file ? (int)fread(at, 1, MOST, file) : -1;
    if (file) fclose(file);
    return len;
}

int main(int argc, char **argv) {
    static uint8_t image[MOST], sig[MOST];
    struct image_sign_info info = {pk, sizeof pk};
    int len = argc == 3 ? read_file(argv[1], image) : -1, sig_len = argc == 3 ? read_file(argv[2], sig) : -1, judged;
    struct image_region regions[2] = {{image, FIRST}, {image + FIRST, len - FIRST}};
    if (len < FIRST || sig_len < 0) return 2;
    judged = slh_dsa_verify(&info, regions, 2, sig, (unsigned)sig_len);
    puts(judged == 0 ? "valid" : judged == -EPERM ? "invalid" : "something else");
    return judged != 0;
}
