/* SPDX-License-Identifier: MIT OR Apache-2.0 */
/* A boot loader: of two slots it starts the newest image that is signed, and none that is older than LEAST_VERSION, which
   a device keeps where an image cannot change it. The layout of a slot is that of MCUboot (boot.h).

   Only examples/boot_cortex_m.c is about a board. tests/test_boot.py packs and signs images, and runs this on emulated
   boards. public_key.h has the public key of the set 128s, as xxd -i writes it. */
#include "boot.h"

#include <slh_verify.h>

#include <stddef.h>
#include <string.h>

#include "sha256.h"

#ifndef LEAST_VERSION
#define LEAST_VERSION VERSION(1, 2, 0)
#endif
#define VERSION(major, minor, revision) ((uint32_t)(major) << 24 | (uint32_t)(minor) << 16 | (uint32_t)(revision))

static const uint8_t pk[SLH_DSA_SHA2_128S_PUBLIC_KEY] = {
#include "public_key.h"
};

/* What a slot says of itself. Nobody has signed it before the verdict, so each number is tested where it is used. */
struct candidate {
    const uint8_t *slot, *signature;
    struct header header;
    uint32_t signed_size, version, signature_len;
};

/* The signature in the trailer: the first TLV with the tag. None where a length leads out of the trailer or the slot. */
static void find_signature(struct candidate *it) {
    struct trailer trailer;
    uint32_t at = it->signed_size, end;
    it->signature_len = 0;
    if (SLOT_SIZE - at < sizeof trailer) return;
    memcpy(&trailer, it->slot + at, sizeof trailer);
    if (trailer.magic != TRAILER_MAGIC || trailer.size > SLOT_SIZE - at) return;
    end = at + trailer.size;
    at += sizeof trailer;
    while (at < end && end - at >= sizeof(struct tlv)) {
        struct tlv tlv;
        memcpy(&tlv, it->slot + at, sizeof tlv);
        at += sizeof tlv;
        if (tlv.len > end - at) return;
        if (tlv.tag == TLV_SLH_DSA) {
            it->signature = it->slot + at;
            it->signature_len = tlv.len;
            return;
        }
        at += tlv.len;
    }
}

/* Whether a slot has a header and a signature that lie in it. */
static int read_slot(struct candidate *it, const uint8_t *slot) {
    struct header *header = &it->header;
    it->slot = slot;
    memcpy(header, slot, sizeof *header);
    if (header->magic != HEADER_MAGIC || header->header_size < sizeof *header || header->header_size > SLOT_SIZE ||
        header->image_size > SLOT_SIZE - header->header_size)
        return 0;
    it->signed_size = header->header_size + header->image_size;
    if (header->protected_size > SLOT_SIZE - it->signed_size) return 0;
    it->signed_size += header->protected_size;
    it->version = VERSION(header->major, header->minor, header->revision);
    find_signature(it);
    return it->signature_len > 0;
}

/* Starts an image if it is signed and not too old, and else returns. The digest is made in pieces, as by a device whose
   flash is not mapped. */
static void start_if_valid(const struct candidate *it) {
    volatile uint32_t verdict = SLH_HARDENED_INVALID;
    struct sha256 state;
    uint8_t digest[32];
    sha256_begin(&state);
    for (uint32_t at = 0, n; at < it->signed_size; at += n) {
        n = it->signed_size - at < 512 ? it->signed_size - at : 512;
        sha256_piece(&state, it->slot + at, n);
    }
    sha256_end(&state, digest);
    verdict = slh_hash_verify_digest_hardened(SLH_DSA_SHA2_128S, SLH_SHA2_256, pk, sizeof pk, digest, sizeof digest,
                                              NULL, 0, it->signature, it->signature_len);
    if (SLH_IS_VALID(verdict)) {
        if (it->version >= LEAST_VERSION) start_image(it->slot + it->header.header_size);
        say("boot: too old\n");
        return;
    }
    say("boot: not signed\n");
}

int main(void) {
    struct candidate a, b;
    int has_a = read_slot(&a, slot_a), has_b = read_slot(&b, slot_b), b_first = has_b && (!has_a || b.version > a.version);
    if (b_first) start_if_valid(&b);
    if (has_a) start_if_valid(&a);
    if (has_b && !b_first) start_if_valid(&b);
    say("boot: no image\n");
    stop();
}
