/* SPDX-License-Identifier: MIT OR Apache-2.0 */
/* How a slot of examples/boot.c is laid out, and what a board gives: examples/boot_cortex_m.c is for ARM Cortex-M.

   The layout is that of MCUboot: a header, the image, and a trailer of tags with lengths (TLVs), one of which has the
   signature. The signature is over all before the trailer. All numbers begin with their lowest byte. */
#ifndef BOOT_H
#define BOOT_H

#include <stdint.h>

#ifndef SLOT_SIZE
#define SLOT_SIZE 0x8000u
#endif

#define HEADER_MAGIC 0x96f3b83du /* MCUboot's, as the next one */
enum {
    TRAILER_MAGIC = 0x6907,
    TLV_SLH_DSA = 0xa0 /* the first tag that MCUboot leaves to vendors: SLH-DSA-SHA2-128s with SHA2-256 */
};

struct header {
    uint32_t magic, load_address;
    uint16_t header_size, protected_size;
    uint32_t image_size, flags;
    uint8_t major, minor;
    uint16_t revision;
    uint32_t build, padding;
};

struct trailer {
    uint16_t magic, size; /* of all of the trailer */
};

struct tlv {
    uint16_t tag, len;
};

/* The two slots in mapped flash, of SLOT_SIZE bytes each. */
extern const uint8_t slot_a[], slot_b[];

/* Prints a text. */
void say(const char *text);

/* Stops the board: no image may run. */
_Noreturn void stop(void);

/* Starts the image at a place. */
_Noreturn void start_image(const uint8_t *at);

#endif
