#!/usr/bin/env python3
"""Packs an image for examples/boot.c, in MCUboot's layout: a header before it, and a trailer with its signature behind.

usage: examples/boot_pack.py header VERSION IMAGE OUT             writes the header and the image: what is signed
       examples/boot_pack.py trailer SIGNED PUBLIC SIGNATURE OUT  writes that and the trailer: what goes into a slot

VERSION is as 1.2.0. PUBLIC is a public key file of `slh` of the set 128s, and the signature is what `slh sign --prehash
SHA2-256` writes under its secret key. An empty image and a signature of another length are refused: a command before
may have failed. The trailer has MCUboot's tags for the hash and for the key's hash, by the rules of `imgtool verify`.
The signature has a tag for vendors, since MCUboot has none for SLH-DSA.
"""
import hashlib
import pathlib
import struct
import sys

HEADER_MAGIC, TRAILER_MAGIC = 0x96F3B83D, 0x6907
TLV_KEYHASH, TLV_SHA256, TLV_SLH_DSA = 0x01, 0x10, 0xA0
HEADER_SIZE, SIGNATURE_SIZE = 32, 7856


def header(version, image):
    """An image_header of MCUboot, 32 bytes. The image stands in its slot where it runs."""
    if not image:
        sys.exit("boot_pack.py: the image is empty")
    major, minor, revision = map(int, version.split("."))
    return struct.pack("<IIHHIIBBHII", HEADER_MAGIC, 0, HEADER_SIZE, 0, len(image), 0, major, minor, revision, 0, 0) + image


def public_key(text):
    """The bytes of a public key file."""
    lines = text.split("\n")
    if lines[:2] != ["slh-dsa-public 2", "SLH-DSA-SHA2-128s"] or len(lines) != 4 or len(lines[2]) != 64:
        sys.exit("boot_pack.py: this is no public key file of the set SLH-DSA-SHA2-128s")
    return bytes.fromhex(lines[2])


def tlv(tag, content):
    """The length has 16 bits, which is enough for signatures of all six sets."""
    return struct.pack("<HH", tag, len(content)) + content


def trailer(signed, public, signature):
    """The hash of what is signed, the hash of the public key, and the signature."""
    if len(signed) <= HEADER_SIZE or signed[:4] != struct.pack("<I", HEADER_MAGIC):
        sys.exit("boot_pack.py: what is signed has no header: boot_pack.py header writes it")
    if len(signature) != SIGNATURE_SIZE:
        sys.exit(f"boot_pack.py: a signature has {SIGNATURE_SIZE} bytes, and this has {len(signature)}")
    contents = {TLV_SHA256: hashlib.sha256(signed).digest(), TLV_KEYHASH: hashlib.sha256(public).digest(),
                TLV_SLH_DSA: signature}
    tlvs = b"".join(tlv(*it) for it in contents.items())
    return signed + struct.pack("<HH", TRAILER_MAGIC, 4 + len(tlvs)) + tlvs


def main(words):
    if len(words) == 4 and words[0] == "header":
        made = header(words[1], pathlib.Path(words[2]).read_bytes())
    elif len(words) == 5 and words[0] == "trailer":
        public = public_key(pathlib.Path(words[2]).read_text())
        made = trailer(pathlib.Path(words[1]).read_bytes(), public, pathlib.Path(words[3]).read_bytes())
    else:
        sys.exit(__doc__.split("\n\n")[1])
    pathlib.Path(words[-1]).write_bytes(made)


if __name__ == "__main__":
    main(sys.argv[1:])
