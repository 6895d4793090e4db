#!/usr/bin/env python3
"""Writes more.tsv: tests by OpenSSL 3.5, each with the SHA-256 of its signature. tests/vectors/README.md explains the
rows.

usage: tests/vectors/more.py > tests/vectors/more.tsv          OPENSSL names another command than openssl-3.5

Nothing is drawn at random, so that the same rows come each time. What a row needs of a NAME is the first bytes of
SHA-256("NUMBER NAME 0"), SHA-256("NUMBER NAME 1") and so on, with the number of the row. The lengths of messages and
contexts, the forms, and which signatures are deterministic, go by the place of a sign test in its set. It takes a
minute of processor time.
"""
import hashlib
import os
import pathlib
import subprocess
import sys
import tempfile

OPENSSL = os.environ.get("OPENSSL", "openssl-3.5")
# For each set n, and how many tests there are of keygen and of sign. Those of sets whose names end in s are few, since
# an emulator takes up to half a minute for such a signature.
COUNTS = {"128s": (16, 4, 2), "128f": (16, 220, 110), "192s": (24, 4, 1), "192f": (24, 200, 30)}
COUNTS |= {"256s": (32, 4, 1), "256f": (32, 188, 16)}
# The last byte of the object identifier of each function, and its name in Python.
FUNCTIONS = {"SHA2-224": (4, "sha224"), "SHA2-256": (1, "sha256"), "SHA2-384": (2, "sha384"), "SHA2-512": (3, "sha512")}
FUNCTIONS |= {"SHA2-512/224": (5, "sha512_224"), "SHA2-512/256": (6, "sha512_256")}
OTHER_FORMS = ["internal", *FUNCTIONS]
OBJECT = bytes.fromhex("06096086480165030402")


def some(number, name, length):
    """The bytes of a name in the row of this number."""
    blocks = [hashlib.sha256(f"{number} {name} {it}".encode()).digest() for it in range(length // 32 + 1)]
    return b"".join(blocks)[:length]


def openssl(*words):
    return subprocess.run([OPENSSL, *map(str, words)], capture_output=True)


class Key:
    """A key of OpenSSL in a file, made of the seeds."""

    def __init__(self, folder, label, n, seeds):
        self.file, self.input, self.sig = (folder / it for it in ("key", "input", "signature"))
        words = "genpkey", "-algorithm", f"SLH-DSA-SHA2-{label}", "-pkeyopt", f"hexseed:{seeds.hex()}"
        made = openssl(*words, "-outform", "DER", "-out", self.file)
        key = self.file.read_bytes()[-4 * n :] if made.returncode == 0 else b""
        if key[: 3 * n] != seeds:
            sys.exit(f"no key of the seeds: {made.stderr.decode()}")
        self.root = key[3 * n :]

    def run(self, verb, options):
        """Signs or verifies. The message of the form `internal` is M'."""
        return openssl("pkeyutl", verb, "-rawin", "-inkey", self.file, "-in", self.input, *options)

    def sign(self, form, message, context, random):
        """The signature, after OpenSSL was seen to accept it."""
        self.input.write_bytes(message)
        how = [] if form == "pure" else ["message-encoding:0"]
        if form == "pure" and context:
            how.append(f"hexcontext-string:{context.hex()}")
        self.options = [word for it in how for word in ("-pkeyopt", it)]
        given = f"hextest-entropy:{random.hex()}" if random else "deterministic:1"
        made = self.run("-sign", [*self.options, "-pkeyopt", given, "-out", self.sig])
        if made.returncode != 0 or not self.accepts():
            sys.exit(f"no signature: {made.stderr.decode()}")
        return self.sig.read_bytes()

    def accepts(self):
        said = self.run("-verify", [*self.options, "-sigfile", self.sig])
        wanted = b"Signature Verified Successfully" if said.returncode == 0 else b"Signature Verification Failure"
        return said.returncode == 0 if wanted in said.stdout else sys.exit(f"no verdict: {said}")

    def refuses(self, sig):
        self.sig.write_bytes(sig)
        return not self.accepts()


def encoded(form, message, context):
    """The form in which OpenSSL is asked, and its message: pure, or M' (FIPS 205, Algorithms 22 and 23)."""
    head = bytes([len(context)]) + context
    if form in FUNCTIONS:
        last, function = FUNCTIONS[form]
        return "internal", b"\1" + head + OBJECT + bytes([last]) + hashlib.new(function, message).digest()
    # OpenSSL's program takes no empty file.
    return ("internal", b"\0" + head) if form == "pure" and not message else (form, message)


def flipped(sig, bit):
    return sig[: bit // 8] + bytes([sig[bit // 8] ^ 1 << bit % 8]) + sig[bit // 8 + 1 :]


def sign_fields(key, number, n, at):
    """What the row of a sign test has behind the key; it stands at this place of its set."""
    form = OTHER_FORMS[at // 4 % len(OTHER_FORMS)] if at % 4 == 3 else "pure"
    message = some(number, "message", 31 * at % 301)
    context = some(number, "context", 29 * at % 256 if form != "internal" else 0)
    random = some(number, "random", n * (at % 2))
    sig = key.sign(*encoded(form, message, context), context, random)
    bit = int.from_bytes(some(number, "bit", 8), "big") % (8 * len(sig))
    if not key.refuses(flipped(sig, bit)):
        sys.exit(f"row {number} is valid with the bit {bit} flipped")
    return [form, message.hex(), context.hex(), random.hex(), hashlib.sha256(sig).hexdigest(), bit]


def main():
    number = 0
    print("# By", openssl("version").stdout.decode().strip())
    for label, (n, *counts) in COUNTS.items():
        for kind, count in zip(("keygen", "sign"), counts):
            for at in range(count):
                number += 1
                seeds = some(number, "seeds", 3 * n)
                with tempfile.TemporaryDirectory() as folder:
                    key = Key(pathlib.Path(folder), label, n, seeds)
                    rest = sign_fields(key, number, n, at) if kind == "sign" else []
                print(kind, f"SLH-DSA-SHA2-{label}", seeds.hex(), key.root.hex(), *rest, sep="\t", flush=True)


main()
