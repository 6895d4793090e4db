#!/usr/bin/env python3
"""Holds a verifier for a board against that of this machine, over signatures that are damaged by chance.

usage: tests/damaged.py [--all] COMMAND LIBRARY [SEED]

COMMAND runs tests/target_calls.c over the board's archive, and LIBRARY is libslh.so for this machine, as of a release.
A valid test of vectors/ is drawn, and one bit of its signature, key, message, digest or context flipped, a byte of the
signature added or taken away, or nothing changed. Both verdicts have to be that of the change: invalid, or valid where
nothing changed. The hardened call has to say the same. There are 12 draws, and 1,000 with --all. They follow from SEED,
which is printed. The last line has the counts.
"""
import ctypes
import json
import pathlib
import random
import subprocess
import sys

from counts import HERE, count, end_counts

DONE, INVALID, VALID_HARDENED, INVALID_HARDENED = 0, 30, 0x79D617A4, 0x7C91D87F
SETS = [f"SLH-DSA-SHA2-{it}" for it in ("128s", "128f", "192s", "192f", "256s", "256f")]


def valid_tests():
    """The valid tests in the pure form, of all sets."""
    files = sorted((HERE / "tests/vectors").glob("slh-dsa-*.json"))
    tests = [it for file in files for it in json.loads(file.read_text())]
    return [it for it in tests if it["kind"] == "verify" and it["form"] == "pure" and it["valid"]]


def flipped(data):
    bit = random.randrange(8 * len(data))
    return data[: bit // 8] + bytes([data[bit // 8] ^ 1 << bit % 8]) + data[bit // 8 + 1 :]


def drawn(tests):
    """The arguments of a call, what was changed, and the verdict."""
    test = random.choice(tests)
    parts = {it: bytes.fromhex(test[it]) for it in ("pk", "message", "context", "signature")}
    what = random.choice(["nothing", "longer", "shorter", "pk", "message", "context", *6 * ["signature"]])
    if what == "longer":
        parts["signature"] += b"\0"
    elif what == "shorter":
        parts["signature"] = parts["signature"][:-1]
    elif parts.get(what):
        parts[what] = flipped(parts[what])
    else:
        what = "nothing"
    return SETS.index(test["set"]) + 1, list(parts.values()), what, DONE if what == "nothing" else INVALID


class Board:
    def __init__(self, command):
        self.program = subprocess.Popen(command.split(), stdin=subprocess.PIPE, stdout=subprocess.PIPE, text=True)

    def verify(self, name, number, parts):
        self.program.stdin.write(" ".join([name, f"n{number}", *(f"b{it.hex()}" for it in parts)]) + "\n")
        self.program.stdin.flush()
        return int(self.program.stdout.readline().split()[0])


def verify_here(library, number, parts):
    words = [ctypes.c_uint32(number)]
    for it in parts:
        words += [it, ctypes.c_size_t(len(it))]
    library.slh_verify.restype = ctypes.c_uint32
    return library.slh_verify(*words)


def main(words):
    draws = 1000 if words[:1] == ["--all"] else 12
    command, library, *seed = words[draws == 1000 :]
    seed = int(seed[0]) if seed else random.randrange(1 << 30)
    random.seed(seed)
    print(f"{draws} draws of seed {seed}")
    board, library, tests = Board(command), ctypes.CDLL(str(pathlib.Path(library).resolve())), valid_tests()
    for it in range(draws):
        number, parts, what, wanted = drawn(tests)
        found = [board.verify(name, number, parts) for name in ("slh_verify", "slh_verify_hardened")]
        found.append(verify_here(library, number, parts))
        well = found == [wanted, INVALID_HARDENED if wanted else VALID_HARDENED, wanted]
        count("passed" if well else "failed", None if well else f"draw {it}, {what} of set {number}: {found}")
    end_counts()


if __name__ == "__main__":
    main(sys.argv[1:])
