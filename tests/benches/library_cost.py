#!/usr/bin/env python3
"""Counts what the calls of the library for C cost over the calls of slh_core that they make.

usage: tests/benches/library_cost.py PREFIX

PREFIX is where tools/library.sh installed. A C program makes a key, signs "abc" and verifies under valgrind's
callgrind, for each set. A row has the instructions of slh_keygen, slh_sign and slh_verify, and of them those outside
the one function of slh_core that does the work: top_root, sign_internal and verify_internal. The counts do not depend
on the machine, but for those in memcpy. It needs valgrind and a C compiler as CC or cc.
"""
import os
import pathlib
import re
import subprocess
import sys
import tempfile

PROGRAM = """
#include <slh.h>
#include <stdlib.h>
int main(int count, char **words) {
    static uint8_t seeds[3 * SLH_MAX_N], sk[SLH_MAX_SECRET_KEY], sig[SLH_MAX_SIGNATURE], msg[] = {'a', 'b', 'c'};
    size_t pk_len, sk_len, sig_len, n;
    uint32_t set = count == 2 ? (uint32_t)atoi(words[1]) : 0;
    for (size_t i = 0; i < sizeof seeds; i++) seeds[i] = (uint8_t)i;
    return slh_lengths(set, &pk_len, &sk_len, &sig_len, &n) != SLH_DONE ||
           slh_keygen(set, seeds, n, seeds + n, n, seeds + 2 * n, n, sk, sk_len) != SLH_DONE ||
           slh_sign(set, sk, sk_len, msg, 3, NULL, 0, NULL, 0, sig, sig_len) != SLH_DONE ||
           slh_verify(set, sk + 2 * n, pk_len, msg, 3, NULL, 0, sig, sig_len) != SLH_DONE;
}
"""
CALLS = {
    "slh_keygen": "slh_core::generation::top_root",
    "slh_sign": "slh_core::signing::sign_internal",
    "slh_verify": "slh_core::verifying::verify_internal",
}


def instructions(profile, name):
    """The instructions of all calls of a function, with those of what it calls."""
    found = re.search(rf"^ *([\d,]+) .*\?:{re.escape(name)}(?: |$)", profile, re.M)
    return int(found[1].replace(",", ""))


def main():
    prefix = pathlib.Path(sys.argv[1])
    print("| set | " + " | ".join(f"`{it}` | over `slh_core`" for it in CALLS) + " |")
    with tempfile.TemporaryDirectory() as work:
        source, program, profile = (f"{work}/{it}" for it in ("program.c", "program", "profile"))
        pathlib.Path(source).write_text(PROGRAM)
        cc = [os.environ.get("CC", "cc"), "-O1", "-I", f"{prefix}/include", source]
        cc += [f"{prefix}/lib/libslh.a", "-o", program]
        subprocess.run([*cc, "-Wl,-z,now"], check=True)
        for number, name in enumerate(("128s", "128f", "192s", "192f", "256s", "256f"), 1):
            under = ["valgrind", "-q", "--tool=callgrind", f"--callgrind-out-file={profile}", program, str(number)]
            subprocess.run(under, check=True)
            listed = ["callgrind_annotate", "--inclusive=yes", "--threshold=100", profile]
            text = subprocess.run(listed, check=True, capture_output=True, text=True).stdout
            row = []
            for call, inner in CALLS.items():
                whole = instructions(text, call)
                row += [f"{whole:,}", f"{whole - instructions(text, inner):,}"]
            print(f"| {name} | " + " | ".join(row) + " |", flush=True)


main()
