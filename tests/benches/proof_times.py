#!/usr/bin/env python3
"""Tells where the time of a check went, by function.

usage: rm -rf crates/NAME/out/incremental
       (cd crates/NAME && rt check --jobs 1)
       tests/benches/proof_times.py crates/NAME/out/incremental [ROWS]

A check keeps each module as soon as it has checked it, so the time between two files is that of the later one. Added up
are the modules of each function (its statement, the borrow checker's part, its proof), in seconds on the clock, and
after them those of each kind of module over all functions. `Lts` is the borrow checker's part: it grows faster than
the function, with each early return and each reference that lives across it.
"""
import collections
import os
import re
import sys


def kept(folder):
    """The files below the folder, in the order in which they were written."""
    files = [(os.stat(f"{at}/{name}").st_mtime, name) for at, _, names in os.walk(folder) for name in names]
    return sorted(files)


def module(file):
    """The function, or else the module, that a file belongs to, and the kind of module."""
    path = re.sub(r"(\.decls)?\.oantt$", "", file)
    *owner, kind = re.sub(r"^Rattle-\w+(-proofs|-specs)?\.?", "", path).split(".")
    return ".".join(owner) or kind, kind


def main():
    functions, kinds = collections.Counter(), collections.Counter()
    files = kept(sys.argv[1])
    for (before, _), (time, name) in zip(files, files[1:]):
        function, kind = module(name)
        functions[function] += time - before
        kinds[kind] += time - before
    rows = int(sys.argv[2]) if len(sys.argv) > 2 else 20
    print(f"{sum(functions.values()):8.1f} in all")
    for counted in functions, kinds:
        print("\n".join(f"{seconds:8.1f} {name}" for name, seconds in counted.most_common(rows)), end="\n\n")


main()
