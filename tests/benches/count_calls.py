#!/usr/bin/env python3
"""Counts the hash calls and the compressions of key generation, signing and verifying in one thread, for each set.

It builds the program slh_bench from a copy of the repository in which the functions that are counted are marked
`#[inline(never)]`, runs it under valgrind's callgrind, and adds up what callgrind saw: of one run of a task, less that
of none, which prepares the inputs alone. Set SLH_CPU=x86-64-v3 for the instructions of that level; calls are the same.
Needs `rt` and `valgrind`.
Usage: tests/benches/count_calls.py [keygen|sign|verify] [SET ..]

The columns:

- F, PRF, H, T: how many FIPS 205 needs, where nothing is computed twice and nothing that is not used, and in brackets
  how many calls of SeededHash and SeededTreeHash there were, each of which hashes one message alone. T are the streams
  that H does not make. What the standard needs follows from the set's numbers and from the digits that its WOTS+ keys
  sign in the one signature that slh_bench makes (DIGITS).
- in lanes: the compressions of eight blocks at once, each counted as eight (or as many lanes as its words have).
- idle: of these lanes the ones whose value nobody uses: all of them, less the compressions that those F, PRF, H and T
  take that the standard needs and that were not made alone, and less one for each state after the block of PK.seed.
- SHA-256, SHA-512: the compressions of one block, by sha2's two functions.
- instructions, in compressions: of the whole task, and the share of them in all these compressions.
"""
import glob
import os
import re
import shutil
import subprocess
import sys
import tempfile

PREFIX = "SLH-DSA-SHA2-"
SETS = [f"{PREFIX}{size}{kind}" for size in (128, 192, 256) for kind in "sf"]
TASKS = ["keygen", "sign", "verify"]
ROOT = os.path.dirname(os.path.dirname(os.path.dirname(os.path.abspath(__file__))))

# n, h, d, a and k of each set (FIPS 205, Table 2); w is 16.
NUMBERS = dict(zip(SETS, [
    (16, 63, 7, 12, 14), (16, 66, 22, 6, 33),
    (24, 63, 7, 14, 17), (24, 66, 22, 8, 33),
    (32, 64, 8, 14, 22), (32, 68, 17, 9, 35),
]))

# The sums of the digits that the top layer's key signs, and that the keys of all layers sign, in the signature of "abc"
# with an empty context, deterministically, under the key of the seeds 00, 01, 02, .. They were computed by the
# standard's algorithms over Python's hashlib.
DIGITS = dict(zip(SETS, [(315, 1935), (255, 5985), (435, 2685), (360, 8160), (540, 3945), (495, 8790)]))

# The functions that are counted, as the built program's symbols have them.
ALONE = {
    "F": re.compile(r"slh_hash::.*SeededHash::f$"),
    "PRF": re.compile(r"slh_hash::.*SeededHash::prf$"),
    "H": re.compile(r"slh_hash::.*SeededTreeHash::h$"),
    "T": re.compile(r"slh_hash::.*SeededTreeHash::stream$"),
}
SHA_256 = re.compile(r"sha2::block256::compress$")
SHA_512 = re.compile(r"sha2::block512::compress$")
# The compressions in lanes, by the bits of a word, and what hashes the block of PK.seed by them. The name of a generic
# function ends with what it was built for.
LANES = {
    32: re.compile(r"slh_lanes::(?!.*512).*\bcompress(?!ed)\w*(::<.*>)?$"),
    64: re.compile(r"slh_lanes::.*512.*\bcompress(?!ed)\w*(::<.*>)?$"),
}
SEED_LANES = re.compile(r"slh_lanes::.*\b(new|hash_after|long_state)\w*(::<.*>)?$")

# What is marked, by crate.
MARKED = {
    "slh_hash": r"pub fn (?:f|prf|h|stream)\b",
    "slh_lanes": r"(?:pub(?:\(crate\))? )?fn (?:compress(?!ed)\w*|new\w*|hash_after\w*|long_state)\b",
}


def keep_calls(crates):
    """Marks the functions that are counted as not to be inlined."""
    for crate, function in MARKED.items():
        for path in glob.glob(os.path.join(crates, crate, "src", "*.rt")):
            with open(path) as file:
                text = file.read()
            head = rf"^( *)(?:#\[inline[^\n]*\]\n *)?({function})"
            text = re.sub(head, r"\1#[inline(never)]\n\1\2", text, flags=re.M)
            with open(path, "w") as file:
                file.write(text)


def build(folder):
    """The program slh_bench of a copy of the repository."""
    copy = os.path.join(folder, "copy")
    shutil.copytree(ROOT, copy, ignore=shutil.ignore_patterns(".git"))
    keep_calls(os.path.join(copy, "crates"))
    bench = os.path.join(copy, "crates", "slh_bench")
    cpu = [f"--cpu={level}" for level in [os.environ.get("SLH_CPU")] if level]
    subprocess.run(["rt", "run", *cpu], cwd=bench, check=True, stdout=subprocess.DEVNULL, stderr=subprocess.DEVNULL)
    return os.path.join(bench, "out", "slh_bench")


def lanes_of(bits):
    """How many lanes slh_lanes' vectors of words of that many bits have."""
    for path in glob.glob(os.path.join(ROOT, "crates", "slh_lanes", "src", "*.rt")):
        with open(path) as file:
            found = re.search(rf"type \w+ = u{bits}x(\d+);", file.read())
        if found:
            return int(found[1])
    return 8


class Profile:
    """How often each function of a callgrind profile calls each other one, and with how many instructions."""

    def __init__(self, path):
        self.calls, self.instructions, self.total = {}, {}, 0
        names = {}
        caller = pair = None

        def name(text):
            number, _, rest = text.partition(" ")
            return names.setdefault(number, rest.partition("'")[0]) if rest else names[number]

        with open(path) as file:
            for line in file:
                if pair:
                    # The line after that of a call has the instructions of what was called.
                    self.instructions[pair] = self.instructions.get(pair, 0) + int(line.split()[1])
                    pair = None
                elif line.startswith("fn="):
                    caller = name(line[3:].rstrip("\n"))
                elif line.startswith("cfn="):
                    callee = name(line[4:].rstrip("\n"))
                elif line.startswith("calls="):
                    pair = caller, callee
                    self.calls[pair] = self.calls.get(pair, 0) + int(line[6:].split()[0])
                elif line.startswith("summary:"):
                    self.total = int(line.split()[1])


def profiled(program, words, folder):
    """The profile of a run of the program."""
    path = os.path.join(folder, "profile")
    command = ["valgrind", "--tool=callgrind", "--callgrind-out-file=" + path, program, *words]
    subprocess.run(command, check=True, stdout=subprocess.DEVNULL, stderr=subprocess.DEVNULL)
    return Profile(path)


def needed(parameter_set, task):
    """How many F, PRF, H and T a task needs by the standard."""
    n, h, d, a, k = NUMBERS[parameter_set]
    top_digits, all_digits = DIGITS[parameter_set]
    height, chains, leaves = h // d, 2 * n + 3, 2**a
    keys, steps = 2**height, 15 * chains
    if task == "keygen":
        return {"F": keys * steps, "PRF": keys * chains, "H": keys - 1, "T": keys}
    if task == "verify":
        return {"F": k + d * steps - all_digits, "PRF": 0, "H": k * a + d * height, "T": d + 1}
    # The key that signs gives its root by the rest of its chains, but in the top layer.
    return {
        "F": d * (keys - 1) * steps + (d - 1) * steps + top_digits + k * leaves,
        "PRF": d * keys * chains + k * leaves,
        "H": d * (keys - 1 - height) + (d - 1) * height + k * (leaves - 1),
        "T": d * (keys - 1) + (d - 1) + 1,
    }


def blocks(parameter_set):
    """The compressions of one F, PRF, H and T of a WOTS+ key after the block of PK.seed."""
    n = NUMBERS[parameter_set][0]
    size, length_field = (64, 8) if n == 16 else (128, 16)
    ends = 22 + (2 * n + 3) * n + 1 + length_field
    return {"F": 1, "PRF": 1, "H": 1, "T": -(-ends // size)}


def count(program, task, parameter_set, folder):
    """The cells of a row."""
    prepared, run = (profiled(program, [task, runs, parameter_set], folder) for runs in ("0", "1"))

    def of(table, callee, caller=None, not_from=None):
        """The calls of a function, or their instructions, in one run of the task."""
        return sum(
            sign * number
            for sign, profile in ((1, run), (-1, prepared))
            for (by, called), number in getattr(profile, table).items()
            if callee.search(called) and (not caller or caller.search(by)) and not (not_from and not_from.search(by))
        )

    alone = {name: of("calls", it, not_from=ALONE["H"] if name == "T" else None) for name, it in ALONE.items()}
    least = needed(parameter_set, task)
    in_lanes = {name: max(0, least[name] - alone[name]) for name in least}
    used = sum(number * blocks(parameter_set)[name] for name, number in in_lanes.items())
    used += sum(of("calls", it, caller=SEED_LANES) for it in LANES.values())
    lanes = sum(lanes_of(bits) * of("calls", it, not_from=it) for bits, it in LANES.items())
    compressing = sum(of("instructions", it, not_from=it) for it in (*LANES.values(), SHA_256, SHA_512))
    total = run.total - prepared.total
    cells = [f"{least[name]:,} ({alone[name]:,})" for name in least]
    cells += [f"{it:,}" for it in (lanes, lanes - used, of("calls", SHA_256), of("calls", SHA_512), total)]
    return [*cells, f"{compressing / total:.3f}"]


def main():
    words = sys.argv[1:]
    tasks = [words.pop(0)] if words and words[0] in TASKS else TASKS
    heads = ["set", "task", "F", "PRF", "H", "T", "in lanes", "idle", "SHA-256", "SHA-512", "instructions"]
    heads.append("in compressions")
    with tempfile.TemporaryDirectory() as folder:
        program = build(folder)
        print("| " + " | ".join(heads) + " |")
        print("|" + "---|" * len(heads))
        for parameter_set in words or SETS:
            for task in tasks:
                cells = count(program, task, parameter_set, folder)
                print(f"| {parameter_set.removeprefix(PREFIX)} | {task} | {' | '.join(cells)} |", flush=True)


main()
