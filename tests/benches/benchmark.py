#!/usr/bin/env python3
"""Times key generation, signing and verifying in one thread, for each set, beside OpenSSL.

It builds the program slh_bench for x86-64-v2, x86-64-v3 and x86-64-v4, or for the one of these that SLH_CPU names
(without it x86-64-v4 is left out where the processor lacks it), and, where OPENSSL names a folder, openssl_times.c over
the OpenSSL there. In each turn each program has its runs of each task, one program after the other, so that all
meet each state of the machine. A row has the least time of one run in milliseconds, by program, and its ratio to
OpenSSL's. Afterwards it prints what one compression of sha2 takes.
It stands on what `rt ci`, or `rt check` in crates/slh_bench, has built.

usage: tests/benches/benchmark.py [--turns N] [SET ..]
       tests/benches/benchmark.py --workers [SET ..]

The folder has include/ and lib64/ or lib/, of version 3.5 or later; CC is the C compiler, or cc, and LDFLAGS has more
words for it. OPENSSL_ia32cap=:~0x20000000 keeps OpenSSL from the processor's SHA instructions.

The second form times signing, key generation and the verifying of 64 signatures by 1, 2 and 4 workers, and as many
threads of which each signs the message alone. It prints the speed-up over one worker, and for signing and verifying
also the share of what the independent threads reach together: less than their number where threads share the cores of
the processor, with each other or with other machines. It builds for x86-64-v2, or for what SLH_CPU names.
"""
import argparse
import itertools
import os
import shlex
import subprocess
import tempfile

PREFIX = "SLH-DSA-SHA2-"
SETS = [f"{PREFIX}{size}{kind}" for size in (128, 192, 256) for kind in "sf"]
ROOT = os.path.dirname(os.path.dirname(os.path.dirname(os.path.abspath(__file__))))
LEVELS = ["x86-64-v2", "x86-64-v3", "x86-64-v4"]
OPENSSL = "OpenSSL"
TURNS = 10
WORKERS = (1, 2, 4)
WORKERS_TURNS = 10

# Bytes that one run of the tasks sha256 and sha512 hashes, and the blocks that they and their padding fill.
BLOCKS = {"sha256": 65536 // 64 + 1, "sha512": 65536 // 128 + 1}


def levels():
    """The levels to build for. A program for x86-64-v4 would end by a signal where the processor lacks that level."""
    with open("/proc/cpuinfo", encoding="ascii", errors="replace") as lines:
        flags = next((line.split() for line in lines if line.startswith("flags")), [])
    has_v4 = {"avx512f", "avx512bw", "avx512cd", "avx512dq", "avx512vl"}.issubset(flags)
    return LEVELS if has_v4 else LEVELS[:-1]


def built(level, folder):
    """The program slh_bench for a level of processors."""
    program = os.path.join(folder, f"slh_bench-{level}")
    words = [os.path.join(ROOT, "tools", "program.sh"), level, program, "slh_bench"]
    subprocess.run(words, check=True, stdout=subprocess.DEVNULL, stderr=subprocess.DEVNULL)
    return program


def built_openssl(prefix, folder):
    """The program openssl_times over the OpenSSL of a folder."""
    program = os.path.join(folder, "openssl_times")
    libraries = [os.path.join(prefix, name) for name in ("lib64", "lib")]
    words = [os.environ.get("CC", "cc"), "-O2", "-I", os.path.join(prefix, "include")]
    words += [os.path.join(ROOT, "tests", "benches", "openssl_times.c"), "-o", program]
    words += [word for it in libraries if os.path.isdir(it) for word in ("-L", it, f"-Wl,-rpath,{it}")]
    subprocess.run([*words, "-lcrypto", *shlex.split(os.environ.get("LDFLAGS", ""))], check=True)
    return program


def time_of(program, task, runs, parameter_set, *workers):
    """The nanoseconds of the shortest run."""
    command = [program, task, str(runs), parameter_set, *map(str, workers)]
    return int(subprocess.run(command, check=True, capture_output=True, text=True).stdout)


def one_turn(programs, parameter_set, least):
    """Runs each task by each program, and keeps the least time of each."""
    small = parameter_set.endswith("s")
    for task, runs in {"keygen": 3 if small else 30, "sign": 1 if small else 5, "verify": 30}.items():
        for name, program in programs.items():
            row = least.setdefault((parameter_set, task), {})
            row[name] = min(time_of(program, task, runs, parameter_set), row.get(name, float("inf")))


def compression_turn(programs, least):
    """Does the same with sha2's compressions, in nanoseconds of one."""
    for task, (name, program) in itertools.product(BLOCKS, programs.items()):
        time = time_of(program, task, 30, SETS[0]) / BLOCKS[task]
        least[task, name] = min(time, least.get((task, name), time))


def print_times(least, names):
    """Prints the table: of each program the milliseconds, and of ours their ratio to OpenSSL's."""
    beside = names[:1] == [OPENSSL]
    heads = [f"{names[0]}, ms"]
    for name in names[1:]:
        heads += [f"{name}, ms"] + ([f"{name} / {OPENSSL}"] if beside else [])
    print("| set | task | " + " | ".join(heads) + " |")
    print("|---|---|" + "---|" * len(heads))
    for (parameter_set, task), row in least.items():
        cells = [f"{row[names[0]] / 1e6:.3f}"]
        for name in names[1:]:
            cells += [f"{row[name] / 1e6:.3f}"] + ([f"{row[name] / row[OPENSSL]:.3f}"] if beside else [])
        print(f"| {parameter_set.removeprefix(PREFIX)} | {task} | " + " | ".join(cells) + " |")


def print_one_thread(sets, turns):
    """Times all by turns and prints what was found."""
    level = os.environ.get("SLH_CPU")
    with tempfile.TemporaryDirectory() as folder:
        prefix = os.environ.get("OPENSSL")
        other = {OPENSSL: built_openssl(prefix, folder)} if prefix else {}
        ours = {level.removeprefix("x86-64-"): built(level, folder) for level in ([level] if level else levels())}
        least, compression = {}, {}
        for _ in range(turns):
            compression_turn(ours, compression)
            for parameter_set in sets:
                one_turn({**other, **ours}, parameter_set, least)
    print_times(least, [*other, *ours])
    for (task, name), time in compression.items():
        print(f"one compression of {task}, {name}: {time:.1f} ns")


def by_workers(program, parameter_set):
    """The least times of the tasks of several workers, by turns, so that each task meets each state of the machine."""
    small = parameter_set.endswith("s")
    runs = {"sign_par": 2 if small else 20, "keygen_par": 10, "verify_all": 10, "independent": 2 if small else 10}
    least = {task: {} for task in runs}
    for task, workers in [pair for _ in range(WORKERS_TURNS) for pair in itertools.product(runs, WORKERS)]:
        time = time_of(program, task, runs[task], parameter_set, workers)
        least[task][workers] = min(time, least[task].get(workers, time))
    return least


def print_by_workers(program, parameter_set):
    """Prints milliseconds, and the speed-up over one worker; independent threads do that many times the work."""
    rows = by_workers(program, parameter_set)
    reached = {w: w * rows["independent"][1] / rows["independent"][w] for w in WORKERS}
    for task, times in rows.items():
        speed_up = {w: reached[w] if task == "independent" else times[1] / times[w] for w in WORKERS}
        cells = [f"{times[w] / 1e6:.2f} ({speed_up[w]:.2f})" for w in WORKERS]
        share = f"{speed_up[WORKERS[-1]] / reached[WORKERS[-1]]:.2f}" if task in ("sign_par", "verify_all") else ""
        print(f"| {parameter_set} | {task} | {' | '.join(cells)} | {share} |", flush=True)


def print_workers(sets):
    """Prints the table of several workers."""
    with tempfile.TemporaryDirectory() as folder:
        program = built(os.environ.get("SLH_CPU", LEVELS[0]), folder)
        heads = " | ".join(f"{w} workers, ms (speed-up)" for w in WORKERS)
        print(f"| set | task | {heads} | share of independent |")
        print("|---|---|" + "---|" * (len(WORKERS) + 1))
        for parameter_set in sets:
            print_by_workers(program, parameter_set)


def main():
    words = argparse.ArgumentParser(description="Times one thread beside OpenSSL, or several workers.")
    words.add_argument("--workers", action="store_true")
    words.add_argument("--turns", type=int, default=TURNS)
    words.add_argument("sets", nargs="*", metavar="SET")
    given = words.parse_args()
    if given.workers:
        print_workers(given.sets or SETS)
    else:
        print_one_thread(given.sets or SETS, given.turns)


main()
