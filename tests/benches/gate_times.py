#!/usr/bin/env python3
"""Runs a command, and tells where its processor time goes, by crate.

usage: tests/benches/gate_times.py COMMAND..

As tests/benches/gate_times.py tools/test.sh. What the command prints is passed on. Each half second the processes below
it are looked at; the time of one that names a crate counts for that crate, as an edit where it runs on a copy of the
sources, as tests where it checks or builds them, else as proof. All else is the last row. Then come the minutes on the
clock, the processor minutes of all processes that ended, and the command's status, which is also that of this script.
"""
import collections
import os
import resource
import subprocess
import sys
import time

TICK = os.sysconf("SC_CLK_TCK")
KINDS = ["proof", "tests", "edits"]


def read(pid, name):
    with open(f"/proc/{pid}/{name}", "rb") as file:
        return file.read()


def label(pid):
    """The crate that a process works on, and what for."""
    words = read(pid, "cmdline").decode(errors="replace").split("\0")
    if "--crate-name" not in words:
        return "other", "proof"
    crate = words[words.index("--crate-name") + 1]
    if "rt-edit" in os.readlink(f"/proc/{pid}/cwd"):
        return crate, "edits"
    return crate, "tests" if "--test" in words else "proof"


def sample(root, times):
    """Notes the time that each process below this one has taken so far."""
    found = {}
    for pid in filter(str.isdigit, os.listdir("/proc")):
        try:
            found[pid] = read(pid, "stat").decode(errors="replace").rpartition(")")[2].split()
        except (FileNotFoundError, ProcessLookupError):
            pass
    below = {str(root)}
    while more := {pid for pid, fields in found.items() if fields[1] in below} - below:
        below |= more
    for pid in below & found.keys():
        fields = found[pid]
        key = pid, fields[19]
        known = times.get(key, (("other", "proof"), 0))[0]
        try:
            times[key] = (known if known[0] != "other" else label(pid)), int(fields[11]) + int(fields[12])
        except (FileNotFoundError, ProcessLookupError, PermissionError):
            pass


def main():
    began = time.time()
    command = subprocess.Popen(sys.argv[1:])
    times = {}
    while command.poll() is None:
        sample(command.pid, times)
        time.sleep(0.5)
    table = collections.defaultdict(collections.Counter)
    for (crate, kind), ticks in times.values():
        table[crate][kind] += ticks / TICK / 60
    print("| crate | " + " | ".join(KINDS) + " | sum |\n|---|---|---|---|---|")
    for crate in sorted(table, key=lambda name: (name == "other", -sum(table[name].values()))):
        minutes = [table[crate][kind] for kind in KINDS] + [sum(table[crate].values())]
        print(f"| {crate} | " + " | ".join(f"{it:.1f}" for it in minutes) + " |")
    used = resource.getrusage(resource.RUSAGE_CHILDREN)
    clock, processor = (time.time() - began) / 60, (used.ru_utime + used.ru_stime) / 60
    print(f"{clock:.1f} minutes, {processor:.1f} processor minutes, status {command.returncode}")
    sys.exit(command.returncode)


main()
