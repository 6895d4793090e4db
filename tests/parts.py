#!/usr/bin/env python3
"""Runs the parts of the test command, which is tools/test.sh, and adds up their counts: pytest and, where rt is, `rt
ci`, a release and wrong bodies.

usage: tests/parts.py whole | quick | release | few

Lines are shown as they come. In a silence of 20 seconds there is a dot. A part that ends early, prints no counts, ends
otherwise than they say, or runs nothing has failed. The end has each failure with the command that runs it alone. The
last line is `N passed, M failed, K skipped`, and the status is 0 if nothing failed.
"""
import collections
import os
import pathlib
import random
import re
import resource
import select
import shlex
import shutil
import subprocess
import sys
import tempfile

COUNTS = re.compile(r"(\d+) passed, (\d+) failed(?:, (\d+) skipped)?")
# The parts that need rt: the command of each part by the mode of the test command.
WITH_KIT = {
    "rt ci": {"whole": ["rt", "ci"]},
    "tools/release.sh": {"whole": ["tools/release.sh", "--after-ci", "--check", "out/release"]},
    "tests/wrong_bodies.py": {"whole": ["tests/wrong_bodies.py", "--gate"],
                              "quick": ["tests/wrong_bodies.py", "--changed"]},
    "tests/tested_bodies.py": {"whole": ["tests/tested_bodies.py", "--few"]},
}
OF_PYTEST = {"whole": ["--release=out/release"], "release": ["--release=dist"],
             "quick": ["-m", "program or quick", "--program=out/program/x86-64-v2/slh"],
             "few": ["-m", "not slow", "--release=dist"]}


def follow(words, pause):
    """Runs a command, and shows its lines, and a dot for each pause without one: its status, and the lines."""
    lines, rest, dots = [], b"", ""
    with subprocess.Popen(words, stdout=subprocess.PIPE, stderr=subprocess.STDOUT) as process:
        piece = b"begun"
        while piece:
            if not select.select([process.stdout], [], [], pause)[0]:
                print(".", end="", flush=True)
                dots = "\n"
                continue
            piece = os.read(process.stdout.fileno(), 65536)
            *whole, rest = (rest + piece).split(b"\n")
            whole += [rest] * (not piece and rest != b"")
            for line in whole:
                lines.append(line.decode(errors="replace"))
                print(dots + lines[-1], flush=True)
                dots = ""
    return process.returncode if process.returncode >= 0 else 128 - process.returncode, lines


def judge(status, lines):
    """The counts of a part by its last line, and why it has failed beside them, or None."""
    found = COUNTS.fullmatch(lines[-1] if lines else "")
    counts = dict(zip(("passed", "failed", "skipped"), (int(it or 0) for it in found.groups()))) if found else {}
    fault = None
    if not found:
        fault = f"it printed no counts, and ended with status {status}"
    elif not counts["failed"] and status:
        fault = f"it counted no failure, and ended with status {status}"
    elif not any(counts.values()):
        fault = "it ran nothing"
    return {**counts, "failed": counts.get("failed", 0) + (fault is not None)}, fault


def named(noted, lines, fault, count):
    """The names of COUNT failures: those that the part noted, else lines of its output."""
    names = noted or [it for it in lines if re.search(r": (no|fail)$|no proof", it)][:count]
    names += [fault] if fault else []
    return names + [f"{count - len(names)} failed that it names above"] * (len(names) < count)


class Parts:
    """The parts that have run: their counts and failures."""

    def __init__(self, work):
        self.counts, self.failures, self.noted = collections.Counter(), [], work / "failures"
        self.spent = work / "spent"
        os.environ.update(SLH_FAILURES=str(self.noted), SLH_SPENT=str(self.spent))

    def run(self, name, words):
        """Runs a part, and notes its processor seconds, which pytest prints, and its failures."""
        print(f"\n== {shlex.join(words)}", flush=True)
        self.noted.write_text("")
        before = resource.getrusage(resource.RUSAGE_CHILDREN)
        try:
            status, lines = follow(words, float(os.environ.get("SLH_DOTS_AFTER") or 20))
        except OSError as error:  # it can't be started: all other parts are run
            status, lines = 127, [str(error)]
            print(error, flush=True)
        after = resource.getrusage(resource.RUSAGE_CHILDREN)
        with open(self.spent, "a") as file:
            print(after.ru_utime + after.ru_stime - before.ru_utime - before.ru_stime, name, file=file)
        counts, fault = judge(status, lines)
        self.counts.update(counts)
        if counts["failed"]:
            self.note(name, words, lines, fault, counts["failed"])

    def note(self, name, words, lines, fault, count):
        """Notes the failures of a part. pytest notes its tests itself, each with its command."""
        noted = self.noted.read_text().splitlines()
        if name == "pytest":
            self.failures += noted
            names = [fault] if fault else []
        else:
            names = named(noted, lines, fault, count)
        self.failures += [f"{name}: {it}" for it in names] + [f"    alone: {shlex.join(words)}"] * (names != [])

    def tell(self, name, *words, **options):
        """Runs a command that has no counts, and counts it."""
        well = subprocess.run(words, stdout=subprocess.DEVNULL, **options).returncode == 0
        self.counts["passed" if well else "failed"] += 1
        self.failures += [] if well else [f"{name}: no"]
        print(f"{name}: {'yes' if well else 'no'}", flush=True)

    def skip(self, name, why):
        self.counts["skipped"] += 1
        print(f"{name}: SKIPPED, since {why}", flush=True)

    def end(self):
        """Prints the end: whether nothing failed."""
        print(f"drawn by SLH_SEED={os.environ['SLH_SEED']}")
        print(*["failed:", *self.failures] if self.failures else [], sep="\n", end="\n" * bool(self.failures))
        print(", ".join(f"{self.counts[it]} {it}" for it in ("passed", "failed", "skipped")))
        return not self.counts["failed"]


def run_with_kit(parts, mode):
    """Runs the parts that need rt, or skips them."""
    has_rt = shutil.which("rt") is not None
    for name, words in WITH_KIT.items():
        if mode in words and has_rt:
            parts.run(name, words[mode])
        elif mode != "quick" and name != "tools/release.sh":
            parts.skip(name, "a release is tested" if has_rt else "there is no rt")


def run_pytest(parts, mode):
    """Most tests take one core, so that two are run at once behind the proofs. A quick run takes no second."""
    words = ["pytest", *OF_PYTEST[mode]]
    if not shutil.which("pytest"):
        parts.tell("dist/ is as listed", "sha256sum", "--check", "--quiet", "SHA256SUMS", cwd="dist")
        return parts.skip("all tests", "there is no pytest (to be had by the package python3-pytest)")
    at_once = ["-n", "2"]
    if mode == "whole" and subprocess.run(["pytest", *at_once, "--version"], capture_output=True).returncode == 0:
        words[1:1] = [*at_once, "--dist", "loadfile"]
    return parts.run("pytest", words)


def main():
    if len(sys.argv) != 2 or sys.argv[1] not in OF_PYTEST:
        sys.exit(__doc__.strip())
    mode, = sys.argv[1:]
    os.chdir(pathlib.Path(__file__).resolve().parent.parent)
    os.environ.update(SLH_MODE=mode, SLH_SEED=os.environ.get("SLH_SEED") or str(random.getrandbits(30)))
    with tempfile.TemporaryDirectory() as work:
        parts = Parts(pathlib.Path(work))
        if mode == "whole":
            shutil.rmtree("out/release", ignore_errors=True)
        if mode == "quick":
            parts.tell("SLH_BUILD=1 ./slh params", "./slh", "params", env={**os.environ, "SLH_BUILD": "1"})
        run_with_kit(parts, mode)
        run_pytest(parts, mode)
        sys.exit(not parts.end())


if __name__ == "__main__":
    main()
