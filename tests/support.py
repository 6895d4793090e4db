"""What the tests and their fixtures share: tools that may be missing, runs of programs, and what is drawn."""
import contextlib
import hashlib
import itertools
import os
import pathlib
import re
import shutil
import socket
import subprocess
import sys
import typing

import pytest

HERE = pathlib.Path(__file__).resolve().parent.parent
TESTS = HERE / "tests"
# The Python that has Debian's packages.
PYTHON = "/usr/bin/python3" if os.path.exists("/usr/bin/python3") else sys.executable
VECTORS = TESTS / "vectors"
# How many seconds a test waits for what has to come. A busy machine takes its time: only a hang may be a failure.
PATIENCE = 600
SANITIZED = ("-g", "-fsanitize=address,undefined", "-fno-sanitize-recover=all")

# The Debian package of a command, if it has another name than the command.
PACKAGES = {"cc": "gcc", "clang++": "clang", "nm": "binutils", "objdump": "binutils", "readelf": "binutils", "size": "binutils",
            "strip": "binutils", "sha256sum": "coreutils", "rt": "the Rattle kit", "openssl-3.5": "tools/setup.sh",
            "ssss-split": "ssss", "systemd-creds": "systemd", "systemd-analyze": "systemd", "node": "nodejs",
            "tsc": "node-typescript", "go": "golang-go", "gofmt": "golang-go", "ld.lld": "lld", "llvm-nm": "llvm",
            "llvm-objdump": "llvm", "wasm2c-1.0.36": "tools/setup.sh", "qemu-x86_64-10": "tools/setup.sh",
            "dpkg-deb": "dpkg", "dpkg-shlibdeps": "dpkg-dev", "man": "man-db", "musl-gcc": "musl-tools",
            "ninja": "ninja-build", "rustfmt": "rustfmt, or that of rustup", "unshare": "util-linux",
            "x86_64-w64-mingw32-objdump": "binutils-mingw-w64-x86-64"}
PACKAGES |= {f"{it}-gcc": f"gcc-{it.replace('x86_64-w64-mingw32', 'mingw-w64-x86-64')}" for it in (
    "aarch64-linux-gnu", "arm-linux-gnueabihf", "arm-none-eabi", "riscv64-linux-gnu", "s390x-linux-gnu",
    "x86_64-w64-mingw32")}
PACKAGES |= {f"qemu-{it}": "qemu-user" for it in ("aarch64", "arm", "riscv32", "riscv64", "s390x", "x86_64")}


def tool_of(name):
    """The command of a compiler: CC, CXX and RUSTC name others."""
    return os.environ.get({"cc": "CC", "g++": "CXX", "rustc": "RUSTC"}[name], name)


def need(*tools):
    """Skips the test if one of these commands is missing."""
    for tool in tools:
        if not shutil.which(tool):
            pytest.skip(f"there is no {tool} (to be had by {PACKAGES.get(tool, f'the package {tool}')})")


class Outcome(typing.NamedTuple):
    """What came of a run of a program."""

    status: int
    output: bytes = b""
    errors: bytes = b""


def run(*words, stdin=b"", **options):
    """Runs a program to its end. `stdin` is bytes or an open file."""
    given = {"input": stdin} if isinstance(stdin, bytes) else {"stdin": stdin}
    options = {"stdout": subprocess.PIPE, "stderr": subprocess.PIPE, "timeout": PATIENCE, **given, **options}
    done = subprocess.run([os.fspath(it) for it in words], **options)
    return Outcome(done.returncode, done.stdout or b"", done.stderr or b"")


def succeed(*words, **options):
    """The output of a program that has to end with 0."""
    outcome = run(*words, **options)
    assert outcome.status == 0, (outcome.output + outcome.errors)[-4000:].decode(errors="replace")
    return outcome.output


def passed_by(outcome):
    """How many tests passed in a program whose last line has its counts: none may have failed, and some have passed."""
    lines = outcome.output.decode(errors="replace").splitlines()
    counts = re.fullmatch(r"(\d+) passed, 0 failed(, \d+ skipped)?", lines[-1] if lines else "")
    assert outcome.status == 0 and counts and int(counts[1]) > 0, (outcome.status, lines[-20:], outcome.errors[-4000:])
    return int(counts[1])


def blocks_of(page):
    """The blocks of lines of a page that four spaces indent, each with its heading, in their order."""
    heading, found = "", []
    for part in re.finditer(r"^#+ (.*)$|^    .*(?:\n+    .*)*", (HERE / page).read_text(), re.M):
        if part[1]:
            heading = part[1]
        else:
            found.append((heading, re.sub("^    ", "", part[0], flags=re.M)))
    return found


def block_of(page, heading, number=1):
    """The block with this number under a heading of a page, from 1 on."""
    return [text for found, text in blocks_of(page) if found == heading][number - 1]


def callgrind(folder, *words):
    """Lets valgrind count the instructions of a program: its output, and the counts that it asked for, each a pair of
    its label and its number. Parts without a label are of the whole run."""
    output = succeed("valgrind", "-q", "--tool=callgrind", f"--callgrind-out-file={folder}/part", *words)
    counts = []
    for part in sorted(folder.glob("part*")):
        lines = dict(it.split(": ", 1) for it in part.read_text().splitlines() if ": " in it)
        if "summary" in lines:
            label = re.fullmatch("Trigger: Client Request: (.*)", lines.get("desc", ""))
            counts.append((label[1] if label else "", int(lines["summary"])))
    return output, counts


def has_feature(name):
    """Whether this processor has a feature, as /proc/cpuinfo names it."""
    with open("/proc/cpuinfo") as file:
        return name in file.read().split()


def best_level():
    """The best level of x86-64 that this processor and system have, in glibc's judgement: 2, 3 or 4."""
    loader = "/lib64/ld-linux-x86-64.so.2"
    said = run(loader, "--help").output.decode() if os.path.exists(loader) else ""
    return max([2, *map(int, re.findall(r"^ *x86-64-v([34]) \(supported", said, re.M))])


def need_level(level):
    """Skips the test if this processor lacks a level of x86-64."""
    if level > best_level():
        pytest.skip(f"this processor lacks x86-64-v{level}")


# Ports that no test of this process has had, below those that systems give to clients.
PORTS = itertools.cycle(10000 + (97 * os.getpid() + it) % 20000 for it in range(20000))


def free_port():
    """A port that nothing has. No client gets it before the server, and another worker of xdist begins elsewhere."""
    for port in PORTS:
        with socket.socket() as it, contextlib.suppress(OSError):
            it.bind(("127.0.0.1", port))
            return port


def refused(line):
    """The outcome of a refusal by the program `slh`."""
    return Outcome(2, b"", f"slh: {line}\n".encode())


def drawn(seed, name, parts):
    """The parts that a number draws: one of them, or all of them if it is `all`."""
    if seed == "all":
        return list(parts)
    digest = hashlib.sha256(f"{seed} {name}\n".encode()).hexdigest()
    return [parts[int(digest[:8], 16) % len(parts)]]
