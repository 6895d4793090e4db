"""What the tests of packages share: the level of this processor, the counts of other runners, the search for secrets in
the memory of a program, and a library with another known answer."""
import base64
import contextlib
import ctypes
import json
import os
import re
import shutil
import signal
import subprocess

import pytest

from support import HERE, VECTORS, best_level, run

# The module path of the package for Go.
GO_MODULE = re.match(r"module (\S+)\n", (HERE / "bindings/go/go.mod").read_text())[1]

# ---- the level of the code that runs


def says_best_level(*words, **options):
    """Whether a program over a package prints slh_level, and it is the best one."""
    return run(*words, **options).output.decode() == f"{best_level()}\n"


# ---- other runners


def text_of(outcome):
    return (outcome.output + outcome.errors).decode(errors="replace")


def count_tests(outcome, pattern):
    """How many tests a runner says that it ran. It has to end with 0, and none is a failure."""
    text = text_of(outcome)
    assert outcome.status == 0, text[-6000:]
    number = sum(map(int, re.findall(pattern, text, re.MULTILINE)))
    assert number > 0, f"it ran no test: {text[-2000:]}"
    return number


def lines_of(*words, env=os.environ, **options):
    """The lines that a script of tests prints. The last one has to be its counts, with which its status agrees. It does
    not note its failures for the test command, since pytest does."""
    outcome = run(*words, env={name: it for name, it in env.items() if name != "SLH_FAILURES"}, **options)
    lines = outcome.output.decode(errors="replace").splitlines()
    failed = re.fullmatch(r"\d+ passed, (\d+) failed(, \d+ skipped)?", lines[-1] if lines else "")
    assert failed, f"it printed no counts, and ended with status {outcome.status}: {text_of(outcome)[-4000:]}"
    assert outcome.status == (failed[1] != "0"), f"it ended with status {outcome.status}: {lines[-20:]}"
    return lines


def check_script(lines):
    """Fails if a script of tests has counted a failure, and skips, with its causes, if it skipped all."""
    passed, failed = map(int, re.match(r"(\d+) passed, (\d+) failed", lines[-1]).groups())
    assert failed == 0, "\n".join(lines[-60:])
    if passed == 0:
        skip_as(lines)


def check_part(lines, about):
    """The same of those lines of a script that begin so."""
    mine = [it for it in lines if it.startswith(about)]
    passed = [it for it in mine if re.search(r": (yes|[1-9]\d* passed, 0 failed.*)$", it)]
    bad = [it for it in mine if it not in passed and SKIPPED not in it]
    assert not bad, "\n".join([*lines, *bad])
    if not passed:
        skip_as(mine)


SKIPPED = ": SKIPPED, since "


def skip_as(lines):
    causes = [it.split(SKIPPED)[1] for it in lines if SKIPPED in it]
    assert causes, "it ran nothing"
    pytest.skip("; ".join(causes))


# ---- what is left in memory

SET, LEVELS, N = 2, (0, 0), 16
# The C library then keeps memory that is freed, so that what is not erased in it is found.
KEPT = {"MALLOC_MMAP_THRESHOLD_": str(32 << 20), "MALLOC_TRIM_THRESHOLD_": str(1 << 30)}


def call(library, name, *arguments):
    words = []
    for it in arguments:
        words += [it, ctypes.c_size_t(len(it))] if isinstance(it, (bytes, ctypes.Array)) else [it]
    result = getattr(library, name)(*words)
    assert result == 0, f"{name}: {result}"


def tags(library, sk):
    """The tag of each answer, which is behind its node and in no signature."""
    jobs, start_len, answers_len, at, length = ctypes.c_uint32(), *(ctypes.c_size_t() for _ in range(4))
    call(library, "slh_sign_jobs", SET, *LEVELS, *map(ctypes.byref, (jobs, start_len, answers_len)))
    start = ctypes.create_string_buffer(start_len.value)
    call(library, "slh_sign_start", SET, sk, b"letter", b"", b"", start)
    found = []
    for job in range(jobs.value):
        call(library, "slh_answer_place", SET, *LEVELS, job, ctypes.byref(at), ctypes.byref(length))
        answer = ctypes.create_string_buffer(length.value)
        call(library, "slh_sign_job", SET, *LEVELS, sk, start, job, answer)
        found.append(answer.raw[N : 2 * N])
    return found


def memory(process):
    """The parts of a process's memory that it may write to, stacks too: the name and the bytes of each."""
    with open(f"/proc/{process}/maps") as maps, open(f"/proc/{process}/mem", "rb", 0) as mem:
        for line in maps.read().splitlines():
            first, last, rights, name = re.match(r"(\w+)-(\w+) (\S+) \S+ \S+ \S+ *(.*)", line).groups()
            if rights.startswith("rw"):
                mem.seek(int(first, 16))
                yield name or first, mem.read(int(last, 16) - int(first, 16))


def places(process, named):
    """Where which of these bytes are, by their names. The process is stopped meanwhile, so that nothing moves."""
    os.kill(process, signal.SIGSTOP)
    os.waitpid(process, os.WUNTRACED)
    parts = list(memory(process))
    os.kill(process, signal.SIGCONT)
    assert len(parts) > 2, "the memory can't be read"
    return [f"{it} in {name}" for name, data in parts for it, wanted in named.items() if wanted in data]


@contextlib.contextmanager
def started(command, env):
    """A program with pipes, which is ended by force at last."""
    pipes = {"stdin": subprocess.PIPE, "stdout": subprocess.PIPE, "text": True}
    with subprocess.Popen([os.fspath(it) for it in command], env={**(env or os.environ), **KEPT}, **pipes) as child:
        try:
            yield child
        except BaseException:
            child.kill()
            raise


def secrets_of(sk):
    """What may not be left of a secret key, by names: as bytes and as digits, and as in the first line of its PEM. In
    the DER SK.seed begins at byte 20, and each three bytes are four characters."""
    named = {"SK.seed": sk[:N], "SK.prf": sk[N : 2 * N]}
    in_pem = {"PEM of SK.seed": base64.b64encode(sk[1:N]), "PEM of SK.prf": base64.b64encode(sk[N : N + 12])}
    return named | in_pem | {f"digits of {name}": part.hex().encode() for name, part in named.items()}


def check_memory(library, *command, env=None):
    """Searches the memory of a program for secrets, while it has them and after it has erased them.

    The command runs a program of bindings/tests over a package. It makes a key of the set 128f, and writes the key's
    bytes as digits, each byte with 0x5a exclusive-or: so its memory has no other copy of them by this. After a line on
    its standard input it signs the message `letter` in the deterministic variant, by jobs, too, erases the key and
    writes `erased`. While it has the key, SK.seed has to be in its memory. After that neither SK.seed nor SK.prf may be
    there, nor the tag of an answer, by which the answers of jobs are known: the library makes these here once more."""
    with started(command, env) as child:
        sk = bytes(it ^ 0x5A for it in bytes.fromhex(child.stdout.readline()))
        assert len(sk) == 4 * N and len(set(sk)) >= 8, "it wrote no key"
        named = secrets_of(sk)
        before = places(child.pid, named)
        named |= {f"the tag of answer {job}": it for job, it in enumerate(tags(ctypes.CDLL(os.fspath(library)), sk))}
        print("erase", file=child.stdin, flush=True)
        said = child.stdout.readline()
        after = places(child.pid, named)
        child.stdin.close()
    assert (said, child.returncode) == ("erased\n", 0)
    assert before, "the key is not in memory while it is used"
    assert not after, after


# ---- a library with another known answer


def with_another_root(data):
    """The bytes of a library or a program, in which the self-test of the set 128f expects another PK.root."""
    tests = json.loads((VECTORS / "slh-dsa-sha2-128f.json").read_text())
    seeds = bytes(range(3 * N)).hex()
    roots = [bytes.fromhex(it["pk"])[N:] for it in tests if it["kind"] == "keygen" and it["sk"].startswith(seeds)]
    assert len(roots) == 1
    parts = [it for it in (roots[0][:8], roots[0][8:]) if it in data]
    assert parts, "the known root is not there"
    for it in parts:
        data = data.replace(it, bytes([it[0] ^ 1]) + it[1:])
    return data


def write_another_library(installed, folder):
    """A copy of an installed library, whose archive and shared object have another known answer: its prefix."""
    shutil.copytree(installed, folder / "another", symlinks=True)
    for name in "libslh.a", "libslh.so.1":
        path = folder / "another/lib" / name
        path.write_bytes(with_another_root(path.read_bytes()))
    return folder / "another"


# ---- keys


def is_key_file(path):
    """Whether a file is a key file of version 2 with a public key of the set 128f (docs/FORMATS.md)."""
    return re.fullmatch(rb"slh-dsa-public 2\nSLH-DSA-SHA2-128f\n[0-9a-f]{64}\n", path.read_bytes()) is not None


def refuses_to_build(text, *words, **options):
    """Whether a build fails, and says this."""
    outcome = run(*words, **options)
    assert outcome.status != 0, "it was built"
    assert text in text_of(outcome), text_of(outcome)[-3000:]
    return True
