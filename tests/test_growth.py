"""Runs each command of the program `slh`, with each kind of option, once for each growth of memory that it asks for,
with that growth refused, until a run meets no refusal.

Each run has to end with status 2, nothing on standard output and `slh: 1 NoMemory` on standard error, or with what the
program gives without any refusal. That is right in two cases: it has started fewer threads, or `clap` lacks memory for
a text about arguments that are refused anyway.
"""
import json
import os
import typing

import pytest

from support import TESTS, VECTORS, Outcome, refused, run

SET = "SLH-DSA-SHA2-128f"
MOST = 20000
SIGN = ["sign", "--key", "key", "--message", "message"]
VERIFY = ["verify", "--key", "public", "--message", "message", "--signature"]
LEVEL_1 = ["--xmss-levels", "1", "--fors-levels", "1"]


def one_test_of_each_kind():
    tests = json.loads((VECTORS / "smoke-128f.json").read_text())
    return [next(it for it in tests if it["kind"] == kind) for kind in ("keygen", "sign", "verify")]


@pytest.fixture(scope="module")
def folder(slh, tmp_path_factory):
    path = tmp_path_factory.mktemp("growth")
    (path / "seeds").write_text(bytes(range(48)).hex() + "\n")
    (path / "message").write_text("a message\n")
    (path / "tests.json").write_text(json.dumps(one_test_of_each_kind()))
    for name, words in [("key", ["keygen", "--set", SET]), ("public", ["public", "--key", "key"]), ("signature", SIGN),
                        ("hash_signature", [*SIGN, "--prehash", "SHA2-256", "--context", "00"])]:
        made = slh(*words, cwd=path, stdin=(path / "seeds").read_bytes())
        assert made == Outcome(0, made.output)
        (path / name).write_bytes(made.output)
    return path


@pytest.fixture(scope="module")
def refusing(compiled):
    """What is loaded before the program, and refuses the growth with a number."""
    return compiled("refuse_nth.so", "-O2", "-shared", "-fPIC", TESTS / "refuse_nth.c", "-ldl")


class Came(typing.NamedTuple):
    """What came of a run: its outcome, whether it met the growth that is refused, and how many threads it started."""

    outcome: Outcome
    is_met: bool
    threads: int


@pytest.fixture
def outcome_without(program, folder, refusing, tmp_path):
    """Runs a command without a growth, or with all if its number is 0: what came of it."""

    def runs(number, words):
        met, threads = tmp_path / "met", tmp_path / "threads"
        met.unlink(missing_ok=True)
        threads.write_bytes(b"")
        env = {**os.environ, "REFUSE_NTH": str(number), "REFUSE_MET": str(met), "REFUSE_THREADS": str(threads),
               "LD_PRELOAD": str(refusing)}
        with open(folder / "seeds", "rb") as stdin:
            outcome = run(program, *words, cwd=folder, stdin=stdin, env=env)
        return Came(outcome, met.exists(), threads.stat().st_size)

    return runs


def slow(words, threads=0, texts=0, least=50):
    return pytest.param(threads, texts, least, words, id=" ".join(it[:20] for it in words), marks=pytest.mark.slow)


# For each command line: the number of threads that it starts, the most texts of `clap` that it may omit, and the least
# number of growths that refuse it. If memory for the start of a thread is refused, the calling thread does the work. If
# several threads ask for memory, such a growth may have another number in each run.
@pytest.mark.parametrize("threads, texts, least, words", [
    pytest.param(0, 0, 50, [], id="nothing"),
    slow(["params"]),
    slow(["params", "--set", SET]),
    slow(["root", "--set", SET]),
    slow(["keygen", "--set", SET]),
    slow(["keygen", "--set", SET, "--workers", "2", *LEVEL_1], threads=2),
    slow(["public", "--key", "key"]),
    slow(["check", "--key", "key"]),
    slow(["upgrade", "--key", "key"]),
    slow(["upgrade", "--key", "public"]),
    slow(SIGN),
    slow([*SIGN, "--twice"]),
    slow([*SIGN, "--context", 255 * "00", "--random", bytes(range(16)).hex(), "--workers", "2", *LEVEL_1], threads=2),
    slow([*SIGN, "--prehash", "SHA2-512/256", "--workers", "3", "--xmss-cuts", "3,5", "--fors-cuts", "5"], threads=4),
    slow([*VERIFY, "signature"]),
    slow([*VERIFY, "hash_signature", "--prehash", "SHA2-256", "--context", "00"]),
    slow(["vectors", "--file", "tests.json"]),
    slow(["vectors", "--file", "tests.json", "--workers", "2"], threads=2),
    slow(["--help"]),
    slow(["sign", "--help"]),
    slow(["sign", "--nothing"], texts=100),
    slow(["root", "--set", SET, "--set", SET], least=10),
    slow(["public", "--key", "nowhere"], least=10),
])
def test_each_growth_refused(outcome_without, threads, texts, least, words):
    wanted = outcome_without(0, words)
    assert wanted.threads == threads
    refusals = omitted = 0
    for number in range(1, MOST):
        came = outcome_without(number, words)
        if not came.is_met:
            assert came == wanted
            break
        assert came.outcome in (wanted.outcome, refused("1 NoMemory")), f"growth {number}"
        omitted += came.outcome == wanted.outcome and came.threads == threads
        refusals += came.outcome != wanted.outcome
    assert not came.is_met and omitted <= texts and refusals >= least, f"{refusals} refused, {omitted} passed over"
