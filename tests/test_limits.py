"""Runs the program `slh` with little stack and little address space. Whatever the limit, a command gives the bytes that
it gives without one, or the refusal `1 NoMemory`; a limit under which the system does not start the program counts for
nothing. It also counts the threads that `sign` asks for: none if the context is too long, and the work is done without
any thread if each is refused.
"""
import collections
import os

import pytest

from support import TESTS, VECTORS, Outcome, refused, run

SET = "SLH-DSA-SHA2-128f"
SIGN = ["sign", "--key", "key", "--message", "message"]
MANY = ["--workers", "64", "--xmss-levels", "3", "--fors-levels", "3"]
SMOKE = ["vectors", "--file", str(VECTORS / "smoke-128f.json"), "--workers", "64"]
DEEP = ["vectors", "--file", "deep.json"]
VERIFY = ["verify", "--key", "public", "--message", "message", "--signature", "signature"]
LEAST_STACK = 192
# 64 workers ask for 95 threads: 64 that work, and 31 that only start others.
THREADS = 95
RECORDS = {"SLH-DSA-SHA2-128s": 16, "SLH-DSA-SHA2-192f": 24, "SLH-DSA-SHA2-256f": 32, "custom:32,2,1,65,14,64": 32,
           "custom:24,8,1,2,5,7": 24}


def seeds(n):
    return bytes(range(3 * n)).hex().encode()


@pytest.fixture(scope="module")
def folder(slh, tmp_path_factory):
    path = tmp_path_factory.mktemp("limits")
    (path / "message").write_text("a message\n")
    # Objects of objects, as deep as they may nest.
    (path / "deep.json").write_text("[" + 126 * '{"a":' + "1" + 126 * "}" + "]")
    for name, words in [("key", ["keygen", "--set", SET]), ("public", ["public", "--key", "key"]), ("signature", SIGN)]:
        made = slh(*words, cwd=path, stdin=seeds(16))
        assert made == Outcome(0, made.output)
        (path / name).write_bytes(made.output)
    return path


class Limited:
    """Runs of the program in a folder under a limit, beside those without one."""

    def __init__(self, program, folder, refusing, told):
        self.program, self.folder, self.refusing, self.told = program, folder, refusing, told

    def free(self, words, stdin=seeds(16), **options):
        return run(self.program, *words, cwd=self.folder, stdin=stdin, **options)

    def came(self, option, limit, words, wanted, stdin=seeds(16), **options):
        """What came of a command under a limit of KB, `-s` for the stack or `-v` for addresses: right, refused,
        unstarted, or its outcome."""
        script = f'ulimit {option} {limit} && exec "$0" "$@"'
        found = run("bash", "-c", script, self.program, *words, cwd=self.folder, stdin=stdin, **options)
        if found == wanted:
            return "right"
        if found == refused("1 NoMemory"):
            return "refused"
        return "unstarted" if found.status == 127 or b"error while loading" in found.errors else found

    def without_threads(self):
        """Variables under which each thread is refused; `told` has a line for each then."""
        self.told.write_text("")
        return {"env": {**os.environ, "REFUSED": str(self.told), "LD_PRELOAD": str(self.refusing)}}

    def distances(self):
        """The bytes of stack between the first request for a thread and each of them."""
        return [int(it) for it in self.told.read_text().split()]


@pytest.fixture
def limited(program, folder, compiled, tmp_path):
    library = compiled("refuse_threads.so", "-O2", "-shared", "-fPIC", TESTS / "refuse_threads.c", "-ldl")
    return Limited(program, folder, library, tmp_path / "refused")


@pytest.mark.parametrize("form", [[], ["--prehash", "SHA2-256"]], ids=["pure", "prehash"])
def test_context_that_is_too_long_starts_no_thread(limited, form):
    words = [*SIGN, "--workers", "2", *form, "--context"]
    limited.free([*words, 255 * "00"], **limited.without_threads())
    assert limited.distances()
    refusal = limited.free([*words, 256 * "00"], **limited.without_threads())
    assert (limited.distances(), refusal) == ([], refused("2 ContextTooLong"))


COMMANDS = [
    ["params"],
    ["root", "--set", SET],
    ["keygen", "--set", SET, "--workers", "64", "--xmss-levels", "3"],
    ["public", "--key", "key"],
    ["check", "--key", "key"],
    ["upgrade", "--key", "key"],
    [*SIGN, *MANY],
    [*SIGN, "--prehash", "SHA2-512", "--context", "00ff", "--workers", "64", "--xmss-cuts", "1,2,3,5", "--fors-cuts",
     "1,63"],
    VERIFY,
    [*VERIFY, "--prehash", "SHA2-512"],
    SMOKE,
    DEEP,
    ["sign", "--help"],
]


def named(words):
    return " ".join(os.path.basename(it) for it in words)


@pytest.mark.parametrize("words", COMMANDS, ids=named)
def test_least_stack(limited, words):
    assert limited.came("-s", LEAST_STACK, words, limited.free(words)) == "right"


def is_right_without_threads(limited, words, stdin=seeds(16)):
    """Whether the first thread does all under the least limit of the stack, if each thread is refused. The calls that
    ask for threads nest 6 deep and take some 1,200 bytes of stack each. Nested 63 deep they would take some 75,000, for
    which 192 KB has room as well; so the bytes between the requests are looked at, too."""
    wanted = limited.free(words, stdin)
    came = limited.came("-s", LEAST_STACK, words, wanted, stdin, **limited.without_threads())
    distances = limited.distances()
    assert (came, len(distances)) == ("right", THREADS) and max(distances) < 8000


@pytest.mark.parametrize("words", [it for it in COMMANDS if "64" in it], ids=named)
def test_least_stack_without_threads(limited, words):
    is_right_without_threads(limited, words)


@pytest.fixture
def signs_by(limited, folder):
    """Makes the key of a record, and returns the words that sign with it and the seeds."""

    def makes(record):
        data = seeds(RECORDS[record])
        made = limited.free(["keygen", "--set", record], data)
        assert made == Outcome(0, made.output)
        (folder / f"key_of_{record}").write_bytes(made.output)
        return ["sign", "--key", f"key_of_{record}", "--message", "message", "--workers", "64"], data

    return makes


@pytest.mark.slow
@pytest.mark.parametrize("record", RECORDS)
def test_least_stack_of_record(limited, signs_by, record):
    words, data = signs_by(record)
    assert limited.came("-s", LEAST_STACK, words, limited.free(words, data), data) == "right"


@pytest.mark.slow
@pytest.mark.parametrize("record", RECORDS)
def test_least_stack_of_record_without_threads(limited, signs_by, record):
    is_right_without_threads(limited, *signs_by(record))


# Of refusals and of right answers there has to be one at least; in the few KB of the fourth, one of the two.
@pytest.mark.slow
@pytest.mark.parametrize("option, limits, some, words", [
    pytest.param("-s", range(24, 241, 4), True, [*SIGN, *MANY], id="stack-sign"),
    pytest.param("-v", range(2400, 9001, 41), True, [*SIGN, *MANY], id="addresses-sign"),
    pytest.param("-v", range(9000, 120001, 1511), True, [*SIGN, *MANY], id="more-addresses-sign"),
    pytest.param("-v", range(44600, 44641, 2), False, [*SIGN, *MANY], id="each-page-sign"),
    pytest.param("-s", range(24, 241, 12), True, DEEP, id="stack-deep-vectors"),
    pytest.param("-v", range(2400, 3601, 6), True, DEEP, id="addresses-deep-vectors"),
    pytest.param("-v", range(2400, 9001, 301), True, SMOKE, id="addresses-vectors"),
])
def test_limits(limited, option, limits, some, words):
    wanted = limited.free(words)
    came = {limit: limited.came(option, limit, words, wanted) for limit in limits}
    assert not {limit: it for limit, it in came.items() if isinstance(it, Outcome)}
    counts = collections.Counter(came.values())
    assert counts["right"] + counts["refused"] and (not some or counts["right"] * counts["refused"]), counts


@pytest.fixture(scope="module")
def long_message(folder):
    """A message of 100 MB. It takes no room on disk."""
    (folder / "long_message").touch()
    os.truncate(folder / "long_message", 100 << 20)


# A message is verified in room for none of it, in either form, and signed so in the pre-hash form.
@pytest.mark.slow
@pytest.mark.parametrize("words", [
    VERIFY,
    [*VERIFY, "--prehash", "SHA2-256"],
    [*SIGN, "--prehash", "SHA2-256"],
    [*SIGN, "--prehash", "SHA2-512", "--context", "00ff", "--workers", "4", "--xmss-levels", "1"],
], ids=named)
def test_message_of_100_mb(limited, long_message, words):
    words = ["long_message" if it == "message" else it for it in words]
    assert limited.came("-v", 9000, words, limited.free(words)) == "right"
