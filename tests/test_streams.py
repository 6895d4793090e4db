"""Runs the program `slh` over real files, pipes, broken and interrupted streams, counts its threads and reads its help.

Each run is judged by its status, by all that it writes to standard output, and by all that it writes to standard error.
Keys are of SLH-DSA-SHA2-128f and the seeds 00, 01, 02, ..; the public key and the digest of the signature of "abc" are
those of another implementation.
"""
import hashlib
import json
import os
import re
import subprocess
import threading
import time

import pytest

from support import HERE, TESTS, Outcome, refused, run

pytestmark = pytest.mark.usefixtures("of_these_sources")

SET = "SLH-DSA-SHA2-128f"
SEEDS = bytes(range(48)).hex()
ROOT = "3b56e816847f000386aeec2e2bb9e1b5"
DIGEST = "7c4622720e758897ec5f2089049bb5e5d98fc2e88bfdacf4fad3a1e20f80d5f8"
SECRET = f"slh-dsa-secret 2\n{SET}\n{SEEDS}{ROOT}\n".encode()
PUBLIC = f"slh-dsa-public 2\n{SET}\n{SEEDS[64:]}{ROOT}\n".encode()
VALID, INVALID, CONSISTENT = Outcome(0, b"valid\n"), Outcome(1, b"invalid\n"), Outcome(0, b"consistent\n")
NO_TESTS = Outcome(0, b"passed 0 failed 0\n")
UNREAD, UNWRITTEN, BAD_WORDS = refused("32 ReadFailed"), refused("33 WriteFailed"), refused("31 BadWords")
SIGN = ["sign", "--key", "secret", "--message", "abc"]
VERIFY = ["verify", "--key", "public", "--message", "abc", "--signature", "sig"]
KEYGEN = ["keygen", "--set", SET]
# Of no other valid record a signature has more jobs: 18,688, 256 for each of 9 XMSS trees and 64 FORS trees.
MOST = "custom:16,4,8,9,8,64"
MOST_LEVELS = ["--xmss-levels", "8", "--fors-levels", "8"]
LONG = "custom:16,8,12,6,1,1"


def version_1(key):
    return key.replace(b" 2\n", b" 1\n", 1)


@pytest.fixture(scope="module")
def folder(slh, tmp_path_factory):
    """A folder with keys, messages and the signature of "abc"."""
    path = tmp_path_factory.mktemp("streams")
    files = {"seeds": SEEDS.encode(), "secret": SECRET, "public": PUBLIC, "secret_1": version_1(SECRET),
             "public_1": version_1(PUBLIC), "abc": b"abc", "tests": b"[]", "zeros": bytes(20000)}
    for name, data in files.items():
        (path / name).write_bytes(data)
    (path / "sig").write_bytes(slh(*SIGN, cwd=path).output)
    return path


@pytest.fixture(scope="module")
def sig(folder):
    """What a run gives that signs "abc"."""
    return Outcome(0, (folder / "sig").read_bytes())


@pytest.fixture
def here(slh, folder):
    """Runs the program in that folder, for a minute at most."""

    def runs(*words, **options):
        return slh(*words, cwd=folder, **{"timeout": 60, **options})

    return runs


# ---- the arguments, and what is written where


@pytest.mark.parametrize("words, stdin, outcome", [
    pytest.param(KEYGEN, SEEDS.encode(), Outcome(0, SECRET), id="keygen"),
    pytest.param(["public", "--key", "secret"], b"", Outcome(0, PUBLIC), id="public"),
    pytest.param(["upgrade", "--key", "secret_1"], b"", Outcome(0, SECRET), id="upgrade-secret"),
    pytest.param(["upgrade", "--key", "public_1"], b"", Outcome(0, PUBLIC), id="upgrade-public"),
    pytest.param(VERIFY, b"", VALID, id="verify"),
    pytest.param([*VERIFY[:4], "zeros", *VERIFY[5:]], b"", INVALID, id="verify-another-message"),
    pytest.param(["vectors", "--file", "tests"], b"", NO_TESTS, id="vectors-of-none"),
    pytest.param(["slh", "params"], b"", BAD_WORDS, id="its-name-is-no-word"),
    pytest.param(["--nothing"], b"", BAD_WORDS, id="other-words"),
    pytest.param(["params", b"\xff"], b"", BAD_WORDS, id="no-utf-8"),
    pytest.param(["root", "--set", SET], b"abc", refused("34 BadSeeds"), id="bad-seeds"),
    pytest.param(["params", "--set", "none"], b"", refused("12 UnknownSet"), id="unknown-set"),
])
def test_words(here, words, stdin, outcome):
    assert here(*words, stdin=stdin) == outcome


def test_sign_writes_what_another_implementation_does(here):
    signed = here(*SIGN)
    assert signed == Outcome(0, signed.output)
    assert hashlib.sha256(signed.output).hexdigest() == DIGEST


def test_params_writes_six_lines(here):
    table = here("params")
    assert table == Outcome(0, table.output) and table.output.count(b"\n") == 6


def test_no_words_are_params(here):
    assert here() == here("params")


def test_name_of_the_program_is_no_word(program, here, folder):
    assert run("params", executable=program, cwd=folder) == here("params")


def test_help_is_no_error(here):
    told = here("--help")
    assert told.output and told == Outcome(0, told.output)


# ---- paths that are not files


@pytest.mark.parametrize("words", [
    pytest.param(["sign", "--key", "none", "--message", "abc"], id="missing-key"),
    pytest.param(["sign", "--key", "secret", "--message", "none"], id="missing-message"),
    pytest.param([*VERIFY[:-1], "none"], id="missing-signature"),
    pytest.param(["vectors", "--file", "none"], id="missing-vector-file"),
    pytest.param(["sign", "--key", "secret", "--message", "."], id="folder-as-message"),
    pytest.param(["verify", "--key", ".", *VERIFY[3:]], id="folder-as-key"),
    pytest.param(["vectors", "--file", "."], id="folder-as-vector-file"),
    pytest.param(["sign", "--key", 5000 * "a", "--message", "abc"], id="path-too-long"),
])
def test_no_file(here, words):
    assert here(*words) == UNREAD


def test_folder_as_standard_input(here, folder):
    stdin = os.open(folder, os.O_RDONLY)
    assert here(*KEYGEN, stdin=stdin) == UNREAD
    os.close(stdin)


def closing(*streams):
    """Options that close these streams of a program before it begins."""
    return {"preexec_fn": lambda: [os.close(it) for it in streams]}


def test_closed_standard_input(here):
    assert here(*KEYGEN, **closing(0)) == UNREAD


# ---- pipes


class Pipes:
    """Pipes into which threads write."""

    def __init__(self):
        self.ends = []

    def __call__(self, data, piece=1 << 16, pause=0.0):
        """Writes bytes into a pipe, piece by piece, and returns the path of its other end."""
        out, into = os.pipe()
        threading.Thread(target=self.write, args=(into, data, piece, pause), daemon=True).start()
        self.ends.append(out)
        return f"/dev/fd/{out}"

    def slowly(self, data, piece):
        return self(data, piece, 0.02)

    @staticmethod
    def write(into, data, piece, pause):
        try:
            for at in range(0, len(data), piece):
                os.write(into, data[at:at + piece])
                time.sleep(pause)
        except BrokenPipeError:
            pass
        finally:
            os.close(into)


@pytest.fixture
def pipe():
    pipes = Pipes()
    yield pipes
    for it in pipes.ends:
        os.close(it)


@pytest.fixture
def over_pipes(here, pipe):
    return lambda *words, **options: here(*words, pass_fds=pipe.ends, **options)


@pytest.fixture(scope="module")
def sig_of_zeros(slh, folder):
    path = folder / "sig_of_zeros"
    path.write_bytes(slh("sign", "--key", "secret", "--message", "zeros", cwd=folder).output)
    return Outcome(0, path.read_bytes())


@pytest.mark.slow
def test_verify_over_pipes(over_pipes, pipe, sig):
    words = ["verify", "--key", pipe.slowly(PUBLIC, 33), "--message", pipe(b"abc"), "--signature"]
    assert over_pipes(*words, pipe.slowly(sig.output, 5000)) == VALID


@pytest.mark.slow
def test_verify_prehash_over_pipes(over_pipes, pipe, sig):
    words = ["verify", "--key", pipe(PUBLIC), "--message", pipe(bytes(20000)), "--signature", pipe(sig.output)]
    assert over_pipes(*words, "--prehash", "SHA2-256") == INVALID


@pytest.mark.slow
def test_sign_over_pipes(over_pipes, pipe, sig):
    assert over_pipes("sign", "--key", pipe.slowly(SECRET, 50), "--message", pipe.slowly(b"abc", 1)) == sig


@pytest.mark.slow
def test_check_over_a_pipe(over_pipes, pipe):
    assert over_pipes("check", "--key", pipe(SECRET)) == CONSISTENT


@pytest.mark.slow
def test_vectors_over_a_pipe(over_pipes, pipe):
    assert over_pipes("vectors", "--file", pipe(b"[]")) == NO_TESTS


@pytest.mark.slow
def test_pipe_of_several_pieces(over_pipes, pipe, sig_of_zeros):
    assert over_pipes("sign", "--key", "secret", "--message", pipe.slowly(bytes(20000), 3000)) == sig_of_zeros


@pytest.mark.slow
def test_standard_input_as_message_from_a_file(here, folder, sig_of_zeros):
    with open(folder / "zeros", "rb") as stdin:
        assert here("sign", "--key", "secret", "--message", "/dev/stdin", stdin=stdin) == sig_of_zeros


@pytest.mark.slow
def test_standard_input_as_message_from_a_pipe(here, sig_of_zeros):
    assert here("sign", "--key", "secret", "--message", "/dev/stdin", stdin=bytes(20000)) == sig_of_zeros


@pytest.mark.slow
def test_standard_input_as_signature(here, folder, sig_of_zeros):
    with open(folder / "sig_of_zeros", "rb") as stdin:
        words = ["verify", "--key", "public", "--message", "zeros", "--signature", "/dev/stdin"]
        assert here(*words, stdin=stdin) == VALID


@pytest.mark.slow
def test_one_file_as_message_and_signature(here):
    assert here("verify", "--key", "public", "--message", "zeros", "--signature", "zeros") == INVALID


@pytest.mark.slow
def test_seeds_from_a_slow_pipe(over_pipes, pipe):
    with open(pipe.slowly(SEEDS.encode(), 7).replace("/dev/fd/", "/proc/self/fd/"), "rb") as stdin:
        assert over_pipes(*KEYGEN, stdin=stdin) == Outcome(0, SECRET)


# ---- long files


@pytest.fixture(scope="module")
def gibibyte(folder, sig):
    """A file of 1 GiB that begins with a signature, and one of a byte more. They take no room on disk."""
    for name, size in ("long", 1 << 30), ("longer", (1 << 30) + 1):
        (folder / name).write_bytes(sig.output)
        os.truncate(folder / name, size)
    yield
    for name in "long", "longer":
        (folder / name).unlink()


@pytest.fixture
def in_20_mb(program, folder):
    """Runs the program in 20 MB of address space."""
    return lambda *words: run("bash", "-c", 'ulimit -v 20000 && exec "$0" "$@"', program, *words, cwd=folder)


@pytest.mark.slow
def test_signature_of_a_gibibyte_in_20_mb(in_20_mb, gibibyte):
    assert in_20_mb(*VERIFY[:-1], "long") == INVALID


@pytest.mark.slow
def test_signature_of_a_gibibyte_and_a_byte(here, gibibyte):
    assert here(*VERIFY[:-1], "longer") == refused("36 FileTooLong")


@pytest.mark.slow
def test_message_that_is_too_long_before_a_missing_signature(in_20_mb, gibibyte):
    words = ["verify", "--key", "public", "--message", "longer", "--signature", "none"]
    assert in_20_mb(*words) == refused("36 FileTooLong")


# ---- standard output and standard error


WRITERS = pytest.mark.parametrize("words", [["params"], SIGN, ["--help"], ["--version"]],
                                  ids=lambda it: it[0].strip("-"))


@pytest.mark.slow
@WRITERS
def test_closed_standard_output(here, words):
    assert here(*words, **closing(1)) == UNWRITTEN


@pytest.mark.slow
@WRITERS
def test_full_standard_output(here, words):
    with open("/dev/full", "wb") as full:
        assert here(*words, stdout=full) == UNWRITTEN


@pytest.mark.slow
def test_closed_standard_error(here):
    assert here("--nothing", **closing(2)) == Outcome(2)


@pytest.mark.slow
def test_full_standard_error(here):
    with open("/dev/full", "wb") as full:
        assert here("--nothing", stderr=full) == Outcome(2)


@pytest.mark.slow
def test_closed_standard_error_and_no_error(here):
    assert here("params", **closing(2)) == here("params")


@pytest.mark.slow
def test_both_closed(here):
    assert here("params", **closing(1, 2)) == Outcome(2)


# ---- much at once


@pytest.fixture(scope="module")
def much(folder):
    """The path of a message of 100 MB."""
    path = folder / "much"
    path.write_bytes(bytes(100_000_000))
    yield path
    path.unlink()


@pytest.mark.slow
def test_message_of_100_mb(here, much, tmp_path):
    signed = here("sign", "--key", "secret", "--message", much)
    assert signed == Outcome(0, signed.output) and len(signed.output) == 17088
    (tmp_path / "sig").write_bytes(signed.output)
    assert here("verify", "--key", "public", "--message", much, "--signature", tmp_path / "sig") == VALID


@pytest.mark.slow
def test_message_of_100_mb_in_the_prehash_form(over_pipes, pipe, much, tmp_path):
    form = ["--prehash", "SHA2-256"]
    (tmp_path / "sig").write_bytes(over_pipes("sign", "--key", "secret", "--message", much, *form).output)
    words = ["verify", "--key", "public", "--message", pipe(much.read_bytes()), "--signature", tmp_path / "sig"]
    assert over_pipes(*words, *form) == VALID


@pytest.mark.slow
@pytest.mark.parametrize("words", [[], ["--workers", "3"]], ids=["alone", "3-workers"])
def test_vector_file_of_6000_tests(here, tmp_path, words):
    test = {"kind": "verify", "set": SET, "pk": 64 * "0", "form": "pure", "message": "", "context": "", "signature": "",
            "valid": False}
    (tmp_path / "many").write_text(json.dumps(6000 * [test], separators=(",", ":")))
    report = "".join(f"test {it} verify {SET} pass\n" for it in range(1, 6001)) + "passed 6000 failed 0\n"
    assert here("vectors", "--file", tmp_path / "many", *words) == Outcome(0, report.encode())


@pytest.fixture(scope="module")
def of_most(slh, folder):
    """The key of the record with most jobs, and its signature, which is made in 73 jobs."""
    key = slh("keygen", "--set", MOST, stdin=SEEDS.encode())
    (folder / "secret_of_most").write_bytes(key.output)
    return key, slh("sign", "--key", "secret_of_most", "--message", "abc", cwd=folder)


@pytest.mark.slow
def test_sign_in_73_jobs(of_most):
    key, signed = of_most
    assert key == Outcome(0, key.output)
    assert signed == Outcome(0, signed.output) and len(signed.output) == 15424


@pytest.mark.slow
@pytest.mark.parametrize("workers", ["1", "64"])
def test_sign_in_18688_jobs(here, of_most, workers):
    words = ["sign", "--key", "secret_of_most", "--message", "abc", *MOST_LEVELS, "--workers", workers]
    assert here(*words) == of_most[1]


@pytest.mark.slow
@pytest.mark.parametrize("workers", ["1", "64"])
def test_keygen_in_256_jobs(here, of_most, workers):
    words = ["keygen", "--set", MOST, *MOST_LEVELS, "--workers", workers]
    assert here(*words, stdin=SEEDS.encode()) == of_most[0]


@pytest.mark.slow
def test_vector_file_of_100000_lists_in_one_another(here, tmp_path):
    (tmp_path / "deep").write_bytes(100_000 * b"[" + 100_000 * b"]")
    assert here("vectors", "--file", tmp_path / "deep") == refused("21 NotJson")


@pytest.fixture(scope="module")
def sig_of_context(slh, folder):
    """A signature under a context of 255 bytes."""
    path = folder / "sig_of_context"
    path.write_bytes(slh(*SIGN, "--context", 255 * "a5", cwd=folder).output)
    return path


@pytest.mark.slow
@pytest.mark.parametrize("size, outcome", [(255, VALID), (254, INVALID)])
def test_context_of_255_bytes(here, sig_of_context, size, outcome):
    assert here(*VERIFY[:-1], sig_of_context, "--context", size * "a5") == outcome


@pytest.mark.slow
def test_context_of_256_bytes(here):
    assert here(*SIGN, "--context", 256 * "a5") == refused("2 ContextTooLong")


# ---- reads and writes that a signal interrupts: the output is whole all the same


@pytest.fixture
def interrupted(here, compiled, tmp_path):
    """Runs the program, whose reads and writes are interrupted; a write has to be, at least."""
    library = compiled("interrupt.so", "-O2", "-shared", "-fPIC", TESTS / "interrupt.c", "-ldl")

    def runs(*words):
        told = tmp_path / "interrupted"
        env = {**os.environ, "INTERRUPTED": str(told), "LD_PRELOAD": str(library)}
        outcome = here(*words, stdin=SEEDS.encode(), env=env)
        assert told.exists(), "no write was interrupted"
        return outcome

    return runs


@pytest.mark.slow
@pytest.mark.parametrize("words, outcome", [
    pytest.param(["root", "--set", SET], Outcome(0, f"{SEEDS[64:]}{ROOT}\n".encode()), id="root"),
    pytest.param(KEYGEN, Outcome(0, SECRET), id="keygen"),
    pytest.param([*KEYGEN, "--workers", "2", "--xmss-levels", "1"], Outcome(0, SECRET), id="keygen-2-workers"),
    pytest.param(["public", "--key", "secret"], Outcome(0, PUBLIC), id="public"),
    pytest.param(["check", "--key", "secret"], CONSISTENT, id="check"),
    pytest.param(["upgrade", "--key", "secret_1"], Outcome(0, SECRET), id="upgrade"),
    pytest.param(VERIFY, VALID, id="verify"),
    pytest.param(["vectors", "--file", "tests"], NO_TESTS, id="vectors"),
    pytest.param([*VERIFY[:4], "zeros", *VERIFY[5:]], INVALID, id="verify-invalid"),
    pytest.param(["--nothing"], BAD_WORDS, id="refusal"),
])
def test_interrupted(interrupted, words, outcome):
    assert interrupted(*words) == outcome


@pytest.mark.slow
@pytest.mark.parametrize("words", [["params"], ["--help"]], ids=lambda it: it[0].strip("-"))
def test_interrupted_as_without(interrupted, here, words):
    assert interrupted(*words) == here(*words)


@pytest.mark.slow
@pytest.mark.parametrize("words", [[], ["--workers", "2"]], ids=["alone", "2-workers"])
def test_interrupted_sign(interrupted, sig, words):
    assert interrupted(*SIGN, *words) == sig


# ---- threads: as many as workers, the first one among them


@pytest.fixture(scope="module")
def long_work(folder):
    """Work for some seconds: trees of 4,096 leaves of long chains, and tests by the hundred."""
    (folder / "long_secret").write_text(f"slh-dsa-secret 2\n{LONG}\n{SEEDS}{ROOT}\n")
    test = {"kind": "keygen", "set": "SLH-DSA-SHA2-256s", "skSeed": 64 * "0", "skPrf": 64 * "0", "pkSeed": 64 * "0",
            "sk": 256 * "0", "pk": 128 * "0"}
    (folder / "long_tests").write_text(json.dumps(300 * [test], separators=(",", ":")))


def threads_of(process):
    try:
        return len(os.listdir(f"/proc/{process.pid}/task"))
    except OSError:
        return 0


def most_threads(process, wanted):
    """The most threads that a process has until it ends, or has been seen 10 times with as many as are wanted."""
    most = after = 0
    while process.poll() is None:
        most = max(most, threads_of(process))
        after += most >= wanted
        if after == 10:
            break
        time.sleep(0.01)
    return most


# Each of several workers has a thread of its own. Other threads, the first of the program among them, start these and
# do no work: one for each list of two seats or more that a thread is started for. So they are 2 for 3 workers (lists of
# 3 and 2) and 5 for 9 (9, 5, 3, 2 and 2).
@pytest.mark.slow
@pytest.mark.parametrize("workers, threads", [([], 1), (["1"], 1), (["3"], 5), (["9"], 14)],
                         ids=["alone", "1-worker", "3-workers", "9-workers"])
@pytest.mark.parametrize("words", [
    ["sign", "--key", "long_secret", "--message", "abc", "--xmss-levels", "8"],
    ["keygen", "--set", LONG, "--xmss-levels", "8"],
    ["vectors", "--file", "long_tests"],
], ids=lambda it: it[0])
def test_threads(program, folder, long_work, words, workers, threads):
    words = [program, *words, *(["--workers", *workers] if workers else [])]
    with open(folder / "seeds", "rb") as stdin:
        process = subprocess.Popen(words, cwd=folder, stdin=stdin, stdout=subprocess.DEVNULL,
                                   stderr=subprocess.DEVNULL)
    try:
        assert most_threads(process, threads) == threads
    finally:
        process.kill()
        process.wait()


# ---- help, whose sentences no clause states

COMMANDS = ["params", "root", "keygen", "public", "check", "upgrade", "sign", "verify", "vectors"]


def sentences(told):
    """The commands that help lists, each with its sentence."""
    listed = told[told.index("Commands:"):].split("\n\n")[0]
    return dict(re.findall(r"^  ([a-z]+) +([A-Z].*)$", listed, re.MULTILINE))


@pytest.mark.slow
def test_help_introduces_the_program(here):
    told = here("--help").output.decode()
    version = (HERE / "VERSION").read_text().strip()
    assert told.splitlines()[0] == f"slh {version}: keys and signatures of SLH-DSA (FIPS 205) with SHA-2"
    assert re.search("^Exit status: 0 for done", told, re.MULTILINE)


@pytest.mark.slow
def test_help_has_a_sentence_for_each_command(here):
    assert sorted(sentences(here("--help").output.decode())) == sorted([*COMMANDS, "help"])


@pytest.mark.slow
@pytest.mark.parametrize("command", COMMANDS)
def test_help_of_a_command(here, command):
    """Help begins with the command's sentence, explains each option, and ends in an example of the command."""
    told = here(command, "--help")
    lines = told.output.decode().splitlines()
    assert told == Outcome(0, told.output)
    assert lines[0] == sentences(here("--help").output.decode())[command]
    options = [it for it in lines if re.search("^ .*--", it)]
    assert options and all(re.fullmatch(r" +(-h, )?--[a-z-]+( <[A-Z]+>)? +[A-Z][^<>]+", it) for it in options)
    first = next(k for k, line in enumerate(lines) if line.startswith("Example: "))
    example = re.compile(rf"(Example: )?(openssl rand -hex [0-9]+ \| )?slh {command} ")
    assert any(example.match(line) for line in lines[first:])
