"""Tests that programs of old releases work with the shared object of the tested release: compiled with old headers,
they make each call of 0.9.1, and share the jobs of a signature with new programs. Key files, starts and answers of an
unknown version are refused by name. The expected bytes are vectors of OpenSSL, and HMAC of Python.

The old headers and shared objects come from the history of dist/: a clone without it skips their tests.
"""
import ctypes
import hashlib
import hmac
import json
import re
import sys

import pytest

from conftest import released
from packages import call
from support import HERE, TESTS, VECTORS, need, passed_by, refused, run, succeed

STRICT = ("-std=c99", "-Wall", "-Wextra", "-Werror", "-pedantic")
OLD = ("0.9.1", "0.13.0")
# The shared object that programs of these releases load. tools/version.py does not change this name.
OLD_NAME = f"libslh.so.{0}"
# The set 128f: its number in C, n, and the six numbers of its record.
SET, N, SIX = 2, 16, bytes([16, 4, 3, 22, 6, 33])
LEVELS = (1, 1)
ENCODING = 2
BAD_START, ANSWERS_DISAGREE = 28, 25


# ---- releases


@pytest.fixture(scope="session")
def old_release(tmp_path_factory):
    """Takes the headers and the shared object of a version out of the history: old_release(VERSION) is the folder."""
    found = {}

    def takes(version):
        if version not in found:
            commit = commit_of(version)
            found[version] = tmp_path_factory.mktemp("old")
            words = "git -C \"$0\" archive \"$1\" dist/include dist/x86-64 | tar -C \"$2\" -xf -"
            succeed("bash", "-o", "pipefail", "-c", words, HERE, commit, found[version])
        return found[version] / "dist"

    return takes


def commit_of(version):
    """The newest commit whose dist/ is the release of a version."""
    need("git")
    for commit in run("git", "-C", HERE, "log", "--format=%H", "--", "dist/BUILD").output.decode().split():
        if f"version {version}\n".encode() in run("git", "-C", HERE, "show", f"{commit}:dist/BUILD").output:
            return commit
    pytest.skip(f"the history has no release {version} (git fetch --unshallow)")


@pytest.fixture(scope="session")
def shared(release):
    """The shared object of the tested release."""
    return next((release / "x86-64").glob("libslh.so.*"))


@pytest.fixture(scope="session")
def with_versions(release, tmp_path_factory):
    """That of its archive with versions of symbols, by tools/symbols.sh. Releases up to 0.13.0 have none."""
    need("cc")
    folder = tmp_path_factory.mktemp("versions")
    (folder / "symbols").write_bytes(succeed(HERE / "tools/symbols.sh"))
    (folder / "other.c").write_text("int slh_other(void) { return 0; }\n")  # no call, so that it is hidden
    words = ["-shared", "-fPIC", f"-Wl,--version-script={folder}/symbols", folder / "other.c"]
    succeed("cc", *words, "-Wl,--whole-archive", release / "x86-64/libslh.a", "-Wl,--no-whole-archive", "-o",
            folder / "libslh.so")
    return folder / "libslh.so"


# ---- symbols


def symbols_of(path):
    """The exported names, each with the version of its symbol."""
    need("nm")
    lines = succeed("nm", "-D", "--defined-only", path).decode().splitlines()
    return {it.split()[-1] for it in lines if it.split()[-2] != "A"}


def calls_with(version):
    """Each public call with a version, by the headers."""
    text = "".join((HERE / f"c/include/{it}").read_text() for it in ("slh.h", "slh_verify.h", "slh_internal.h"))
    names = re.findall(r"^(?:uint32_t|void|const char \*) ?(slh_\w+)\(", text, re.M)
    assert len(names) > 30
    return {f"{it}@@{version}" for it in names}


def number():
    return (HERE / "VERSION").read_text().split(".")[0]


def test_each_call_has_the_version_of_its_symbol(with_versions):
    """And nothing else is exported."""
    assert symbols_of(with_versions) == calls_with(f"SLH_{number()}")


def test_shared_object_has_versions(pytestconfig, shared):
    if released(pytestconfig, "has_sources_of_release") is None:
        pytest.skip("the release is of other sources (tools/release.sh makes one of these)")
    assert symbols_of(shared) == calls_with(f"SLH_{number()}")


@pytest.mark.parametrize("version", ["1.0.0", "12.3.4"])
def test_the_version_of_symbols_follows_the_file(tmp_path, version):
    """And so does the name of the shared object in the table of targets."""
    (tmp_path / "tools").mkdir()
    (tmp_path / "c/exports").mkdir(parents=True)
    for file in ("tools/symbols.sh", "tools/kit.py", "tools/targets.py", "c/exports/calls.h", "crates.txt"):
        (tmp_path / file).write_bytes((HERE / file).read_bytes())
        (tmp_path / file).chmod(0o755)
    (tmp_path / "VERSION").write_text(f"{version}\n")
    major = version.split(".")[0]
    assert succeed(tmp_path / "tools/symbols.sh").decode().startswith(f"SLH_{major} {{\n")
    shared = "import targets; print(targets.TARGETS['aarch64'].shared)"
    assert succeed(sys.executable, "-c", shared, cwd=tmp_path / "tools").decode() == f"libslh.so.{major}\n"


# ---- programs


@pytest.fixture
def work(tmp_path):
    """A folder with the files that begin the test: a signature of OpenSSL in the deterministic variant."""
    tests = json.loads((VECTORS / "slh-dsa-sha2-128f.json").read_text())
    test = next(it for it in tests if it["kind"] == "sign" and it["form"] == "pure" and it["context"]
                and not it["random"])
    for name, member in {"sk": "sk", "msg": "message", "ctx": "context", "sig": "signature"}.items():
        (tmp_path / name).write_bytes(bytes.fromhex(test[member]))
    return tmp_path


@pytest.fixture
def program_of(old_release, compiled):
    """Compiles the program with the headers and the shared object of an old release: program_of(VERSION)."""

    def compiles(version):
        release = old_release(version)
        return compiled("old_programs", *STRICT, "-I", release / "include", TESTS / "old_programs.c",
                        release / "x86-64" / OLD_NAME)

    return compiles


def run_with(library, program, folder, *words):
    """Runs a program of an old release with a shared object under the name that the program asks for."""
    place = folder / f"lib-{library.parent.name}-{library.name}"
    place.mkdir(exist_ok=True)
    (place / OLD_NAME).unlink(missing_ok=True)
    (place / OLD_NAME).symlink_to(library.resolve())
    return run("env", f"LD_LIBRARY_PATH={place}", program, folder, *words)


@pytest.mark.parametrize("library", ["shared", "with_versions"])
@pytest.mark.parametrize("version", OLD)
def test_program_of_an_old_release_makes_its_calls(request, program_of, work, version, library):
    """No loader warns it, and all bytes are as they were."""
    outcome = run_with(request.getfixturevalue(library), program_of(version), work, "calls")
    assert passed_by(outcome) == 17 and outcome.errors == b""


@pytest.mark.parametrize("version", OLD)
def test_jobs_of_an_old_release_mix_with_new_ones(old_release, program_of, shared, work, version):
    """Whichever of the two makes the start, a half of the jobs, or the signature."""
    program, old = program_of(version), old_release(version) / "x86-64" / OLD_NAME
    for libraries in ((old, shared, old, shared), (shared, old, shared, old), (old, old, shared, old)):
        commands = (("start",), ("jobs", "0"), ("jobs", "1"), ("join",))
        for library, words in zip(libraries, commands):
            assert run_with(library, program, work, *words) == (0, b"", b"")
        assert (work / "joined").read_bytes() == (work / "sig").read_bytes()
        (work / "joined").unlink()


# ---- unknown versions


def tag(sk, kind, encoding, rest):
    """A tag of crates/slh_jobs/README.md, with this number of the encoding."""
    seed, prf, pk_seed = (sk[it * N : (it + 1) * N] for it in range(3))
    text = bytes([kind, encoding]) + SIX + rest
    return hmac.new(prf + seed + pk_seed + b"\1", text, hashlib.sha256).digest()[:N]


def start_of(sk, start, encoding):
    """A start with the tag of an encoding."""
    return start[:-N] + tag(sk, 1, encoding, sk[3 * N :] + start[:-N])


def answer_of(sk, start, job, answer, encoding):
    """The answer of a job with the tag of an encoding."""
    rest = start + bytes(LEVELS) + job.to_bytes(4, "big") + answer[:N]
    return answer[:N] + tag(sk, 2, encoding, rest) + answer[2 * N :]


class Signing:
    """A signature by jobs through ctypes."""

    def __init__(self, library, sk):
        self.library, self.sk = library, sk
        self.jobs, start_len, answers_len = ctypes.c_uint32(), ctypes.c_size_t(), ctypes.c_size_t()
        call(library, "slh_sign_jobs", SET, *LEVELS, *map(ctypes.byref, (self.jobs, start_len, answers_len)))
        start = ctypes.create_string_buffer(start_len.value)
        call(library, "slh_sign_start", SET, sk, b"letter", b"", b"", start)
        self.start, self.answers_len = start.raw, answers_len.value

    def job(self, job, start):
        """The result and the answer of a job."""
        at, length = ctypes.c_size_t(), ctypes.c_size_t()
        call(self.library, "slh_answer_place", SET, *LEVELS, job, ctypes.byref(at), ctypes.byref(length))
        answer = ctypes.create_string_buffer(length.value)
        return self.call("slh_sign_job", start, job, answer), answer.raw

    def join(self, answers):
        return self.call("slh_sign_join", self.start, answers, ctypes.create_string_buffer(17088))

    def call(self, name, *arguments):
        """The result of a call of jobs: each argument of bytes has its length behind it."""
        words = []
        for it in (self.sk, *arguments):
            words += [it] if isinstance(it, int) else [it, ctypes.c_size_t(len(it))]
        return getattr(self.library, name)(SET, *LEVELS, *words)

    def name_of(self, result):
        name = ctypes.create_string_buffer(20)
        call(self.library, "slh_refusal_name", result, name)
        return name.value.decode()


@pytest.fixture
def signing(shared, work):
    return Signing(ctypes.CDLL(str(shared)), (work / "sk").read_bytes())


def test_starts_and_answers_have_the_number_of_their_format(signing):
    """The tags are those that this test computes."""
    assert start_of(signing.sk, signing.start, ENCODING) == signing.start
    result, answer = signing.job(0, signing.start)
    assert result == 0 and answer_of(signing.sk, signing.start, 0, answer, ENCODING) == answer


@pytest.mark.parametrize("encoding", [0, 1, 3, 255])
def test_start_of_another_format_is_refused(signing, encoding):
    other = start_of(signing.sk, signing.start, encoding)
    assert signing.job(0, other)[0] == BAD_START and signing.name_of(BAD_START) == "BadStart"


@pytest.mark.parametrize("encoding, result", [(ENCODING, 0), (1, ANSWERS_DISAGREE), (3, ANSWERS_DISAGREE)])
def test_answer_of_another_format_is_refused(signing, encoding, result):
    """One answer is enough."""
    answers = [signing.job(it, signing.start)[1] for it in range(signing.jobs.value)]
    answers[5] = answer_of(signing.sk, signing.start, 5, answers[5], encoding)
    assert sum(map(len, answers)) == signing.answers_len
    assert signing.join(b"".join(answers)) == result
    assert signing.name_of(ANSWERS_DISAGREE) == "AnswersDisagree"


@pytest.mark.parametrize("version", [0, 1, 2, 3, 12])
@pytest.mark.parametrize("kind", ["public", "secret"])
def test_key_file_of_another_version_is_refused(slh, work, kind, version):
    """Versions 1 and 2 are read, and no other."""
    sk = (work / "sk").read_bytes()
    digits = (sk if kind == "secret" else sk[2 * N :]).hex()
    (work / "key").write_text(f"slh-dsa-{kind} {version}\nSLH-DSA-SHA2-128f\n{digits}\n")
    outcome = slh("upgrade", "--key", work / "key")
    if version in (1, 2):
        assert outcome == (0, f"slh-dsa-{kind} 2\nSLH-DSA-SHA2-128f\n{digits}\n".encode(), b"")
    else:
        assert outcome == refused("11 NotAKeyFile")
