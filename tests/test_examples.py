"""Tests the examples that sign and verify one file: sign_file.* and sign_threads.* of examples/, and verify_image.c.

Each is compiled or run as its head says. Its signature has to be valid under the public key that it writes; what it
can't read, and words that it does not take, it has to name. examples_memory.py reads the memory of each that has a
secret key, while it writes the signature.
"""
import ctypes
import json
import re
import sys

import pytest

import machines
from conftest import STRICT
from support import HERE, SANITIZED, TESTS, VECTORS, need, run, succeed, tool_of

EXAMPLES = HERE / "examples"
LETTER = b"a letter\nof two lines"
SET, SK = 2, 64
SIGNING = ["c", "shared", "cpp", "rust", "python"]
BY_THREADS = ["c", "rust"]
# free() of a library that is loaded before an example: what is freed stays in memory.
KEEPING = "void free(void *bytes) { (void)bytes; }\n"


@pytest.fixture(autouse=True)
def without_search_for_leaks(monkeypatch):
    monkeypatch.setenv("ASAN_OPTIONS", "detect_leaks=0")


@pytest.fixture(scope="module")
def compiled_in_c(compiled, installed):
    """Compiles an example in C or C++ over libslh.a: compiled_in_c(NAME, WORD..)."""

    def compiles(name, *words):
        cc, standard = (tool_of("g++"), "c++17") if name.endswith(".cpp") else (tool_of("cc"), "c99")
        return compiled("example", f"-std={standard}", *STRICT, *words, EXAMPLES / name, "-I", installed / "include",
                        installed / "lib/libslh.a", "-pthread", cc=cc)

    return compiles


@pytest.fixture(scope="module")
def compiled_in_rust(lib, tmp_path_factory):
    """Compiles an example in Rust, once."""
    made = {}

    def compiles(name):
        rustc = tool_of("rustc")
        need(rustc)
        if name not in made:
            made[name] = tmp_path_factory.mktemp("rust") / "example"
            succeed(rustc, "-D", "warnings", "-O", "-L", f"native={lib}", "-o", made[name], EXAMPLES / name)
        return made[name]

    return compiles


@pytest.fixture(scope="module")
def over_shared_object(compiled, installed, lib):
    """The words that run the C example over the shared object, compiled with what pkg-config says."""
    need("pkg-config")
    said = succeed("env", f"PKG_CONFIG_PATH={lib}/pkgconfig", "pkg-config", "--cflags", "--libs", "slh").decode()
    folders = {it[:2]: (lib / "pkgconfig" / it[2:]).resolve() for it in said.split() if it[:2] in ("-I", "-L")}
    assert folders == {"-I": installed / "include", "-L": lib} and said.split()[-1] == "-lslh"
    program = compiled("example", EXAMPLES / "sign_file.c", "-I", folders["-I"], lib / "libslh.so")
    return ["env", f"LD_LIBRARY_PATH={lib}", program]


@pytest.fixture
def signing(request, lib):
    """The words that run an example that signs a file, but for the file: signing(LANGUAGE, WORD.. for a compiler)."""

    def command(language, *words):
        if language == "python":
            return [sys.executable, EXAMPLES / "sign_file.py", lib / "libslh.so"]
        if language == "shared":
            return request.getfixturevalue("over_shared_object")
        if language == "rust":
            return [request.getfixturevalue("compiled_in_rust")("sign_file.rs")]
        return [request.getfixturevalue("compiled_in_c")(f"sign_file.{language}", *words)]

    return command


@pytest.fixture
def by_threads(request):
    """The program of an example that signs by threads: by_threads(LANGUAGE, WORD.. for a compiler)."""

    def program(language, *words):
        if language == "rust":
            return request.getfixturevalue("compiled_in_rust")("sign_threads.rs")
        return request.getfixturevalue("compiled_in_c")("sign_threads.c", *words)

    return program


@pytest.fixture
def letter(tmp_path):
    (tmp_path / "letter").write_bytes(LETTER)
    return tmp_path / "letter"


def beside(letter, suffix):
    return letter.with_name(letter.name + suffix)


def is_valid_beside(lib, letter):
    """Whether the signature beside the letter is valid under the public key beside it, a key file as docs/FORMATS.md
    has it."""
    key = re.fullmatch(rb"slh-dsa-public 2\nSLH-DSA-SHA2-128f\n([0-9a-f]{64})\n", beside(letter, ".pub").read_bytes())
    texts = [bytes.fromhex(key[1].decode()), letter.read_bytes(), b"", beside(letter, ".sig").read_bytes()]
    words = [it for text in texts for it in (text, ctypes.c_size_t(len(text)))]
    return ctypes.CDLL(str(lib / "libslh.so")).slh_verify(SET, *words) == 0


def tells(text, *words):
    """Whether a command ends with status 2, writes nothing to standard output, and this text to standard error."""
    status, output, errors = run(*words)
    return status == 2 and not output and str(text).encode() in errors


# ---- one file


@pytest.mark.parametrize("language", ["c", *(pytest.param(it, marks=pytest.mark.slow) for it in SIGNING[1:])])
def test_signature_of_a_file_is_valid(signing, lib, letter, language):
    assert run(*signing(language, *SANITIZED), letter) == (0, b"valid\n", b"")
    assert is_valid_beside(lib, letter)


@pytest.mark.slow
@pytest.mark.parametrize("language", SIGNING)
def test_file_that_cannot_be_read_is_named(signing, tmp_path, language):
    """So is a folder, and how the example is called without a file."""
    command = signing(language, *SANITIZED)
    assert tells("no_such_file", *command, tmp_path / "no_such_file")
    assert tells(tmp_path, *command, tmp_path) and tells("usage:", *command)


def test_examples_are_short():
    """Each that signs a file has under 90 lines."""
    lines = {it.name: it.read_text().count("\n") for it in EXAMPLES.glob("sign_file.*")}
    assert len(lines) == 4 and max(lines.values()) < 90, lines


# ---- an image


@pytest.fixture(scope="module")
def image(tmp_path_factory):
    return machines.make_image(tmp_path_factory.mktemp("image"))


@pytest.fixture
def here():
    """This machine, as machines.py takes one."""
    return machines.Machine("x86-64", tool_of("cc"), SANITIZED)


@pytest.mark.slow
def test_verify_image_judges_images(compiled, here, installed, lib, image):
    machines.example_judges_images(compiled, here, installed / "include", lib / "libslh_verify.a", image)


@pytest.mark.slow
def test_verify_image_takes_just_the_bytes_of_a_key(here, installed, image, tmp_path):
    machines.example_takes_whole_keys(here, installed / "include", image, tmp_path)


# ---- threads


def pure_tests():
    """The tests of signing in the pure form under the empty context, that OpenSSL made."""
    wanted = dict(kind="sign", form="pure", context="")
    return [it for it in json.loads((VECTORS / "slh-dsa-sha2-128f.json").read_text()) if wanted.items() <= it.items()]


class Signing:
    """Runs of an example by threads over a key, a letter and random bytes in a folder."""

    def __init__(self, program, folder):
        self.program, self.folder = program, folder
        self.letter = folder / "letter"

    def write(self, test):
        """The deterministic variant takes PK.seed as its randomizer. Returns the secret key."""
        sk = bytes.fromhex(test["sk"])
        (self.folder / "key").write_bytes(sk)
        (self.folder / "random").write_bytes(bytes.fromhex(test["random"]) or sk[32:48])
        self.letter.write_bytes(bytes.fromhex(test["message"]))
        return sk

    def run(self, threads, *more):
        """The status, the output, the signature and the public key, of which both may be missing."""
        files = [beside(self.letter, it) for it in (".sig", ".pub")]
        for it in files:
            it.unlink(missing_ok=True)
        words = [self.folder / it for it in ("key", "letter", *more)]
        status, output, _ = run(self.program, str(threads), *words)
        return status, output, *(it.read_bytes() if it.exists() else None for it in files)


@pytest.mark.slow
@pytest.mark.parametrize("threads", [1, 2, 4])
@pytest.mark.parametrize("language", BY_THREADS)
def test_threads_give_the_signatures_of_the_vectors(by_threads, lib, tmp_path, language, threads):
    signing, tests = Signing(by_threads(language, *SANITIZED), tmp_path), pure_tests()
    assert len(tests) > 2
    for test in tests:
        sk = signing.write(test)
        public = b"slh-dsa-public 2\nSLH-DSA-SHA2-128f\n%s\n" % sk[32:].hex().encode()
        assert signing.run(threads, "random") == (0, b"valid\n", bytes.fromhex(test["signature"]), public)
    assert is_valid_beside(lib, signing.letter)


@pytest.mark.slow
@pytest.mark.parametrize("language", BY_THREADS)
def test_threads_refuse_a_damaged_key(by_threads, tmp_path, language):
    """PK.root is not that of its seeds: nothing is written."""
    signing = Signing(by_threads(language, *SANITIZED), tmp_path)
    sk = signing.write(pure_tests()[-1])
    (tmp_path / "key").write_bytes(sk[:-1] + bytes([sk[-1] ^ 1]))
    status, *written = signing.run(2, "random")
    assert status != 0 and written == [b"", None, None]


@pytest.mark.slow
@pytest.mark.parametrize("language", BY_THREADS)
def test_threads_take_random_bytes(by_threads, lib, tmp_path, language):
    """Without a randomizer each signature is another one, and valid."""
    signing, found = Signing(by_threads(language, *SANITIZED), tmp_path), {pure_tests()[-1]["signature"]}
    signing.write(pure_tests()[-1])
    for _ in range(2):
        status, _, signature, _ = signing.run(2)
        assert status == 0 and is_valid_beside(lib, signing.letter)
        found.add(signature.hex())
    assert len(found) == 3


@pytest.mark.slow
@pytest.mark.parametrize("language", BY_THREADS)
def test_threads_tell_what_they_cannot_read(by_threads, letter, tmp_path, language):
    program, key, short, none = by_threads(language, *SANITIZED), tmp_path / "key", tmp_path / "short", "no_such_file"
    key.write_bytes(bytes(SK))
    short.write_bytes(b"a letter")
    assert tells("usage:", program) and tells(none, program, "2", tmp_path / none, letter)
    assert tells("short", program, "2", short, letter) and tells(none, program, "2", key, tmp_path / none)


# ---- secret keys in memory


def erases(lib, letter, environment, *command):
    """An example has erased the secret key when it writes its signature, also in what it has freed."""
    words = [sys.executable, TESTS / "examples_memory.py", lib / "libslh.so.1", letter]
    said = succeed(*words, "env", *environment, *command)
    assert re.search(rb"the public key is in memory [1-9]\d* times, and 0 times it is the end", said)


@pytest.fixture
def keeping(compiled, tmp_path):
    """The variable that lets a program keep what it frees."""
    (tmp_path / "kept.c").write_text(KEEPING)
    return ["LD_PRELOAD=" + str(compiled("kept.so", "-shared", "-fPIC", "-fno-builtin", tmp_path / "kept.c"))]


# A sanitizer's memory is too large to read.
@pytest.mark.usefixtures("built_by_the_kit")
@pytest.mark.slow
@pytest.mark.parametrize("language", [it for it in SIGNING if it != "shared"])
def test_secret_key_is_erased(signing, lib, letter, keeping, language):
    erases(lib, letter, keeping, *signing(language, "-O2"), letter)


@pytest.mark.usefixtures("built_by_the_kit")
@pytest.mark.slow
@pytest.mark.parametrize("language", BY_THREADS)
def test_secret_key_of_threads_is_erased(by_threads, lib, letter, keeping, tmp_path, language):
    (tmp_path / "key").write_bytes(bytes.fromhex(pure_tests()[0]["sk"]))
    erases(lib, letter, keeping, by_threads(language, "-O2"), "2", tmp_path / "key", letter)
