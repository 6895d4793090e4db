"""What the tests of the library for C on several machines share: its calls, the symbols of its archives, programs over
them, and the vectors through these programs."""
import json
import os
import re
import shutil
import sys
import typing
import zipfile

import pytest

from conftest import STRICT, chosen_release, released
from support import HERE, TESTS, VECTORS, need, run, succeed

COUNTS = re.compile(r"(\d+) passed, (\d+) failed(?:, \d+ skipped)?")

# The proved calls; the libraries, and not the modules for WebAssembly, have three more.
CALLS = [f"slh_{it}" for it in """
    answer_place check der_read der_write hash_sign hash_sign_digest hash_sign_digest_twice hash_sign_start
    hash_sign_twice hash_verify hash_verify_digest hash_verify_digest_hardened key_read key_write keygen keygen_job
    keygen_jobs keygen_join lengths pem_read pem_write public refusal_name self_test sign sign_internal sign_job
    sign_jobs sign_join sign_start sign_twice verify verify_front verify_hardened verify_hashed verify_internal verify_many version""".split()]
LIBRARY_CALLS = sorted([*CALLS, "slh_erase", "slh_level", "slh_refusal_text"])
VERIFY_CALLS = [f"slh_{it}" for it in
                "hash_verify hash_verify_digest hash_verify_digest_hardened verify verify_hardened version".split()]
# What a library asks of C, and what a compiler may call as it does these.
OF_C = ["memcpy", "memmove", "memset"]
ALSO_OF_C = ["memcmp", "bcmp"]
OF_RUNTIME = re.compile("_ITM_|__cxa_finalize|__gmon_start__")

# The names of its own that an archive of several objects defines.
OF_ARCHIVE = re.compile(
    r"slh_(\w+_(v[234]|proved)|clear|choice|choose|has_sha|ask_processor|sha(256|512)|probe|mem(cpy|move|set))")

# The targets of which SLH_SEED draws one. The test commands of a release and of a few tests run all, as --all does.
OTHERS = [] if os.environ.get("SLH_MODE") in ("release", "few") else [pytest.mark.drawn("the other target", "target")]


INVALID, BAD_SET, BAD_FUNCTION, HARDENED_INVALID = 30, 8, 9, 0x7C91D87F


# ---- counts


def counted(*words, **options):
    """Runs a program whose last line has counts. It has to end with 0, some have to pass, and none may fail."""
    done = run(*words, **{"timeout": 7200, **options})
    said = (done.output + done.errors).decode(errors="replace")[-4000:]
    last = (done.output.decode(errors="replace").splitlines() or [""])[-1].strip()
    counts = COUNTS.fullmatch(last)
    assert counts, f"it printed no counts, and ended with status {done.status}:\n{said}"
    passed, failed = int(counts[1]), int(counts[2])
    assert done.status == failed == 0 and passed > 0, f"status {done.status}, {last}:\n{said}"


def text_of(outcome):
    """The status of a run and the text of its output, whose lines end as they do here."""
    return outcome.status, outcome.output.decode(errors="replace").replace("\r\n", "\n").rstrip("\n")


def numbers_are_those_of(target, folder):
    """The numbers of the documents about a target are those of what is installed in a folder."""
    counted(sys.executable, HERE / "tools/numbers.py", "--check", f"{target}={folder}")


# ---- what is installed


def for_target(pytestconfig, install, target):
    """The prefix of the library for a target, of a release that has it."""
    release = chosen_release(pytestconfig)
    if release and f"  {target}/" not in (release / "SHA256SUMS").read_text():
        pytest.skip(f"the release has nothing for {target}")
    return install(target)


class Machine(typing.NamedTuple):
    """A machine whose programs run here: its compiler, the compiler's words, and the command that runs a program."""

    name: str
    cc: str
    words: tuple = ()
    runs: tuple = ()

    def tool(self, name):
        """The command of binutils for this machine: that of the compiler, since others may not read its archives."""
        need(self.cc)
        return succeed(self.cc, f"-print-prog-name={name}").decode().strip()


def emulator(*names):
    """The command of an emulator, by the first of its names that is there."""
    found = next((it for it in names if shutil.which(it)), None)
    if found is None:
        need(names[0])
    return found


def cross_compiler(target, triple):
    """The command of GCC for a target. AARCH64_CC names another one for 64-bit ARM."""
    return os.environ.get("AARCH64_CC", f"{triple}-gcc") if target == "aarch64" else f"{triple}-gcc"


def qemu(name):
    return emulator(f"qemu-{name}", f"qemu-{name}-static")


def qemu_with_sha(processor):
    """The words of an emulator of x86-64 that knows SHA instructions, for a processor of its own."""
    need("qemu-x86_64-10")
    return "qemu-x86_64-10", "-cpu", processor


# ---- symbols


def lines_of_nm(nm, *words):
    """The kind and the name of each symbol that nm lists."""
    lines = [it.split() for it in succeed(nm, *words).decode().splitlines()]
    return [it[-2:] for it in lines if len(it) in (2, 3)]


def symbols(nm, *words):
    """The symbols that others than a file see, as `T slh_sign`, without what C's runtime adds to each shared object."""
    found = [(kind, name.split("@")[0]) for kind, name in lines_of_nm(nm, *words) if kind.isupper()]
    return sorted(f"{kind} {name}" for kind, name in found if not (kind == "W" and OF_RUNTIME.match(name))
                  and not (kind == "U" and name in ALSO_OF_C))


def is_closed(nm, archive, mark="", others=()):
    """An archive of several objects defines the calls and names of its own, and asks for nothing that is not of C or
    one of OTHERS. On macOS a name begins with a mark."""
    found = {(kind, name[len(mark):]) for kind, name in lines_of_nm(nm, archive)}
    defined = {name for kind, name in found if kind in "TDSBC"}
    assert [it for it in LIBRARY_CALLS if ("T", it) not in found] == []
    assert sorted(it for it in defined - set(LIBRARY_CALLS) if not OF_ARCHIVE.fullmatch(it)) == []
    assert sorted({name for kind, name in found if kind == "U"} - defined - {*OF_C, *ALSO_OF_C, *others}) == []


def notes(readelf, file):
    """What readelf shows of the notes of a file."""
    return succeed(readelf, "-nW", file).decode()


def first_instructions(objdump, file):
    """The name of each function of a file, with the name of its first instruction."""
    text = succeed(objdump, "-d", "--no-show-raw-insn", file).decode()
    found = re.findall(r"^[0-9a-f]+ <([^>]+)>:\n *[0-9a-f]+:\t(\S+)", text, re.M)
    return {name.partition("@")[0]: instruction for name, instruction in found}


def of_kind(kind, names):
    return [f"{kind} {it}" for it in names]


def with_weak(machine, archive, other, *names):
    """Writes an archive to OTHER, in which names that nobody else sees are seen, and weak: a program that is linked
    with it can bring its own. The result is checked, since objcopy may change nothing and end with 0. An archive for
    Windows has each such name in an object of its own, which is not linked if a program brings the name."""
    nm, objcopy = machine.tool("nm"), machine.tool("objcopy")
    if sum(kind in "TB" and name in names for kind, name in lines_of_nm(nm, archive)) == len(names):
        shutil.copy(archive, other)
        return
    seen = other.with_suffix(".seen")
    succeed(objcopy, *(f"--globalize-symbol={it}" for it in names), archive, seen)
    succeed(objcopy, *(f"--weaken-symbol={it}" for it in names), seen, other)
    kinds = {name: kind for kind, name in lines_of_nm(nm, other)}
    for name in names:
        assert kinds.get(name) in ("V", "W"), f"{name} is not weak in {other.name}"


# ---- programs


def calls_program(compiled, machine, include, *words):
    """The program that makes calls that it is told, of tests/target_calls.c."""
    return compiled("calls.exe", "-std=c99", *STRICT, *machine.words, "-I", include, TESTS / "target_calls.c", *words,
                    cc=machine.cc)


def parts(number):
    """The names of so many parts of the vectors, for a test that takes one of them."""
    return [f"{it}/{number}" for it in range(1, number + 1)]


def vectors_through(config, *command, part="1/1", verify_only=False, few=False, vectors=VECTORS):
    """Runs vectors through the calls of a program. With --all it runs all tests of keys and of signing, unless FEW."""
    how = ["--verify-only"] if verify_only else ["--few"] if few or not config.option.all else []
    words = " ".join(f"'{it}'" for it in command)
    counted(sys.executable, TESTS / "library_vectors.py", "--part", part, *how, "--through", words, vectors)


def short_vectors(folder):
    """Writes the tests under 128s and 128f, without those of a function made of SHA-512. Returns their folder."""
    for name in ("slh-dsa-sha2-128s.json", "slh-dsa-sha2-128f.json"):
        tests = json.loads((VECTORS / name).read_text())
        tests = [it for it in tests if it.get("form") in ("pure", "SHA2-224", "SHA2-256")]
        (folder / name).write_text(json.dumps(tests))
    return folder


def answers(asked, *command):
    """What a program returns of each call that it is told."""
    output = succeed(*command, stdin="".join(f"{it}\n" for it in asked).encode())
    return [int(it.split()[0]) for it in output.decode().splitlines()]


def asked_without_sha_512():
    """Calls of a library without SHA-512, each with its answer: the sets and the functions that take SHA-512 are
    refused, and a digest of one is not."""
    pk, sig = f"b{64 * '0'}", f"b{7856 * '00'}"
    for number in (0, 3, 4, 5, 6, 7):
        yield BAD_SET, f"slh_verify n{number} {pk} b b {sig}"
        yield BAD_SET, f"slh_hash_verify_digest n{number} n2 {pk} {pk} b {sig}"
        yield BAD_SET, f"slh_hash_verify n{number} n2 {pk} b b {sig}"
        yield BAD_SET, f"slh_hash_verify n{number} n4 {pk} b b {sig}"
        yield HARDENED_INVALID, f"slh_verify_hardened n{number} {pk} b b {sig}"
        yield HARDENED_INVALID, f"slh_hash_verify_digest_hardened n{number} n2 {pk} {pk} b {sig}"
        yield BAD_FUNCTION, f"slh_hash_verify n1 n{number} {pk} b b {sig}"
        yield BAD_FUNCTION, f"slh_hash_verify n2 n{number} {pk} b b {sig}"
    yield INVALID, f"slh_hash_verify_digest n1 n4 {pk} {pk}{64 * '0'} b {sig}"
    yield INVALID, f"slh_hash_verify n1 n2 {pk} b b {sig}"


def refuses_without_sha_512(*command):
    """A program over a library without SHA-512 refuses the sets (8) and the functions (9) that take it."""
    wanted, asked = zip(*asked_without_sha_512())
    assert answers(asked, *command) == list(wanted)


# A signature of another length than the set's.
TOO_SHORT = f"slh_verify n2 b{64 * '0'} b00 b b00\n".encode()


def says_invalid(*command):
    """A program that is told a call answers it: SLH_INVALID."""
    answer = succeed(*command, stdin=TOO_SHORT).split()
    assert answer[:1] == [b"30"], answer


class Image(typing.NamedTuple):
    """A folder with an image that OpenSSL signed in the pre-hash form with SHA2-256, under the empty context, and with
    the key as a header of C."""

    folder: typing.Any
    public_key: bytes

    def file(self, name):
        return self.folder / name


def make_image(folder):
    wanted = dict(kind="sign", form="SHA2-256", context="")
    tests = json.loads((VECTORS / "slh-dsa-sha2-128f.json").read_text())
    test = next(it for it in tests if wanted.items() <= it.items())
    image, signature, key = (bytes.fromhex(test[it]) for it in ("message", "signature", "sk"))
    for name, data in (("image", image), ("image.sig", signature), ("damaged", image + b"x"),
                       ("long.sig", signature + b"x")):
        (folder / name).write_bytes(data)
    (folder / "public_key.h").write_text(as_numbers(key[32:]))
    return Image(folder, key[32:])


def as_numbers(data):
    return ",".join(map(str, data)) + "\n"


def example_judges_images(compiled, machine, include, library, image):
    """So does the example that verifies, over a library."""
    program = compiled("verify_image", "-std=c99", *STRICT, *machine.words, "-I", image.folder, "-I", include,
                       HERE / "examples/verify_image.c", library, cc=machine.cc)
    judges_images(image, *machine.runs, program)


def judges_images(image, *command):
    """A program finds an image valid, and a damaged one invalid. It refuses a signature that is too long, and a file
    that is missing, which it names."""

    def outcome(*names):
        return text_of(run(*command, *map(image.file, names)))

    assert outcome("image", "image.sig") == (0, "valid")
    assert outcome("damaged", "image.sig") == (1, "invalid")
    assert outcome("image", "long.sig") == outcome("none", "image.sig") == outcome("image", "none") == outcome() \
        == (2, "")
    lacking = run(*command, image.file("image"), image.file("none"))
    assert str(image.file("none")).encode() in lacking.errors


def example_takes_whole_keys(machine, include, image, folder):
    """The example that verifies compiles with the key of the image, and not if a byte of it is missing or follows."""
    need(machine.cc)
    for key, compiles in ((image.public_key, True), (image.public_key[1:], False), (b"\7" + image.public_key, False)):
        (folder / "public_key.h").write_text(as_numbers(key))
        done = run(machine.cc, "-std=c99", "-I", folder, "-I", include, "-c", HERE / "examples/verify_image.c", "-o",
                   folder / "verify_image.o")
        assert (done.status == 0) == compiles, f"{len(key)} bytes: {done.errors.decode()}"


# ---- what calls leave


CLEARS_NOTHING = """\
#include <stddef.h>
#include <stdint.h>
uint32_t slh_clear(uint32_t result, size_t depth, uint32_t vectors);
uint32_t slh_clear(uint32_t result, size_t depth, uint32_t vectors) {
    (void)depth, (void)vectors;
    return result;
}
"""


# Makes a key of the set in the first word. The bytes of SK.seed and SK.prf are the second word, and PK.seed is zero. A
# loop runs as often as the secret's bits in the mask of the third word say.
KEYGEN = """\
#include <slh.h>
#include <stdlib.h>

int main(int count, char **words) {
    static uint8_t seeds[2 * SLH_MAX_N], public_seed[SLH_MAX_N], sk[SLH_MAX_SECRET_KEY];
    uint32_t set = (uint32_t)atoi(words[1]);
    size_t pk_len, sk_len, sig_len, n;
    volatile int turns = 0;
    if (count != 4 || slh_lengths(set, &pk_len, &sk_len, &sig_len, &n) != SLH_DONE) return 2;
    for (size_t i = 0; i < sizeof seeds; i++) seeds[i] = (uint8_t)atoi(words[2]);
    for (int i = 0; i < (seeds[0] & atoi(words[3])); i++) turns++;
    return slh_keygen(set, seeds, n, seeds + n, n, public_seed, n, sk, sk_len) != SLH_DONE;
}
"""


# From how many places a call is measured, by level: code that aligns its stack to 32 or 64 bytes takes more from some.
SHIFTS = {2: "1", 3: "2", 4: "4"}
HEAD_OF_DEPTHS = "/* How deep each call goes, in bytes: for a number of no set, and for each set. By pytest --write. */\n"


def depths_program(compiled, machine, include, archive, folder, *names):
    """The program that measures how deep calls go, over an archive whose slh_clear is its own, and whose NAMES those of
    files among the machine's words."""
    with_weak(machine, archive, folder / "weak.a", "slh_clear", *names)
    return compiled("depths.exe", "-std=c11", *STRICT, "-O1", "-static", *machine.words, "-I", include,
                    TESTS / "library_depths.c", folder / "weak.a", cc=machine.cc)


def how_deep(config):
    """Under an emulator few calls are measured, and with --write all."""
    return "full" if config.option.write else "few"


def check_depths(config, target, how, *command):
    """Each call clears as deep as it goes, by the program of depths_program: `few` measures few calls under the sets
    whose names end in s, and `full` all. With --write what is measured becomes the depths of the target."""
    if not config.option.write:
        return counted(*command, *(["few"] if how == "few" else []))
    if how == "few":
        pytest.skip("with --write all calls are measured")
    measured = succeed(*command, "write", timeout=7200).decode().replace("\r\n", "\n")
    return (HERE / f"c/exports/depths/{target}.h").write_text(HEAD_OF_DEPTHS + measured)


def search_program(compiled, machine, include, *words):
    """The program that searches for secrets that calls leave."""
    return compiled("erase.exe", "-std=c11", "-O2", *STRICT, "-static", *machine.words, "-I", include,
                    TESTS / "library_erase.c", *words, cc=machine.cc)


def search_finds_what_is_left(compiled, machine, include, archive, folder):
    """After each call under 128f the search finds secrets if nothing is cleared. Two that copy may leave none."""
    (folder / "clears_nothing.c").write_text(CLEARS_NOTHING)
    with_weak(machine, archive, folder / "weak.a", "slh_clear")
    program = search_program(compiled, machine, include, folder / "clears_nothing.c", folder / "weak.a")
    status, text = text_of(run(*machine.runs, program, "2"))
    *lines, last = text.splitlines()
    assert status == 1 and re.fullmatch(r"[0-2] passed, [1-9]\d* failed", last), text[-4000:]
    clean = [it for it in lines if it.endswith(": yes")]
    assert not [it for it in clean if " slh_key_write " not in it and " slh_der_write " not in it], text[-4000:]


# ---- packages


def programs_here(config):
    """The programs `slh` of the release that this processor can run."""
    return released(config, "programs_here") or []


def copy_python(folder):
    """Copies the Python package, since setuptools writes into its folder. Returns the folder of the package."""
    (folder / "bindings").mkdir(parents=True)
    shutil.copytree(HERE / "bindings/python", folder / "bindings/python")
    shutil.copy(HERE / "VERSION", folder)
    return folder / "bindings/python"


def wheel_has(venv, prefix, shared, platform_tag, folder):
    """A wheel that is built of a prefix is for a platform, and has the shared object."""
    succeed(venv / "pip", "wheel", "--no-index", "--no-build-isolation", "-w", folder, copy_python(folder / "clone"),
            env={**os.environ, "SLH_PREFIX": str(prefix), "PIP_NO_CACHE_DIR": "1"})
    wheel = zipfile.ZipFile(folder / f"slh-{version()}-py3-none-{platform_tag}.whl")
    assert wheel.read("slh/libslh.so.1") == shared.read_bytes()


OF_CMAKE = {
    "version.c": """\
#include <slh.h>
#include <stdio.h>
int main(void) { return slh_version() != SLH_VERSION_NUMBER || printf("yes") < 0; }
""",
    "CMakeLists.txt": """\
cmake_minimum_required(VERSION 3.13)
project(version C)
find_package(slh REQUIRED)
add_executable(version version.c)
set_target_properties(version PROPERTIES SUFFIX .exe)
target_link_libraries(version PRIVATE slh::slh -static)
"""}


def program_of_cmake(machine, prefix, system, processor, folder):
    """CMake builds a program for a machine with the library of a prefix, and the program runs."""
    need("cmake", machine.cc)
    for name, text in OF_CMAKE.items():
        (folder / name).write_text(text)
    succeed("cmake", "-S", folder, "-B", folder / "built", f"-DCMAKE_SYSTEM_NAME={system}",
            f"-DCMAKE_SYSTEM_PROCESSOR={processor}", f"-DCMAKE_C_COMPILER={machine.cc}",
            f"-DCMAKE_PREFIX_PATH={prefix}", "-DCMAKE_FIND_ROOT_PATH_MODE_PACKAGE=BOTH")
    succeed("cmake", "--build", folder / "built")
    assert text_of(run(*machine.runs, folder / "built/version.exe")) == (0, "yes")


def version():
    return (HERE / "VERSION").read_text().strip()
