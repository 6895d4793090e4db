"""Tests that the library for C of all levels of x86-64 runs the code for the best level that processor and system have,
and the SHA instructions where the processor has them: the choice for each processor of processors.h, and for one that
lacks one thing; tests/vectors/ by each level and by SHA instructions; 64 threads whose first calls come at once; and
other processors, which qemu-x86_64 emulates.

The library is linked with names of its own made weak, so that a program can answer in place of the processor. SLH_SEED
draws the processor whose code is tried by the vectors.
"""
import ctypes
import os
import pathlib
import re
import sys

import pytest

import machines
from conftest import STRICT
from machines import LIBRARY_CALLS, OF_C, counted, of_kind, symbols
from support import HERE, TESTS, Outcome, best_level, need, need_level, run, succeed, tool_of

LEVEL = "#include <slh.h>\nint main(void) { return (int)slh_level(); }\n"
LEVELS = [2, 3, 4]
ARCHIVES = {"libslh.a": 2, **{f"libslh-v{it}.a": it for it in LEVELS}}
PROCESSORS = {"nehalem": 2, "haswell": 3, "skylake": 4, "skylake whose system saves no zmm": 3}
# Processors below x86-64-v2. Most of them lack one of its features alone.
BELOW_V2 = ["core2duo", "kvm64", *(f"Nehalem,-{it}" for it in "pni ssse3 cx16 sse4-1 sse4-2 popcnt lahf-lm".split())]
# Emulated processors with SHA instructions, and such without of the same level. qemu emulates none of x86-64-v4.
WITH_SHA = {"denverton": ("Denverton", "Nehalem", 2), "epyc": ("EPYC", "Haswell", 2),
            "epyc-rome": ("EPYC-Rome", "Haswell", 3)}
VALID, ILLEGAL = Outcome(0, b"valid\n"), -4
# A program that verifies and has all calls.
BESIDE = """\
#include <slh.h>
int main(void) {
    static const uint8_t key[SLH_DSA_SHA2_128F_SECRET_KEY];
    return slh_verify(SLH_DSA_SHA2_128F, key, 32, key, 1, 0, 0, key, 1) != SLH_INVALID ||
        slh_check(SLH_DSA_SHA2_128F, key, sizeof key) != SLH_INVALID;
}
"""
# How libslh_verify.a and another archive are linked.
ORDERS = {
    "first": lambda verify, other: [verify, other],
    "last": lambda verify, other: [other, verify],
    "whole": lambda verify, other: ["-Wl,--whole-archive", verify, other, "-Wl,--no-whole-archive"],
}
EMULATED = [pytest.mark.slow, pytest.mark.emulator]

pytestmark = pytest.mark.usefixtures("built_by_the_kit")


@pytest.fixture(scope="module")
def weak(lib, tmp_path_factory):
    """The archive in which the question to the processor, and the choice, can be replaced."""
    path = tmp_path_factory.mktemp("weak") / "levels.a"
    machine = machines.Machine("x86-64", tool_of("cc"))
    machines.with_weak(machine, lib / "libslh.a", path, "slh_ask_processor", "slh_choice")
    return path


@pytest.fixture(scope="module")
def linked(compiled, installed):
    """Compiles a program that needs no shared object: linked(WORD..)."""
    return lambda *words: compiled("program", "-static", "-I", installed / "include", *words)


@pytest.fixture
def level_of(linked, tmp_path):
    """The program whose status is the level that an archive chooses."""
    (tmp_path / "level.c").write_text(LEVEL)
    return lambda archive: linked(tmp_path / "level.c", archive)


@pytest.fixture(scope="module")
def example(linked):
    """The example that signs a file, over an archive."""
    return lambda *archive: linked(HERE / "examples/sign_file.c", *archive)


@pytest.fixture
def letter(tmp_path):
    (tmp_path / "letter").write_text("a letter\n")
    return tmp_path / "letter"


def has_sha():
    """Whether this processor has SHA instructions, in Linux's judgement."""
    return " sha_ni" in pathlib.Path("/proc/cpuinfo").read_text()


# ---- the choice


def test_archive_chooses_the_best_level(level_of, lib):
    assert run(level_of(lib / "libslh.a")).status == best_level()


def test_shared_object_chooses_the_best_level(lib):
    assert ctypes.CDLL(str(lib / "libslh.so.1")).slh_level() == best_level()


@pytest.fixture(scope="module")
def levels(compiled, installed, weak):
    """Compiles the program that tries the choice: levels(NAME, WORD..)."""
    return lambda name, *words: compiled(name, "-std=c11", *STRICT, "-O1", "-I", installed / "include",
                                         TESTS / "levels_tests.c", weak, "-pthread", *words)


@pytest.mark.slow
def test_choice_for_each_processor(levels):
    """And for 64 threads whose first calls come at once."""
    counted(levels("levels"), str(best_level()))


@pytest.mark.parametrize("name", [pytest.param(it, marks=[pytest.mark.slow, pytest.mark.emulator]) for it in WITH_SHA])
def test_first_calls_at_once_by_sha_instructions(levels, name):
    emulates, _, level = WITH_SHA[name]
    counted(*machines.qemu_with_sha(emulates), levels("levels", "-static"), str(level), name)


@pytest.mark.slow
def test_first_calls_at_once_by_sha_instructions_at_the_highest_level(levels):
    need_level(4)
    counted(levels("by_signals", TESTS / "sha_by_signals.c"), "4", "skylake with SHA instructions")


@pytest.mark.parametrize("processor", [
    pytest.param(name, marks=[pytest.mark.slow, *(
        [pytest.mark.drawn("the processor of the vectors", "processor")] if level <= best_level() else [])])
    for name, level in PROCESSORS.items()])
def test_vectors_by_processor(linked, weak, processor):
    need_level(PROCESSORS[processor])
    program = linked("-std=c11", *STRICT, TESTS / "target_calls.c", TESTS / "forced_level.c", weak)
    counted(sys.executable, TESTS / "library_vectors.py", "--few", "--through", program,
            env={**os.environ, "PROCESSOR": processor})


# ---- archives


@pytest.mark.parametrize("level", LEVELS, ids="v{}".format)
def test_archive_is_of_one_level(level_of, lib, level):
    archive = lib / f"libslh-v{level}.a"
    assert symbols("nm", archive) == of_kind("T", LIBRARY_CALLS) + of_kind("U", OF_C)
    assert run(level_of(archive)).status == 0


@pytest.mark.slow
@pytest.mark.parametrize("order", ORDERS)
@pytest.mark.parametrize("archive", ARCHIVES)
def test_verify_archive_is_linked_beside(linked, lib, tmp_path, archive, order):
    need_level(ARCHIVES[archive])
    (tmp_path / "beside.c").write_text(BESIDE)
    assert run(linked(tmp_path / "beside.c", *ORDERS[order](lib / "libslh_verify.a", lib / archive))).status == 0


@pytest.mark.slow
@pytest.mark.parametrize("level", LEVELS, ids="v{}".format)
def test_example_over_archive(example, lib, letter, level):
    need_level(level)
    assert run(example(lib / f"libslh-v{level}.a"), letter) == VALID


# ---- emulated processors


@pytest.fixture(scope="module")
def emulated():
    """Runs a program on an emulated processor: emulated(NAME, WORD..) is its Outcome."""
    qemu = machines.qemu("x86_64")
    return lambda name, *words, **options: run(qemu, "-cpu", name, *words, **options)


@pytest.mark.parametrize("name", [pytest.param(it, marks=EMULATED) for it in BELOW_V2])
def test_processor_below_v2_is_refused(emulated, level_of, example, lib, letter, name):
    """It is told so, and not ended by an illegal instruction."""
    assert emulated(name, level_of(lib / "libslh.a")).status == 0
    status, _, errors = emulated(name, example(lib / "libslh.a"), letter)
    assert status == 1 and b"keygen: 39 OldProcessor" in errors.splitlines()


@pytest.mark.parametrize("name, level", [pytest.param("Nehalem", 2, marks=EMULATED),
                                         pytest.param("Haswell", 3, marks=EMULATED)])
def test_emulated_processor_signs(emulated, level_of, example, lib, letter, name, level):
    assert emulated(name, level_of(lib / "libslh.a")).status == level
    assert emulated(name, example(lib / "libslh.a"), letter).output == VALID.output


@pytest.fixture(scope="module")
def emulated_with_sha():
    """Runs a program on an emulated processor, by an emulator that knows SHA instructions."""
    return lambda name, *words, **options: run(*machines.qemu_with_sha(name), *words, **options)


@pytest.mark.parametrize("archive", [pytest.param(it, marks=EMULATED) for it in [*ARCHIVES][:3]])
def test_processor_with_sha_instructions_signs(emulated_with_sha, example, lib, letter, archive):
    assert emulated_with_sha("EPYC-Rome", example(lib / archive), letter).output == VALID.output


@pytest.mark.parametrize("name", [
    pytest.param(it, marks=[*EMULATED, pytest.mark.drawn("the processor with SHA instructions", "name")])
    for it in WITH_SHA])
def test_vectors_by_sha_instructions(pytestconfig, linked, lib, emulated_with_sha, level_of, name):
    emulates, _, level = WITH_SHA[name]
    assert emulated_with_sha(emulates, level_of(lib / "libslh.a")).status == level
    program = linked("-std=c11", *STRICT, TESTS / "target_calls.c", lib / "libslh.a")
    machines.vectors_through(pytestconfig, *machines.qemu_with_sha(emulates), program)


@pytest.mark.parametrize("name", [pytest.param(it, marks=EMULATED) for it in WITH_SHA])
def test_sha_instructions_run_if_chosen(emulated_with_sha, linked, weak, letter, name):
    """A processor without them signs by the choice for such a one, and ends at an illegal instruction by the other: so
    they ran elsewhere in these tests. One that has them signs by either choice."""
    emulates, without, _ = WITH_SHA[name]
    program = linked(HERE / "examples/sign_file.c", TESTS / "forced_level.c", weak)

    def outcome(emulated, choice):
        return emulated_with_sha(emulated, program, letter, env={**os.environ, "PROCESSOR": choice})

    assert outcome(without, without.lower()).output == VALID.output
    assert outcome(without, name).status == ILLEGAL
    assert outcome(emulates, without.lower()).output == outcome(emulates, name).output == VALID.output


@pytest.fixture
def blocks_of(linked, lib, tmp_path):
    """The blocks of code that an emulated processor takes, one after another, to make a key: blocks_of(NAME, SET, BYTE,
    MASK) is a hash of their addresses."""
    (tmp_path / "keygen.c").write_text(machines.KEYGEN)
    program = linked("-std=c11", *STRICT, "-O1", tmp_path / "keygen.c", lib / "libslh.a")

    def blocks_of(name, *words):
        succeed(*machines.qemu_with_sha(name), "-d", "exec,nochain", "-D", tmp_path / "blocks", program, *map(str, words))
        found = re.findall(rb"^Trace 0: \S+ \[\w+/(\w+)/", (tmp_path / "blocks").read_bytes(), re.M)
        assert len(found) > 10_000
        return hash(tuple(found))

    return blocks_of


@pytest.mark.parametrize("name", [pytest.param(it, marks=EMULATED) for it in WITH_SHA])
def test_each_secret_takes_the_same_way_by_sha_instructions(blocks_of, name):
    """memcheck, which marks secrets, does not know them. One turn of a loop that depends on a secret is another way."""
    emulates = WITH_SHA[name][0]
    for of_set in 2, 4, 6:
        assert len({blocks_of(emulates, of_set, byte, 0) for byte in (100, 155, 254)}) == 1
    assert blocks_of(emulates, 2, 100, 1) != blocks_of(emulates, 2, 155, 1)


@pytest.mark.parametrize("archive", ["libslh.a", *(f"libslh-v{it}.a" for it in LEVELS)])
def test_single_messages_by_sha_instructions_take_no_branch(lib, archive):
    """And no address but of the arguments, the stack and constants: so their time depends on no byte of them."""
    need("objdump")
    said = succeed("objdump", "-d", "--no-show-raw-insn", lib / archive).decode()
    code, = re.findall(r"<slh_sha256>:\n(.*?)\n\n", said + "\n\n", re.S)
    lines = re.findall(r"^ +[0-9a-f]+:\t(\S.*?) *$", code, re.M)
    assert len(lines) > 100 and [it for it in lines if re.match("(notrack )?(j|call|ret|loop)", it)] == ["ret"]
    assert {it for line in lines for it in re.findall(r"\(([^)]*)\)", line)} <= {"%rdi", "%rsi", "%rsp", "%rip"}


@pytest.mark.slow
def test_sha_instructions_run_at_the_highest_level(linked, weak, letter):
    """By x86-64-v4, which no emulator has. A processor without them ends at an illegal instruction, unless the program
    emulates it; one that has them signs."""
    need_level(4)
    words = [HERE / "examples/sign_file.c", TESTS / "forced_level.c", weak]
    env = {**os.environ, "PROCESSOR": "skylake with SHA instructions"}
    done = run(linked(*words), letter, env=env)
    assert done == VALID if has_sha() else done.status == ILLEGAL
    assert run(linked("-std=c11", *STRICT, TESTS / "sha_by_signals.c", *words), letter, env=env) == VALID


@pytest.mark.slow
def test_vectors_by_sha_instructions_at_the_highest_level(pytestconfig, linked, weak):
    need_level(4)
    program = linked("-std=c11", *STRICT, TESTS / "sha_by_signals.c", TESTS / "target_calls.c",
                     TESTS / "forced_level.c", weak)
    machines.vectors_through(pytestconfig, "env", "PROCESSOR=skylake with SHA instructions", program, few=True)


@pytest.mark.parametrize("other", [pytest.param(it, marks=EMULATED) for it in ("haswell", "skylake")])
def test_choice_is_other_code(emulated, linked, weak, letter, other):
    """A processor that has only x86-64-v2 signs by the choice for it, and ends at an illegal instruction by another
    one: so other code ran elsewhere in these tests."""
    program = linked(HERE / "examples/sign_file.c", TESTS / "forced_level.c", weak)

    def outcome(processor):
        return emulated("Nehalem", program, letter, env={**os.environ, "PROCESSOR": processor})

    assert outcome("nehalem").output == VALID.output
    assert outcome(other).status == ILLEGAL
