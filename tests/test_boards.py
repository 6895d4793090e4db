"""Tests the archives for boards, whose pointers have 32 bits: their symbols, that they have no memory of their own, all
verify tests of tests/vectors/ through the calls, on emulated processors, what the archive for the sets of 128 bits
refuses, and their sizes, stack and instructions against docs/DEVICES.md. Signatures are damaged by chance (damaged.py),
and the end of a verification is disturbed (glitches.py): with --all more of each.

The code for Cortex-M4 and Cortex-M0 runs under qemu-system-arm without a system, that for RISC-V as a program for Linux
under qemu-riscv32.
"""
import re
import sys

import pytest

import board as boards
import machines
from conftest import STRICT, released
from machines import OF_C, VERIFY_CALLS, counted, of_kind, symbols
from support import HERE, TESTS, need, run, succeed

BOARDS = [*boards.CORTEX, "riscv32imac"]
ON_ALL = pytest.mark.parametrize("board", BOARDS)
ON_RISCV = pytest.mark.parametrize("board", ["riscv32imac"])
ARCHIVES = ["libslh_verify.a", "libslh_verify_128.a"]
RISCV = ("-march=rv32imac", "-mabi=ilp32", "-O2", "-ffreestanding", "-fno-builtin", "-nostdlib", "-static", "-DBARE")
# What the objects of a board ask for: memory to be copied and filled, and numbers of 64 bits to be divided.
OF_ARM = [f"__aeabi_{it}" for it in "memclr memclr4 memclr8 memcpy memcpy4 memcpy8 memmove uldivmod".split()]
ASKED = {"thumbv7em": OF_ARM, "thumbv6m": [*OF_ARM, *(f"__aeabi_{it}" for it in ("llsl", "llsr", "lmul"))],
         "riscv32imac": [*OF_C, "__udivdi3"]}
HOOK = "W slh_between_layers"
# Later processors, and programs that hand floating-point numbers over in registers.
LINKS = {"cortex-m4 with hard floats": ["-mcpu=cortex-m4", "-mfloat-abi=hard", "-mfpu=fpv4-sp-d16"],
         "cortex-m7 with hard floats": ["-mcpu=cortex-m7", "-mfloat-abi=hard", "-mfpu=fpv5-d16"],
         "cortex-m33": ["-mcpu=cortex-m33"], "cortex-m4 without short enums": ["-mcpu=cortex-m4", "-fno-short-enums"]}
LINKED = """\
#include <slh_verify.h>
float half(float it) { return it / 2; }
int main(void) { return (int)slh_verify(1, 0, 0, 0, 0, 0, 0, 0, 0) + (int)half(1); }
"""
# Of each set the layers, and the bytes of a signature and of a public key.
LAYERS = [7, 22, 7, 22, 8, 17]
SIGNATURES = [7856, 17088, 16224, 35664, 29792, 49856]
PUBLIC_KEYS = [32, 32, 48, 48, 64, 64]
INVALID = 30


@pytest.fixture
def folder(pytestconfig, install, board):
    """The folder with the archives for a board."""
    return machines.for_target(pytestconfig, install, board) / "lib"


@pytest.fixture
def emulated(board):
    """The command that runs a program for a board."""
    if board == "riscv32imac":
        need("riscv64-linux-gnu-gcc")
        return [machines.qemu("riscv32")]
    need("arm-none-eabi-gcc", "qemu-system-arm")
    try:
        boards.check_processor(board)
    except boards.NoProcessor as cause:
        pytest.skip(f"{cause} (Debian 12's package qemu-system-arm does)")
    return boards.emulator(board)


@pytest.fixture
def calls(compiled, board, tmp_path):
    """Links the program that makes calls that it is told, with an archive for a board."""

    def links(archive):
        words = ["-std=c11", *STRICT, "-I", HERE / "c/include", "-DVERIFY_ONLY", "-DHOOKED", TESTS / "target_calls.c"]
        if board == "riscv32imac":
            return compiled("calls", *RISCV, *words, archive, cc="riscv64-linux-gnu-gcc")
        (tmp_path / "board.ld").write_text(boards.linker_script(board, memory=boards.CORTEX[board].memory))
        cc, *of_board = boards.compiler(board)
        return compiled("calls", *of_board, *words, "--specs=rdimon.specs", "-Wl,--defsym=end=bss_end",
                        "-T", tmp_path / "board.ld", TESTS / "board_calls.c", archive, cc=cc)

    return links


# ---- symbols and sizes


@ON_ALL
def test_archive_defines_six_calls(board, folder):
    need("nm")
    wanted = [*of_kind("T", VERIFY_CALLS), HOOK, *of_kind("U", ASKED[board])]
    assert symbols("nm", folder / "libslh_verify.a") == sorted(wanted)


@ON_ALL
def test_smaller_archive_defines_them_and_asks_for_no_more(board, folder):
    need("nm")
    found = symbols("nm", folder / "libslh_verify_128.a")
    assert [it for it in found if it.startswith("T")] == of_kind("T", VERIFY_CALLS)
    assert set(found) <= {*of_kind("T", VERIFY_CALLS), HOOK, *of_kind("U", ASKED[board])}


@ON_ALL
@pytest.mark.parametrize("archive", ARCHIVES)
def test_archive_has_no_memory(folder, archive):
    """It has code and constants alone."""
    need("size")
    rows = [it.split() for it in succeed("size", folder / archive).decode().splitlines()[1:]]
    assert rows and [it for it in rows if it[1:3] != ["0", "0"]] == []


@ON_ALL
@pytest.mark.emulator
def test_numbers_of_the_documents(board, folder):
    need("size")
    machines.numbers_are_those_of(board, folder)


@pytest.mark.parametrize("board", ["thumbv7em"])
@pytest.mark.parametrize("words", LINKS.values(), ids=LINKS)
def test_program_for_another_processor_links_the_archive(folder, words, tmp_path):
    """The linker does not warn of the archive."""
    need("arm-none-eabi-gcc")
    (tmp_path / "links.c").write_text(LINKED)
    done = run("arm-none-eabi-gcc", *words, "-mthumb", "-Os", "-I", HERE / "c/include", "-nostartfiles",
               "-Wl,--entry=main", tmp_path / "links.c", folder / "libslh_verify.a", "-lgcc", "-lc", "-o",
               tmp_path / "links")
    assert done.status == 0 and b"libslh_verify" not in done.errors, done.errors.decode()


# ---- calls


@pytest.mark.slow
@ON_ALL
def test_vectors(pytestconfig, emulated, calls, folder):
    program = calls(folder / "libslh_verify.a")
    machines.vectors_through(pytestconfig, *emulated, program, verify_only=True)


@pytest.mark.slow
@ON_RISCV
def test_vectors_by_the_smaller_archive(pytestconfig, emulated, calls, folder, tmp_path):
    program, vectors = calls(folder / "libslh_verify_128.a"), machines.short_vectors(tmp_path)
    machines.vectors_through(pytestconfig, *emulated, program, verify_only=True, vectors=vectors)


@pytest.mark.slow
@ON_ALL
def test_other_sets_and_functions_are_refused_without_sha_512(emulated, calls, folder):
    machines.refuses_without_sha_512(*emulated, calls(folder / "libslh_verify_128.a"))


@pytest.mark.slow
@ON_ALL
def test_hook_is_called_before_each_layer(emulated, calls, folder):
    asked = []
    for number, (signature, key) in enumerate(zip(SIGNATURES, PUBLIC_KEYS), 1):
        asked += [f"slh_verify n{number} b{2 * key * '0'} b b b{2 * signature * '0'}", "hooked"]
    wanted = [it for layers in LAYERS for it in (INVALID, layers)]
    assert machines.answers(asked, *emulated, calls(folder / "libslh_verify.a")) == wanted


@pytest.mark.slow
@ON_ALL
def test_damaged_signatures(pytestconfig, emulated, calls, folder, installed):
    command = " ".join(map(str, [*emulated, calls(folder / "libslh_verify.a")]))
    counted(sys.executable, TESTS / "damaged.py", *(["--all"] if pytestconfig.option.all else []), command,
            installed / "lib/libslh.so.1")


# ---- a disturbed processor


def python_with_unicorn():
    for python in (sys.executable, "/usr/bin/python3"):
        if run(python, "-c", "import unicorn").status == 0:
            return python
    pytest.skip("there is no python3-unicorn (to be had by the package python3-unicorn)")


@pytest.mark.slow
@pytest.mark.emulator
@pytest.mark.parametrize("call", ["plain", "hardened"])
@pytest.mark.parametrize("board, processor", [
    ("thumbv7em", "cortex-m4"), ("thumbv6m", "cortex-m0"), ("riscv32imac", "riscv32")])
def test_glitches(pytestconfig, compiled, folder, board, processor, call):
    if board != "thumbv7em" and not pytestconfig.option.all:
        pytest.skip("one board stands for all (to be had by --all)")
    python = python_with_unicorn()
    words = ["-std=c11", *STRICT, "-I", HERE / "c/include", TESTS / "glitched.c", folder / "libslh_verify_128.a",
             "-lgcc"]
    if board == "riscv32imac":
        program = compiled("glitched", *RISCV, "-Wno-unused-function", "-Wl,--no-relax", *words,
                           cc="riscv64-linux-gnu-gcc")
    else:
        program = compiled("glitched", f"-mcpu={boards.CORTEX[board].processor}", "-mthumb", "-Os", "-nostartfiles",
                           "--specs=nano.specs", "-Wl,--entry=start,-Ttext=0x10000", *words, cc="arm-none-eabi-gcc")
    counted(python, TESTS / "glitches.py", *([] if pytestconfig.option.all else ["--few"]), processor, call, program)


# ---- how the archives are made


def calls_of(crate):
    """The calls of a crate, each with its contract and its body."""
    text = "\n".join(it.read_text() for it in sorted((HERE / "crates" / crate / "src").glob("*.rt")))
    return {it[1]: it[0] for it in re.finditer(r'^pub extern "C" fn (\w+).*?^}$', text, re.M | re.S)}


def rules_of(crate):
    """The definitions that the contracts of a crate's calls cite."""
    text = "\n".join((HERE / "crates" / crate / f"specs/{it}.antt").read_text() for it in ("Numbers", "Rules", "Keys"))
    found = re.findall(r"^(?:abbrev|unfoldable) pub (\w+)( : .*?)(?=\n\n|\Z)", text, re.M | re.S)
    return {name: it.strip() for name, it in found}


def test_calls_have_the_contracts_and_bodies_of_slh_c():
    """They do word for word."""
    ours, theirs = calls_of("slh_c_verify"), calls_of("slh_c")
    assert set(ours) == set(VERIFY_CALLS) and {it: theirs[it] for it in ours} == ours
    ours, theirs = rules_of("slh_c_verify"), rules_of("slh_c")
    assert {"verify_rules", "hash_verify_rules", "hash_verify_digest_rules", "first_refusal", "InSet", "WithFunction",
            "key"} <= set(ours)
    assert {it: theirs[it] for it in ours} == ours


@pytest.fixture
def noise(pytestconfig, kit, tmp_path):
    """An archive whose layout fills the unused half of each slot of a pointer."""
    if pytestconfig.option.release and released(pytestconfig, "has_sources_of_release") is None:
        pytest.skip("the release is of other sources (to be had by a release of these)")
    lacking = run(HERE / "tools/kit.py", "build", "slh_c_verify")
    if lacking.status:
        pytest.skip(lacking.errors.decode().strip())
    succeed(HERE / "tools/targets.py", "riscv32imac", tmp_path, "--noise", timeout=7200)
    return tmp_path / "riscv32imac/libslh_verify.a"


@pytest.mark.slow
@ON_RISCV
def test_vectors_with_noise_in_the_slots(pytestconfig, emulated, calls, folder, noise):
    assert noise.read_bytes() != (folder / "libslh_verify.a").read_bytes()
    machines.vectors_through(pytestconfig, *emulated, calls(noise), verify_only=True)
