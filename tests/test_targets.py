"""Tests the library for Linux on ARM and 64-bit RISC-V, and for macOS, as tools/library.sh installs it: its symbols,
tests/vectors/ through the calls, the stack, instructions for several secrets, the example that verifies, and the
packages that take it. Programs run by qemu. Nothing here runs the code for macOS: its symbols are looked at.

Of keys and of signing some tests are run, and with --all all: tests/library_vectors.py says which.
"""
import re
import shutil

import pytest

import machines
from conftest import STRICT
from machines import (LIBRARY_CALLS, OF_C, OTHERS, VERIFY_CALLS, counted, first_instructions, notes, of_kind, symbols,
                      text_of)
from support import TESTS, VECTORS, need, run, succeed

# For each target with Linux: the triple of its compiler, and its names for qemu, in a wheel's tags, and for CMake.
LINUX = {
    "aarch64": ("aarch64-linux-gnu", "aarch64", "aarch64", "aarch64"),
    "riscv64": ("riscv64-linux-gnu", "riscv64", "riscv64", "riscv64"),
    "armv7": ("arm-linux-gnueabihf", "arm", "armv7l", "armv7l"),
}
# The lower levels of 64-bit ARM: the words for the compiler, and those for qemu. A Cortex-A57 has SHA-256's instructions
# and not SHA-512's. Each processor that qemu knows has the former: for NEON the program answers in the system's place.
NEON, SHA256 = "aarch64-neon", "aarch64-sha256"
LOWER = {NEON: (("-DHWCAP=0", str(TESTS / "forced_hwcap.c")), ()), SHA256: ((), ("-cpu", "cortex-a57"))}
LINUX |= {it: LINUX["aarch64"] for it in LOWER}
MACOS = {"macos-arm64": "ARM64", "macos-x86-64": "X86_64"}
# For libslh.a of macOS: calls of a Mac's C library that are not in the C standard, and its own names, which are hidden.
OF_MACOS = ["bzero", "__bzero"]
OWN = r"_slh_\w+_(v[23]|proved)|_slh_(clear|sha256|sha512)"


def params(names, always=()):
    return [pytest.param(it, marks=() if it in always else OTHERS) for it in names]


ON_LINUX = pytest.mark.parametrize("target", params([it for it in LINUX if it not in LOWER], ["aarch64"]), indirect=True)
ON_LINUX_BY_LEVEL = pytest.mark.parametrize("target", params(LINUX, ["aarch64"]), indirect=True)
ON_AARCH64 = pytest.mark.parametrize("target", ["aarch64"], indirect=True)
ON_MACOS = pytest.mark.parametrize("target", params(MACOS), indirect=True)


@pytest.fixture
def target(request):
    return request.param


@pytest.fixture
def machine(target):
    """The compiler for a target with Linux."""
    cc = machines.cross_compiler(target.partition("-")[0], LINUX[target][0])
    need(cc)
    return machines.Machine(target, cc, ("-static", *LOWER.get(target, ((), ()))[0]))


@pytest.fixture
def emulated(machine):
    """The same, with the emulator that runs its programs."""
    return machine._replace(runs=(machines.qemu(LINUX[machine.name][1]), *LOWER.get(machine.name, ((), ()))[1]))


@pytest.fixture
def prefix(pytestconfig, install, target):
    return machines.for_target(pytestconfig, install, target if target in MACOS else target.partition("-")[0])


@pytest.fixture
def archive(prefix):
    return prefix / "lib/libslh.a"


@pytest.fixture
def verify_archive(prefix):
    return prefix / "lib/libslh_verify.a"


@pytest.fixture(scope="session")
def image(tmp_path_factory):
    return machines.make_image(tmp_path_factory.mktemp("image"))


# ---- symbols


@ON_LINUX
def test_archive_defines_the_calls(machine, archive):
    """It asks for three of C."""
    assert symbols(machine.tool("nm"), archive) == of_kind("T", LIBRARY_CALLS) + of_kind("U", OF_C)


@ON_LINUX
def test_shared_object_defines_the_calls(machine, prefix):
    shared = prefix / "lib/libslh.so.1"
    assert symbols(machine.tool("nm"), "-D", shared) == of_kind("T", LIBRARY_CALLS) + of_kind("U", OF_C)


@ON_AARCH64
def test_verify_archive_defines_six_calls(machine, verify_archive):
    assert symbols(machine.tool("nm"), verify_archive) == of_kind("U", OF_C) + of_kind("W", VERIFY_CALLS)


# ---- pads for indirect branches

UNPADDED = "int unpadded(void);\nint unpadded(void) { return 7; }\n"
CALLS_UNPADDED = "int unpadded(void);\nint main(void) { return unpadded(); }\n"


@ON_LINUX
def test_shared_object_has_a_build_id(machine, prefix):
    assert re.search(r"Build ID: [0-9a-f]{40}$", notes(machine.tool("readelf"), prefix / "lib/libslh.so.1"), re.M)


@ON_AARCH64
@pytest.mark.parametrize("file", ["libslh.so.1", "libslh.a", "libslh_verify.a"])
def test_code_is_marked_for_pads_and_signed_returns(machine, prefix, file):
    """The linker marks what it makes only if each object is."""
    assert "Properties: AArch64 feature: BTI, PAC" in notes(machine.tool("readelf"), prefix / "lib" / file)


@ON_AARCH64
def test_each_call_begins_with_a_pad(machine, prefix):
    """test_vectors_by_the_shared_object runs them."""
    first = first_instructions(machine.tool("objdump"), prefix / "lib/libslh.so.1")
    assert {it: first[it] for it in LIBRARY_CALLS if first[it] not in ("bti", "paciasp")} == {}


@ON_AARCH64
@pytest.mark.parametrize("protection, status", [("none", -4), ("pac-ret+bti", 7)])
def test_emulator_looks_for_pads(emulated, compiled, tmp_path, protection, status):
    """Else the next test would say nothing: it stops at a function without one, in what is marked."""
    (tmp_path / "unpadded.c").write_text(UNPADDED)
    (tmp_path / "calls.c").write_text(CALLS_UNPADDED)
    shared = compiled("libunpadded.so", "-shared", "-fPIC", f"-mbranch-protection={protection}", "-Wl,-z,force-bti",
                      "-nostdlib", tmp_path / "unpadded.c", cc=emulated.cc)
    program = compiled("calls", tmp_path / "calls.c", shared, f"-Wl,-rpath,{shared.parent}", cc=emulated.cc)
    assert run(*emulated.runs, "-L", f"/usr/{LINUX['aarch64'][0]}", program).status == status


@pytest.mark.slow
@ON_AARCH64
def test_vectors_by_the_shared_object(pytestconfig, emulated, prefix, compiled, tmp_path):
    """Its pages are marked, so each indirect branch in it is looked at. With --all the vectors are those of each set."""
    shutil.copy(VECTORS / "smoke-128f.json", tmp_path)
    shared = prefix / "lib/libslh.so.1"
    program = machines.calls_program(compiled, emulated._replace(words=()), prefix / "include", shared,
                                     f"-Wl,-rpath,{shared.parent}")
    machines.vectors_through(pytestconfig, *emulated.runs, "-L", f"/usr/{LINUX['aarch64'][0]}", program, few=True,
                             vectors=VECTORS if pytestconfig.option.all else tmp_path)


@ON_MACOS
def test_archive_for_macos_is_closed(prefix):
    """It defines the calls, and asks for what each Mac has."""
    need("llvm-nm")
    machines.is_closed("llvm-nm", prefix / "lib/libslh.a", mark="_", others=OF_MACOS)


@ON_MACOS
def test_objects_are_for_the_target(target, archive):
    need("llvm-objdump")
    lines = succeed("llvm-objdump", "--macho", "--private-header", archive).decode().splitlines()
    assert {it.split()[1] for it in lines if "MH_MAGIC_64" in it} == {MACOS[target]}


@ON_MACOS
def test_own_names_are_hidden(archive):
    need("llvm-nm")
    lines = succeed("llvm-nm", "-m", archive).decode().splitlines()
    own = [it for it in lines if re.search(rf" ({OWN})$", it) and "undefined" not in it]
    assert own and [it for it in own if "private external" not in it] == []


# ---- calls


@ON_LINUX
def test_program_takes_the_calls(emulated, prefix, archive, compiled):
    program = machines.calls_program(compiled, emulated, prefix / "include", archive)
    machines.says_invalid(*emulated.runs, program)


LEVEL = "#include <slh.h>\nint main(void) { return (int)slh_level(); }\n"


@pytest.mark.parametrize("target, level", [("aarch64", 4), (SHA256, 3), (NEON, 2)], indirect=["target"])
def test_level_is_that_of_the_processor(emulated, prefix, archive, compiled, tmp_path, level):
    """The emulated processor has the instructions for both."""
    (tmp_path / "level.c").write_text(LEVEL)
    program = compiled("level", *emulated.words, "-I", prefix / "include", tmp_path / "level.c", archive, cc=emulated.cc)
    assert run(*emulated.runs, program).status == level


@ON_AARCH64
def test_program_without_getauxval_takes_level_2(emulated, prefix, archive, compiled, tmp_path):
    (tmp_path / "level.c").write_text(LEVEL)
    program = compiled("level", *emulated.words, "-Wl,--defsym=getauxval=0", "-I", prefix / "include",
                       tmp_path / "level.c", archive, cc=emulated.cc)
    assert run(*emulated.runs, program).status == 2


@ON_AARCH64
def test_shared_object_runs_the_same_level(emulated, prefix, compiled, tmp_path):
    (tmp_path / "level.c").write_text(LEVEL)
    shared = prefix / "lib/libslh.so.1"
    program = compiled("level", "-I", prefix / "include", tmp_path / "level.c", shared, f"-Wl,-rpath,{shared.parent}",
                       cc=emulated.cc)
    assert run(*emulated.runs, "-L", f"/usr/{LINUX['aarch64'][0]}", program).status == 4


@pytest.mark.slow
@ON_LINUX_BY_LEVEL
@pytest.mark.parametrize("part", machines.parts(12))
def test_vectors(pytestconfig, emulated, prefix, archive, compiled, part):
    program = machines.calls_program(compiled, emulated, prefix / "include", archive)
    machines.vectors_through(pytestconfig, *emulated.runs, program, part=part)


@pytest.mark.slow
@ON_AARCH64
def test_vectors_by_the_verify_archive(pytestconfig, emulated, prefix, verify_archive, compiled):
    program = machines.calls_program(compiled, emulated, prefix / "include", "-DVERIFY_ONLY", verify_archive)
    machines.vectors_through(pytestconfig, *emulated.runs, program, verify_only=True)


@ON_AARCH64
def test_example_judges_images(emulated, prefix, verify_archive, compiled, image):
    machines.example_judges_images(compiled, emulated, prefix / "include", verify_archive, image)


@ON_AARCH64
def test_example_takes_whole_keys(machine, prefix, image, tmp_path):
    machines.example_takes_whole_keys(machine, prefix / "include", image, tmp_path)


@ON_AARCH64
def test_function_for_uboot_judges_images(emulated, prefix, verify_archive, compiled, image):
    """The image is in two regions. A signature that is too long is invalid there."""
    program = compiled("uboot_image", "-std=c11", *STRICT, *emulated.words, "-I", image.folder, "-I",
                       prefix / "include", "-DSET=SLH_DSA_SHA2_128F", TESTS / "uboot_image.c", verify_archive,
                       cc=emulated.cc)

    def outcome(*names):
        return text_of(run(*emulated.runs, program, *map(image.file, names)))

    assert outcome("image", "image.sig") == (0, "valid")
    assert outcome("damaged", "image.sig") == (1, "invalid")
    assert outcome("image", "long.sig") == (1, "invalid")


# ---- the stack


@pytest.mark.slow
@pytest.mark.emulator
@ON_AARCH64
def test_numbers_of_the_documents(machine, target, prefix):
    machines.numbers_are_those_of(target, prefix)


@pytest.mark.slow
@ON_LINUX_BY_LEVEL
def test_depths(pytestconfig, target, emulated, prefix, archive, compiled, tmp_path):
    """Each call clears as deep as it goes."""
    program = machines.depths_program(compiled, emulated, prefix / "include", archive, tmp_path)
    level = "aarch64-sha512" if target == "aarch64" else target
    machines.check_depths(pytestconfig, level, machines.how_deep(pytestconfig), *emulated.runs, program, "1")


@pytest.mark.slow
@ON_LINUX_BY_LEVEL
def test_calls_leave_no_secrets(pytestconfig, emulated, prefix, archive, compiled):
    program = machines.search_program(compiled, emulated, prefix / "include", archive)
    counted(*emulated.runs, program, *([] if pytestconfig.option.all else ["2", "4", "6"]))


@pytest.mark.slow
@ON_LINUX
def test_search_finds_what_is_left(emulated, prefix, archive, compiled, tmp_path):
    machines.search_finds_what_is_left(compiled, emulated, prefix / "include", archive, tmp_path)


@ON_LINUX
def test_objcopy_that_changes_nothing_is_noticed(machine, archive, tmp_path):
    """Another machine's objcopy copies such an archive, and ends with 0."""
    copies, other = tmp_path / "copies", tmp_path / "other_cc"
    copies.write_text('#!/bin/sh\nshift\ncp "$@"\n')
    other.write_text(f'#!/bin/sh\n[ "$1" = -print-prog-name=nm ] && exec "{machine.cc}" "$1"\necho "{copies}"\n')
    copies.chmod(0o755)
    other.chmod(0o755)
    with pytest.raises(AssertionError, match="slh_clear is not weak"):
        machines.with_weak(machine._replace(cc=str(other)), archive, tmp_path / "same.a", "slh_clear")
    assert (tmp_path / "same.a").read_bytes() == archive.read_bytes()


# ---- instructions


@pytest.fixture
def instructions(emulated, prefix, archive, compiled, tmp_path):
    """Counts the instructions of a key generation: instructions(SET, BYTE, MASK)."""
    if b"-plugin" not in run(emulated.runs[0], "-h").output:
        pytest.skip(f"{emulated.runs[0]} takes no plug-ins: that of Debian 12 does")
    (tmp_path / "keygen.c").write_text(machines.KEYGEN)
    plugin = compiled("count.so", "-shared", "-fPIC", TESTS / "benches/count_instructions.c")
    program = compiled("keygen", "-std=c11", *STRICT, "-O1", *emulated.words, "-I", prefix / "include",
                       tmp_path / "keygen.c", archive, cc=emulated.cc)

    def instructions(*words):
        done = run(*emulated.runs, "-plugin", plugin, "-d", "plugin", program, *map(str, words))
        assert done.status == 0, done
        return int(re.fullmatch(rb"(\d+) instructions\n", done.errors)[1])

    return instructions


@pytest.mark.slow
@ON_LINUX_BY_LEVEL
def test_each_secret_takes_as_many_instructions(instructions):
    """memcheck, which marks secrets, does not run here. One turn of a loop that depends on a secret is counted."""
    for of_set in 2, 4, 6:
        assert len({instructions(of_set, byte, 0) for byte in (100, 155, 254)}) == 1
    assert instructions(2, 100, 1) != instructions(2, 155, 1)


@ON_AARCH64
def test_single_messages_by_sha_instructions_take_no_branch(machine, archive):
    said = succeed(machine.tool("objdump"), "-d", "--no-show-raw-insn", archive).decode()
    code = dict(re.findall(r"<(slh_sha256|slh_sha512)>:\n((?: .*\n)+)", said))
    for name, instruction in (("slh_sha256", "sha256su1"), ("slh_sha512", "sha512su1")):
        names = re.findall(r"^ +[0-9a-f]+:\t(\S+)", code[name], re.M)
        assert instruction in names
        assert [it for it in names if re.fullmatch(r"bl?|b\..*|blr.*|br.*|[ct]bn?z|ret.*", it)] == ["ret"]


# ---- packages


@ON_LINUX
def test_wheel_has_the_shared_object(target, venv, prefix, tmp_path):
    """Its name has the machine's."""
    tags = ".".join(f"{it}_{LINUX[target][2]}" for it in ("manylinux_2_25", "musllinux_1_2"))
    machines.wheel_has(venv, prefix, prefix / "lib/libslh.so.1", tags, tmp_path)


@pytest.mark.slow
@ON_LINUX
def test_program_of_cmake(target, emulated, prefix, tmp_path):
    machines.program_of_cmake(emulated, prefix, "Linux", LINUX[target][3], tmp_path)
