"""Tests the library for Windows on x86-64, as tools/library.sh installs it: its symbols, tests/vectors/ through the
calls of the archive and of slh.dll, each level of processors, the stack, and the packages that take it. It is linked
by MinGW's linker and by LLVM's, and runs under wine.

Of keys and of signing some tests are run, and with --all all: tests/library_vectors.py says which.
"""
import os
import re
import shutil

import pytest

import machines
from machines import LIBRARY_CALLS, OTHERS, counted, text_of
from packages import GO_MODULE
from support import HERE, TESTS, VECTORS, best_level, need, need_level, run, succeed

pytestmark = [pytest.mark.parametrize("target", [pytest.param("windows-x86-64", marks=OTHERS)])]

# MinGW's C library prints sizes only if it is told to.
GCC = machines.Machine("windows-x86-64", "x86_64-w64-mingw32-gcc", ("-static", "-D__USE_MINGW_ANSI_STDIO=1"))
# A processor of tests/processors.h for each level.
PROCESSORS = {"nehalem": 2, "haswell": 3, "skylake": 4}
WITH_SHA = {"denverton": 2, "epyc-rome": 3, "skylake with SHA instructions": 4}
LEVEL = '#include <slh.h>\n#include <stdio.h>\nint main(void) { return printf("%u", (unsigned)slh_level()) < 0; }\n'
GO = f"""\
package main

import (
	"fmt"
	"{GO_MODULE}"
)

func main() {{
	secret, err := slh.Generate(nil, slh.SHA2_128f)
	if err != nil {{
		panic(err)
	}}
	signature, err := secret.Sign(nil, []byte("Dear reader,"), nil)
	if err != nil || secret.PublicKey().Verify([]byte("Dear reader,"), signature, nil) != nil {{
		panic(err)
	}}
	fmt.Print("valid")
}}
"""


@pytest.fixture
def prefix(pytestconfig, install, target):
    need(GCC.cc)
    return machines.for_target(pytestconfig, install, target)


@pytest.fixture
def archive(prefix):
    return prefix / "lib/libslh.a"


@pytest.fixture
def emulated(wine):
    """The compiler for Windows, and what runs its programs."""
    return GCC._replace(runs=tuple(wine))


@pytest.fixture
def dll_program(compiled, prefix, tmp_path):
    """The program that makes calls of slh.dll, beside it."""
    program = machines.calls_program(compiled, GCC, prefix / "include", prefix / "lib/slh.lib")
    shutil.copy(program, tmp_path / "dll_calls.exe")
    shutil.copy(prefix / "bin/slh.dll", tmp_path)
    return tmp_path / "dll_calls.exe"


def headers_of(file):
    need("x86_64-w64-mingw32-objdump")
    return succeed("x86_64-w64-mingw32-objdump", "-p", file).decode()


# ---- symbols


def test_archive_is_closed(prefix, archive):
    """It defines the calls, and asks for three of C."""
    machines.is_closed(GCC.tool("nm"), archive)


def test_dll_exports_the_calls(prefix):
    """It takes another DLL alone, that of C."""
    text = headers_of(prefix / "bin/slh.dll")
    table = text.partition("[Ordinal/Name Pointer] Table\n")[2].partition("\n\n")[0]
    exported = [it.split()[-1] for it in table.splitlines() if "]" in it]
    assert sorted(exported) == LIBRARY_CALLS
    assert text.count("DLL Name") == 1


def test_no_frame_is_taken_without_the_probe_of_the_library(archive):
    found = machines.lines_of_nm(GCC.tool("nm"), archive)
    assert ["U", "slh_probe"] in found
    assert [name for _, name in found if "chkstk" in name] == []


# ---- calls


def test_program_takes_the_calls(emulated, prefix, archive, compiled):
    program = machines.calls_program(compiled, emulated, prefix / "include", archive)
    machines.says_invalid(*emulated.runs, program)


def test_program_by_the_linker_of_llvm_takes_the_calls(emulated, prefix, archive, compiled):
    need("ld.lld")
    program = machines.calls_program(compiled, emulated, prefix / "include", "-fuse-ld=lld", archive)
    machines.says_invalid(*emulated.runs, program)


def test_program_takes_the_calls_of_the_dll(emulated, dll_program):
    assert "DLL Name: slh.dll" in headers_of(dll_program)
    machines.says_invalid(*emulated.runs, dll_program)


def test_code_that_runs_is_the_best_for_the_processor(emulated, prefix, archive, compiled, tmp_path):
    (tmp_path / "level.c").write_text(LEVEL)
    program = compiled("level.exe", *emulated.words, "-I", prefix / "include", tmp_path / "level.c", archive,
                       cc=emulated.cc)
    assert text_of(run(*emulated.runs, program)) == (0, str(best_level()))


@pytest.mark.slow
def test_vectors(pytestconfig, emulated, prefix, archive, compiled):
    program = machines.calls_program(compiled, emulated, prefix / "include", archive)
    machines.vectors_through(pytestconfig, *emulated.runs, program)


@pytest.mark.slow
@pytest.mark.parametrize("processor", PROCESSORS)
def test_vectors_on_a_lesser_processor(pytestconfig, emulated, prefix, archive, compiled, processor, monkeypatch):
    if PROCESSORS[processor] >= best_level():
        pytest.skip(f"this processor is no better than a {processor}: its code was run")
    monkeypatch.setenv("PROCESSOR", processor)
    program = machines.calls_program(compiled, emulated, prefix / "include", TESTS / "forced_level.c", archive)
    machines.vectors_through(pytestconfig, *emulated.runs, program)


@pytest.mark.slow
@pytest.mark.parametrize("processor", [
    pytest.param(it, marks=pytest.mark.drawn("the processor with SHA instructions", "processor")) for it in WITH_SHA])
def test_vectors_by_sha_instructions(pytestconfig, emulated, prefix, archive, compiled, tmp_path, processor,
                                     monkeypatch):
    """Of single messages. On a processor without them the program emulates them."""
    need_level(WITH_SHA[processor])
    monkeypatch.setenv("PROCESSOR", processor)
    program = machines.calls_program(compiled, emulated, prefix / "include", TESTS / "forced_level.c",
                                     TESTS / "sha_by_signals.c", archive)
    shutil.copy(VECTORS / "smoke-128f.json", tmp_path)
    machines.vectors_through(pytestconfig, *emulated.runs, program, few=True, vectors=tmp_path)


@pytest.mark.slow
def test_vectors_by_the_dll(pytestconfig, emulated, dll_program):
    machines.vectors_through(pytestconfig, *emulated.runs, dll_program, few=True)


# ---- the stack


@pytest.mark.slow
@pytest.mark.parametrize("processor", PROCESSORS)
def test_depths(pytestconfig, emulated, prefix, archive, compiled, tmp_path, processor, monkeypatch):
    """Each call clears as deep as it goes, in the code for each level."""
    level = PROCESSORS[processor]
    need_level(level)
    monkeypatch.setenv("PROCESSOR", processor)
    machine = emulated._replace(words=(*emulated.words, str(TESTS / "forced_level.c")))
    program = machines.depths_program(compiled, machine, prefix / "include", archive, tmp_path)
    machines.check_depths(pytestconfig, f"windows-x86-64-v{level}", machines.how_deep(pytestconfig), *machine.runs,
                          program, machines.SHIFTS[level])


def test_sha_instructions_take_no_more_stack_than_is_cleared_for_them(archive):
    """slh_sha256 is jumped to in the place of the proved function, which c/exports/depths/ knows: 256 bytes more are
    cleared (SLH_MORE_DEPTH)."""
    said = succeed(GCC.tool("objdump"), "-d", "--no-show-raw-insn", archive).decode()
    frames = {}
    for name, code in re.findall(r"<(slh_sha256|sha2::block256::compress)>:\n((?: .*\n)+)", said):
        begin = re.match(r"((?:.*\tpush .*\n)*).*\tsub +\$(0x[0-9a-f]+),%rsp\n", code)
        assert begin and re.findall(r"\t(?:push|sub) .*%rsp$|\tpush ", code[begin.end():]) == []
        frames.setdefault(name, set()).add(8 * begin[1].count("\n") + int(begin[2], 16))
    assert len(frames) == 2 and max(frames["slh_sha256"]) <= min(frames["sha2::block256::compress"]) + 256


@pytest.mark.slow
def test_calls_leave_no_secrets(pytestconfig, emulated, prefix, archive, compiled):
    program = machines.search_program(compiled, emulated, prefix / "include", archive)
    counted(*emulated.runs, program, *([] if pytestconfig.option.all else ["2", "4", "6"]))


@pytest.mark.slow
def test_search_finds_what_is_left(emulated, prefix, archive, compiled, tmp_path):
    machines.search_finds_what_is_left(compiled, emulated, prefix / "include", archive, tmp_path)


# ---- packages


def test_wheel_has_the_shared_object(venv, prefix, tmp_path):
    """Its name has the machine's."""
    machines.wheel_has(venv, prefix, prefix / "bin/slh.dll", "win_amd64", tmp_path)


@pytest.mark.slow
def test_program_of_cmake(emulated, prefix, tmp_path):
    machines.program_of_cmake(emulated, prefix, "Windows", "AMD64", tmp_path)


@pytest.mark.slow
def test_program_in_go(emulated, prefix, tmp_path):
    """A program in Go that takes the package and the archive for Windows signs and verifies."""
    need("go")
    (tmp_path / "page").mkdir()
    (tmp_path / "page/main.go").write_text(GO)
    env = {**os.environ, "CGO_ENABLED": "1", "GOOS": "windows", "GOARCH": "amd64", "CC": GCC.cc,
           "CGO_CFLAGS": f"-I{prefix}/include", "CGO_LDFLAGS": f"-L{prefix}/lib", "GOCACHE": str(tmp_path / "go"),
           "GOPATH": str(tmp_path / "gopath"), "GOFLAGS": "-mod=readonly", "GOPROXY": "off"}
    for words in (["mod", "init", "page"],
                  ["mod", "edit", "-require", f"{GO_MODULE}@v{machines.version()}", "-replace",
                   f"{GO_MODULE}={HERE / 'bindings/go'}"],
                  ["build", "-o", tmp_path / "signs.exe", "."]):
        succeed("go", *words, cwd=tmp_path / "page", env=env)
    assert text_of(run(*emulated.runs, tmp_path / "signs.exe")) == (0, "valid")
