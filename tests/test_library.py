"""Tests the library for C as tools/library.sh installs it on this machine: its symbols, versions and headers, calls and
jobs with valid and invalid arguments, answers that change during a call, the stack, and vectors of other
implementations. Some cases run a program in C whose last line has its counts.
"""
import json
import re
import sys

import pytest

from conftest import STRICT, chosen_release, is_from_source
from machines import (LIBRARY_CALLS, OF_C, VERIFY_CALLS, counted, first_instructions, notes, numbers_are_those_of,
                      of_kind, symbols)
from support import HERE, SANITIZED, TESTS, VECTORS, need, run, succeed, tool_of

CC, CXX = tool_of("cc"), tool_of("g++")
LANGUAGES = {"c99": (CC, "c", "void"), "c2x": (CC, "c", "void"), "c++11": (CXX, "c++", ""), "c++17": (CXX, "c++", "")}
BY_STANDARD = pytest.mark.parametrize("standard", LANGUAGES)
# A library of the caller's whose own names are hidden, and which calls this one.
HIDDEN = """\
#pragma GCC visibility push(hidden)
#include <slh.h>
uint32_t one(void);
uint32_t one(void) { return slh_version(); }
"""
VERIFIES = "#include <slh.h>\nint main(void) { return (int)slh_verify(1, 0, 0, 0, 0, 0, 0, 0, 0); }\n"
VERSION = """\
#include <slh.h>
#include <stdio.h>

int main(void) {
    uint32_t it = slh_version();
    printf("%s\\n%d.%d.%d\\n", SLH_VERSION, SLH_VERSION_MAJOR, SLH_VERSION_MINOR, SLH_VERSION_PATCH);
    printf("%u.%u.%u\\n", (unsigned)(it / 1000000), (unsigned)(it / 1000 % 1000), (unsigned)(it % 1000));
    return it != SLH_VERSION_NUMBER;
}
"""


@pytest.fixture
def built(compiled, include, tmp_path):
    """Compiles a text in C: built(TEXT, WORD..) is its path."""

    def makes(text, *words):
        (tmp_path / "program.c").write_text(text)
        return compiled("program", "-I", include, tmp_path / "program.c", *words)

    return makes


# ---- symbols


def has_symbols(installed, wanted, *words):
    """A file defines these, and asks for three of C. One from source also asks for what Rust's own library takes, and
    its linker lists the version of the symbols, as an absolute one."""
    found = symbols("nm", *words)
    if is_from_source(installed):
        found = [it for it in found if not re.match(r"U |A SLH_\d+$", it)]
    else:
        wanted = wanted + of_kind("U", OF_C)
    assert found == sorted(wanted)


def test_archive_defines_the_calls(installed, lib):
    has_symbols(installed, of_kind("T", LIBRARY_CALLS), lib / "libslh.a")


def test_shared_object_defines_the_calls(installed, lib):
    has_symbols(installed, of_kind("T", LIBRARY_CALLS), "-D", lib / "libslh.so")


def test_verify_archive_defines_six_calls(installed, lib):
    has_symbols(installed, of_kind("W", VERIFY_CALLS), lib / "libslh_verify.a")


def test_program_that_verifies_has_no_code_that_signs(built, lib):
    """The linker drops all that is not called."""
    text = succeed("nm", built(VERIFIES, lib / "libslh.a", "-Wl,--gc-sections")).decode()
    assert re.search(" T slh_verify$", text, re.M) and not re.search("slh_(sign|keygen|clear)", text)


def test_calls_are_found_where_all_else_is_hidden(compiled, include, lib, tmp_path):
    (tmp_path / "hidden.c").write_text(HIDDEN)
    compiled("hidden.so", "-shared", "-fPIC", *STRICT, "-I", include, tmp_path / "hidden.c", lib / "libslh.so",
             "-Wl,--no-undefined")


def test_shared_object_has_its_name(lib):
    """Loaders find it under this name, and linkers by the link."""
    need("readelf")
    assert re.search(r"SONAME.*\[libslh\.so\.1\]", succeed("readelf", "-d", lib / "libslh.so.1").decode())
    assert (lib / "libslh.so").readlink().name == str((lib / "libslh.so").readlink()) == "libslh.so.1"


def test_shared_object_has_a_build_id(lib):
    """Debuggers find its symbols by it."""
    need("readelf")
    assert re.search(r"Build ID: [0-9a-f]{40}$", notes("readelf", lib / "libslh.so.1"), re.M)


@pytest.mark.usefixtures("built_by_the_kit")
@pytest.mark.parametrize("file", ["libslh.so.1", "libslh.a", "libslh-v2.a", "libslh-v3.a", "libslh-v4.a",
                                  "libslh_verify.a"])
def test_code_is_marked_for_ibt_and_a_shadow_stack(lib, file):
    """The linker marks what it makes only if each object is."""
    need("readelf")
    assert "Properties: x86 feature: IBT, SHSTK" in notes("readelf", lib / file)


@pytest.mark.usefixtures("built_by_the_kit")
def test_indirect_branches_find_pads(lib):
    """A call begins with a pad. Inside, indirect branches go to C's functions, by the loader's table, or go by a table
    of jumps, which an exemption marks."""
    need("objdump")
    first = first_instructions("objdump", lib / "libslh.so.1")
    assert {it: first[it] for it in LIBRARY_CALLS} == dict.fromkeys(LIBRARY_CALLS, "endbr64")
    text = succeed("objdump", "-d", "--no-show-raw-insn", lib / "libslh.so.1").decode()
    branches = re.findall(r"\t((?:notrack )?(?:call|jmp) +\*.*)", text)
    assert branches
    assert [it for it in branches if not re.match(r"notrack jmp +\*%|(call|jmp) +\*0x[0-9a-f]+\(%rip\)", it)] == []


@pytest.mark.usefixtures("built_by_the_kit")
def test_shared_object_of_an_earlier_release_is_not_loaded(pytestconfig, compiled, installed, tmp_path):
    """glibc would load one for a level in place of what is installed now."""
    old = tmp_path / f"lib/glibc-hwcaps/x86-64-v3/libslh.so.{0}"  # tools/version.py does not change this name
    old.parent.mkdir(parents=True)
    old.write_text("of an earlier release\n")
    dist = ["--dist", chosen_release(pytestconfig)] if pytestconfig.option.release else []
    succeed(HERE / "tools/library.sh", *dist, tmp_path, timeout=7200)
    (tmp_path / "program.c").write_text(VERIFIES)
    program = compiled("shared", "-I", tmp_path / "include", tmp_path / "program.c", tmp_path / "lib/libslh.so")
    assert not old.exists()
    loaded = succeed("env", f"LD_LIBRARY_PATH={tmp_path}/lib", "ldd", program).decode()
    assert f"=> {tmp_path}/lib/libslh.so.1 (" in loaded


# ---- versions and headers


def test_all_are_of_one_version(built, lib):
    """That of the file VERSION: header, library, and what pkg-config says."""
    need("pkg-config")
    version = (HERE / "VERSION").read_text().strip()
    said = succeed(built(VERSION, "-std=c99", *STRICT, lib / "libslh.a")).decode().split()
    packages = succeed("env", f"PKG_CONFIG_PATH={lib}/pkgconfig", "pkg-config", "--modversion", "slh", "slh_verify")
    assert said + packages.decode().split() == 5 * [version]


def compile_headers(include, standard, body, *words):
    """Compiles a program over the headers, two of them twice, with more in its one function."""
    compiler, language, nothing = LANGUAGES[standard]
    need(compiler)
    text = "".join(f"#include <slh_{it}.h>\n#include <slh.h>\n" for it in ("verify", "internal", "verify", "internal"))
    text += f"int main({nothing}) {{ {body} return SLH_DONE; }}\n"
    return run("env", "LC_ALL=C", compiler, f"-std={standard}", *STRICT, "-I", include, *words, "-x", language, "-",
               stdin=text.encode())


@BY_STANDARD
def test_headers_compile(include, standard):
    assert compile_headers(include, standard, "", "-fsyntax-only") == (0, b"", b"")


@BY_STANDARD
def test_unused_result_is_warned_of(include, standard, tmp_path):
    """And nothing else is."""
    body = "slh_verify(1, 0, 0, 0, 0, 0, 0, 0, 0);"
    status, _, said = compile_headers(include, standard, body, "-c", "-o", tmp_path / "unused.o")
    assert status != 0 and said.count(b"error:") == 1 and re.search(b"error: .*unused-result", said), said.decode()


@pytest.mark.parametrize("header", ["slh.h", "slh_verify.h"])
def test_header_has_no_call_of_the_internal_interface(include, header):
    assert not re.search(r"_internal *\(", (include / header).read_text())


@pytest.mark.parametrize("headers, calls", [
    (["slh.h", "slh_verify.h", "slh_internal.h"], LIBRARY_CALLS), (["slh_verify.h"], sorted(VERIFY_CALLS))],
    ids=["all", "verify"])
def test_each_call_is_declared_once(include, headers, calls):
    text = "".join((include / it).read_text() for it in headers)
    assert sorted(re.findall(r"^(?:uint32_t |void |const char \*)(slh_[a-z_]*)\(", text, re.M)) == calls


# ---- calls


@pytest.mark.slow
@pytest.mark.parametrize("source", ["library_tests.c", "library_jobs_tests.c"], ids=["calls", "jobs"])
def test_valid_and_invalid(compiled, include, lib, source, monkeypatch):
    monkeypatch.setenv("ASAN_OPTIONS", "detect_leaks=0")
    counted(compiled("calls", "-std=c99", *STRICT, *SANITIZED, "-I", include, TESTS / source, lib / "libslh.a",
                     "-pthread"))


@pytest.mark.slow
def test_many_as_one_by_one(pytestconfig, compiled, include, lib):
    """slh_verify_many and slh_verify give the same verdicts. Two sets are tried, and all with --all."""
    program = compiled("many", "-std=c99", *STRICT, *SANITIZED, "-I", include, TESTS / "library_many.c",
                       lib / "libslh.a")
    counted(program, *([] if pytestconfig.option.all else ["26"]))


@pytest.mark.slow
def test_answers_that_change_during_a_call(compiled, include, lib):
    counted(compiled("late", "-std=c11", "-O1", *STRICT, "-I", include, TESTS / "library_late.c", lib / "libslh.a",
                     "-pthread"), "1500")


@pytest.mark.slow
def test_stack_is_below_the_limits(compiled, include, lib):
    said = succeed(compiled("stack", "-std=c99", *STRICT, "-I", include, TESTS / "library_stack.c", lib / "libslh.a",
                            "-pthread", "-Wl,-z,now"))
    assert len(said.splitlines()) == 8 and said.endswith(b"\nbelow the limits\n")


@pytest.mark.slow
@pytest.mark.usefixtures("built_by_the_kit")
def test_numbers_of_the_documents(installed):
    numbers_are_those_of("x86-64", installed)


# ---- vectors


def vector_files():
    files = [it for it in sorted(VECTORS.glob("*.json")) if it.name != "records.json"]
    names = {it.stem.removeprefix("slh-dsa-sha2-"): it for it in [*files, VECTORS / "more.tsv"]}
    return [pytest.param(it, id=name, marks=() if name == "smoke-128f" else pytest.mark.slow)
            for name, it in names.items()]


def cases_of(file):
    """The tests of a file, of which each row of more.tsv is one."""
    if file.suffix == ".json":
        return json.loads(file.read_text())
    return [it for it in file.read_text().splitlines() if not it.startswith("#")]


def vectors_pass(library, file, folder, wanted, *words):
    """Runs the vectors of one file through a library. As many tests as wanted have to pass."""
    (folder / file.name).symlink_to(file)
    status, said, errors = run(sys.executable, TESTS / "library_vectors.py", *words, library, folder)
    assert (status, said, errors) == (0, f"{wanted} passed, 0 failed\n".encode(), b"")


@pytest.mark.parametrize("file", vector_files())
def test_vectors(lib, file, tmp_path):
    """Of each set whose name ends in f, one more test has wrong answers joined."""
    tests = cases_of(file)
    of_faults = any(isinstance(it, dict) and it["kind"] == "sign" and it["form"] == "pure" and it["set"][-1] == "f"
                    for it in tests)
    vectors_pass(lib / "libslh.so", file, tmp_path, len(tests) + of_faults)


@pytest.mark.parametrize("file", vector_files()[:-1])
def test_vectors_by_verify_archive(compiled, lib, file, tmp_path):
    library = compiled("libslh_verify.so", "-shared", "-Wl,--whole-archive", lib / "libslh_verify.a",
                       "-Wl,--no-whole-archive")
    wanted = sum(it["kind"] == "verify" and it["form"] != "internal" for it in cases_of(file))
    vectors_pass(library, file, tmp_path, wanted, "--verify-only")
