"""Tests what calls of the library for C leave: each clears the stack as deep as it went, and no secret is found on the
stack or in registers. So does slh_erase with the buffers of a caller. A stack that is too short ends at its guard page.

library_depths.c brings an slh_clear of its own, which says how deep a call clears. library_erase.c searches for
secrets. Under SLH_SEED one archive is measured in full, each library is searched under one of three sets, and one of
them under all six.
"""
import os

import pytest

import machines
from conftest import STRICT
from machines import counted
from support import TESTS, best_level, need_level, succeed, tool_of

ARCHIVES = {"libslh.a": None, "libslh-v2.a": 2, "libslh-v3.a": 3, "libslh-v4.a": 4}
LIBRARIES = {**ARCHIVES, "libslh.so": None}
SETS = {"128f": "2", "192f": "4", "256f": "6"}
MACHINE = machines.Machine("x86-64", tool_of("cc"))

pytestmark = pytest.mark.usefixtures("built_by_the_kit")


# ---- depths


def drawn(name, parameter):
    return [pytest.mark.slow, pytest.mark.drawn(name, parameter)]


@pytest.mark.parametrize("archive, how", [
    *(pytest.param(it, "few", marks=pytest.mark.slow) for it in ARCHIVES),
    *(pytest.param(it, "full", marks=drawn("depths in full", "archive")) for it in ARCHIVES)])
def test_depths(pytestconfig, compiled, include, lib, tmp_path, archive, how):
    """Each call clears as deep as it goes."""
    level = ARCHIVES[archive] or best_level()
    need_level(level)
    if pytestconfig.option.write and not ARCHIVES[archive]:
        pytest.skip("with --write the archive of each level is measured")
    program = machines.depths_program(compiled, MACHINE, include, lib / archive, tmp_path)
    machines.check_depths(pytestconfig, f"x86-64-v{level}", how, program, machines.SHIFTS[level])


# Processors that hash all or single messages by SHA instructions, in an emulator, and whose depths are theirs.
WITH_SHA = {"Denverton": ("x86-64-v2-sha", 2), "EPYC-Rome": ("x86-64-v3", 3)}
EMULATED = [pytest.mark.slow, pytest.mark.emulator]
# Archives whose program emulates the instructions: no emulator has x86-64-v4. C's library uses this processor's vectors,
# so the one that the program names has them all.
OF_SIGNALS = {"libslh.a": ("x86-64-v4", 4), "libslh-v2.a": ("x86-64-v2", 2)}
AS_PROCESSOR = "PROCESSOR", "skylake with SHA instructions"
BY_SIGNALS = [str(TESTS / it) for it in ("forced_level.c", "sha_by_signals.c")]


@pytest.mark.parametrize("processor", [pytest.param(it, marks=EMULATED) for it in WITH_SHA])
def test_depths_by_sha_instructions(pytestconfig, compiled, include, lib, tmp_path, processor):
    target, level = WITH_SHA[processor]
    if pytestconfig.option.write and not target.endswith("-sha"):
        pytest.skip("with --write the archive of each level is measured")
    program = machines.depths_program(compiled, MACHINE, include, lib / "libslh.a", tmp_path)
    machines.check_depths(pytestconfig, target, machines.how_deep(pytestconfig),
                          *machines.qemu_with_sha(processor), program, machines.SHIFTS[level])


@pytest.mark.parametrize("archive", [pytest.param(it, marks=drawn("depths by signals", "archive")) for it in OF_SIGNALS])
def test_depths_by_emulated_instructions(pytestconfig, compiled, include, lib, tmp_path, archive, monkeypatch):
    target, level = OF_SIGNALS[archive]
    need_level(4)
    if pytestconfig.option.write:
        pytest.skip("with --write the archive of each level is measured")
    monkeypatch.setenv(*AS_PROCESSOR)
    machine = MACHINE._replace(words=BY_SIGNALS)
    program = machines.depths_program(compiled, machine, include, lib / archive, tmp_path, "slh_ask_processor")
    machines.check_depths(pytestconfig, target, "few", program, machines.SHIFTS[level])


def test_caller_erases_its_buffer(compiled, include, lib):
    """And a first call leaves zeros."""
    succeed(compiled("buffers", "-std=c99", *STRICT, "-O3", "-I", include, TESTS / "erased_buffers.c", lib / "libslh.a",
                     "-Wl,-z,lazy"))


@pytest.mark.slow
def test_short_stack_ends_at_its_guard_page(compiled, include, lib):
    counted(compiled("guard", "-std=c11", *STRICT, "-I", include, TESTS / "library_guard.c", lib / "libslh.a"))


# ---- secrets


@pytest.fixture
def search(compiled, include, lib):
    """Searches what calls of a library leave: search(LIBRARY, SET..). The loader finds calls of C when they are called,
    and so saves registers on the stack."""

    def searches(library, *sets):
        need_level(LIBRARIES[library] or 2)
        program = compiled("erase", "-std=c11", "-O2", *STRICT, "-I", include, TESTS / "library_erase.c",
                           lib / library, "-Wl,-z,lazy")
        counted(program, *sets, env={**os.environ, "LD_LIBRARY_PATH": str(lib)})

    return searches


@pytest.mark.parametrize("library, of_set", [
    pytest.param(library, name, marks=drawn(f"the set of {library}", "of_set"))
    for library in LIBRARIES for name in SETS])
def test_calls_leave_no_secret(search, library, of_set):
    search(library, SETS[of_set])


@pytest.mark.parametrize("library", [
    pytest.param(it, marks=drawn("searched under all sets", "library")) for it in LIBRARIES])
def test_calls_leave_no_secret_under_all_sets(search, library):
    search(library)


@pytest.mark.parametrize("processor, of_set", [
    pytest.param(processor, name, marks=[*EMULATED, pytest.mark.drawn(f"the set of {processor}", "of_set")])
    for processor in WITH_SHA for name in SETS])
def test_calls_by_sha_instructions_leave_no_secret(compiled, include, lib, processor, of_set):
    program = machines.search_program(compiled, MACHINE, include, lib / "libslh.a")
    counted(*machines.qemu_with_sha(processor), program, SETS[of_set])


@pytest.mark.parametrize("archive, of_set", [
    pytest.param(archive, name, marks=drawn(f"the set of {archive} by signals", "of_set"))
    for archive in OF_SIGNALS for name in SETS])
def test_calls_by_emulated_instructions_leave_no_secret(compiled, include, lib, tmp_path, archive, of_set, monkeypatch):
    need_level(4)
    monkeypatch.setenv(*AS_PROCESSOR)
    machines.with_weak(MACHINE, lib / archive, tmp_path / "weak.a", "slh_ask_processor")
    program = machines.search_program(compiled, MACHINE, include, *BY_SIGNALS, tmp_path / "weak.a")
    counted(program, SETS[of_set])


@pytest.mark.slow
def test_search_finds_secrets_if_nothing_is_cleared(compiled, include, lib, tmp_path):
    machines.search_finds_what_is_left(compiled, MACHINE, include, lib / "libslh.a", tmp_path)
