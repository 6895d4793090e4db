"""Builds a program over a clone that is a subproject of Meson: by the archive of the release, by the portable C, and by
neither if a file of the release is damaged."""
import re
import shutil

import pytest

from conftest import chosen_release
from support import HERE, need, run, succeed

PROJECT = """project('user', 'c')
slh_dep = subproject('slh').get_variable('slh_dep')
executable('by_subproject', 'program.c', dependencies: slh_dep)
executable('by_name', 'program.c', dependencies: dependency('slh', version: '>=0.13'))
"""
PROGRAM = """#include <slh.h>
#include <stdio.h>
int main(void) {
    size_t pk, sk, sig, n;
    if (slh_version() != SLH_VERSION_NUMBER || slh_lengths(SLH_DSA_SHA2_128S, &pk, &sk, &sig, &n) != SLH_DONE)
        return 1;
    return printf("%zu\\n", sig) < 0;
}
"""
# This machine under the name of one for which the release has no archive.
OTHER_MACHINE = """[binaries]
c = 'cc'
ar = 'ar'
[host_machine]
system = 'linux'
cpu_family = 'loongarch64'
cpu = 'loongarch64'
endian = 'little'
"""

pytestmark = pytest.mark.slow


@pytest.fixture
def project(pytestconfig, tmp_path):
    """A project that has a clone as a subproject, and files for other machines."""
    need("meson", "ninja", "cc")
    clone = tmp_path / "subprojects/slh"
    clone.mkdir(parents=True)
    for it in ("meson.build", "VERSION"):
        shutil.copy(HERE / it, clone)
    shutil.copytree(chosen_release(pytestconfig) or HERE / "dist", clone / "dist")
    armv6 = OTHER_MACHINE.replace("cpu_family = 'loongarch64'", "cpu_family = 'arm'").replace("loongarch64", "armv6l")
    for name, text in [("meson.build", PROJECT), ("program.c", PROGRAM), ("other.ini", OTHER_MACHINE),
                       ("armv6.ini", armv6)]:
        (tmp_path / name).write_text(text)
    return tmp_path


def build(project, *words):
    return run("meson", "setup", *words, "built", cwd=project)


@pytest.mark.parametrize("words, file", [([], "libslh.a"), (["--cross-file", "other.ini"], "slh.c")])
def test_program_runs(project, words, file):
    """By the archive alone, or by the portable C alone."""
    for it in (project / "subprojects/slh/dist").rglob("*"):
        if it.name in {"libslh.a", "slh.c"} - {file}:
            it.unlink()
    outcome = build(project, *words)
    assert outcome.status == 0, outcome.output.decode()[-2000:]
    succeed("meson", "compile", "-C", "built", cwd=project)
    for name in ("by_subproject", "by_name"):
        assert succeed(project / "built" / name) == b"7856\n"


def test_arm_before_version_7_takes_the_c(project):
    """The archive takes NEON."""
    (project / "subprojects/slh/dist/armv7/libslh.a").unlink()
    assert build(project, "--cross-file", "armv6.ini").status == 0


@pytest.mark.parametrize("words, file", [
    ([], "x86-64/libslh.a"), ([], "include/slh.h"), (["--cross-file", "other.ini"], "portable/slh.c")])
def test_damaged_file_is_named(project, words, file):
    with open(project / "subprojects/slh/dist" / file, "ab") as it:
        it.write(b"\n")
    outcome = build(project, *words)
    assert outcome.status != 0
    assert f"slh: dist/{file} is not the file that dist/SHA256SUMS lists" in outcome.output.decode()


def test_version_is_that_of_the_repository(project):
    text = build(project).output.decode()
    assert f"slh| Project version: {(HERE / 'VERSION').read_text().strip()}\n" in text


# ---- what meson.build names


def test_each_header_is_compared():
    names = re.findall(r"'include/([\w.]+)'", (HERE / "meson.build").read_text())
    assert sorted(names) == sorted(it.name for it in (HERE / "dist/include").iterdir())


@pytest.mark.parametrize("family, number", [("x86_64", 62), ("aarch64", 183), ("riscv64", 243), ("arm", 40)])
def test_archive_is_of_the_machine(family, number):
    """By the number in the ELF of its first object."""
    folder, = re.findall(f"'linux {family} little': '(.*)'", (HERE / "meson.build").read_text())
    data = (HERE / "dist" / folder / "libslh.a").read_bytes()
    at = data.index(b"\x7fELF")
    assert int.from_bytes(data[at + 18:at + 20], "little") == number
