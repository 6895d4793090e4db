"""The code for vectors of each number of lanes. The builds of a release have 1, 4, 8 or 16 (tools/targets.py), and `rt ci`
tests 8. tools/clang.sh has to write into a proved module, word for word, what rattle writes for a crate slh_width that
is proved with these numbers, to change nothing else, and to refuse a module that it does not know. By `--all` the
tables of known values run as code for any x86-64-v2, by a slh_conformance that is proved once more to be built.

Of the numbers of lanes one is drawn. It takes what `rt ci` has built.
"""
import difflib
import os
import re

import pytest

from support import HERE, run, succeed
from test_tables import NAMES, has_right_rows

pytestmark = pytest.mark.slow
LANES = [1, 4, 16]
DRAWN = pytest.mark.drawn("lanes", "lanes")
OF_LANES = pytest.mark.parametrize("lanes", [pytest.param(it, marks=DRAWN) for it in LANES])
MAIN = """//! Asks for the widths.
#![tactic(auto)]

use slh_width::{Width, build_widths};

fn main() {
    if let Width::One = build_widths().short {}
}
"""
PADS = re.findall(r"^\$ a\\(.*)", (HERE / "tools/for_pads_x86.sed").read_text(), re.M)
# The compiler of a toolchain that notes the modules that tools/clang.sh finds, and those that it writes.
NOTES = """#!/bin/sh
"${{0%/*}}/writes" "$@"
status=$?
/bin/cp ./*.as-proved {folder}/found
/bin/cp ./*.ll {folder}/written
exit $status
"""


@pytest.fixture(scope="module")
def widths(checked, tmp_path_factory):
    return Widths(tmp_path_factory.mktemp("widths"))


class Widths:
    """Builds of a program that asks for the widths."""

    def __init__(self, folder):
        self.folder, self.made = folder, {}

    def asks(self, rlib, toolchain):
        """Builds the program over the slh_width.rlib of a folder, by a toolchain: the outcome, and the object."""
        words = succeed(HERE / "tools/kit.py", "check", "slh_width").decode().splitlines()
        words = [re.sub("^slh_width", "asks", re.sub("^src/lib.rt", "src/main.rt", it)) for it in words]
        (self.folder / "asks/src").mkdir(parents=True, exist_ok=True)
        (self.folder / "asks/src/main.rt").write_text(MAIN)
        made = self.folder / "asks.o"
        made.unlink(missing_ok=True)
        return run(words[0], "build", *words[2:], "--extern", f"slh_width={rlib}/slh_width.rlib", "--toolchain",
                   toolchain, "--cpu", "x86-64-v2", "-o", made, cwd=self.folder / "asks"), made

    def noting(self, name, lanes):
        """A toolchain for lanes that notes modules."""
        folder = self.folder / name
        succeed(HERE / "tools/targets.py", "toolchain", folder, "x86-64-v2", str(lanes))
        (folder / "bin/clang").rename(folder / "bin/writes")
        (folder / "bin/clang").write_text(NOTES.format(folder=folder))
        (folder / "bin/clang").chmod(0o755)
        return folder

    def written(self, lanes):
        """The module that tools/clang.sh finds, and the one that it writes for lanes."""
        if lanes not in self.made:
            folder = self.noting(f"by-{lanes}", lanes)
            done, _ = self.asks(HERE / "crates/slh_width/out/rlib", folder)
            assert done.status == 0, (done.output + done.errors).decode()
            self.made[lanes] = (folder / "found").read_text(), (folder / "written").read_text()
        return self.made[lanes]

    def proved(self, lanes):
        """A folder with a slh_width that is proved to answer these lanes."""
        folder = self.folder / f"width-{lanes}"
        if not folder.exists():
            succeed(HERE / "tools/targets.py", "width", str(lanes), folder, timeout=3600)
        return folder


def answers(module):
    """The lines of the function that says the widths."""
    found = re.search(r'^define .*@"slh_width::build_widths"\(\) .*?^\}', module, re.M | re.S)
    return found and found[0]


@OF_LANES
def test_what_is_written_is_proved(widths, lanes):
    _, written = widths.written(lanes)
    folder = widths.noting(f"of-{lanes}", 8)
    # If the answer is another one, clang.sh refuses the module, and has written down what it found.
    widths.asks(widths.proved(lanes), folder)
    proved = answers((folder / "found").read_text())
    assert proved and answers(written) == proved


@OF_LANES
def test_nothing_else_is_written(widths, lanes):
    """But for the lines by which functions begin with a pad."""
    found, written = (it.splitlines() for it in widths.written(lanes))
    assert written[-len(PADS):] == PADS
    lines = [it for it in difflib.ndiff(found, written[:-len(PADS)]) if it.startswith(("- ", "+ "))]
    assert [it[0] for it in lines].count("-") == [it[0] for it in lines].count("+") in (1, 2), lines
    assert all(re.fullmatch(r"[-+]   store i8 [0-3], ptr %r[12], align 1", it) for it in lines), lines


@OF_LANES
def test_module_with_other_answers_is_refused(widths, lanes):
    folder = widths.folder / f"refusing-{lanes}"
    succeed(HERE / "tools/targets.py", "toolchain", folder, "x86-64-v2", "4")
    done, made = widths.asks(widths.proved(lanes), folder)
    assert done.status != 0 and not made.exists()


@pytest.fixture(scope="module")
def with_lanes(widths):
    """The program slh_conformance with vectors of lanes: with_lanes(LANES) is its path."""

    def builds(lanes):
        if os.environ["SLH_SEED"] != "all":
            pytest.skip("slh_conformance is proved once more for this (with --all)")
        program = widths.folder / f"lanes-{lanes}"
        if not program.exists():
            succeed(HERE / "tools/program.sh", "x86-64-v2", program, "slh_conformance", str(lanes), timeout=7200)
        return program

    return builds


@OF_LANES
@pytest.mark.parametrize("table", NAMES)
def test_tables(with_lanes, lanes, table):
    has_right_rows(with_lanes(lanes), table)
