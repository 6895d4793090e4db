"""Runs the program `slh` over tables of command lines, and compares what it writes.

A table is a file of tests/vectors/commands. A row is a line, a JSON object; lines that begin with `#` are comments. The
rows of a table have a folder of their own, which is empty at first. Bytes that are no ASCII are the characters 80 to
ff. Members:

- `words`: the arguments;
- `status`, and one of `output` (all of it), `sha256` (of the output) or `contains` (texts that the output has);
- `width`: the most characters that a line of the output has;
- `errors`: all of standard error, empty if it is left out;
- `input`: standard input, empty if it is left out;
- `write`: files to write before the run, by name; they stay;
- `keep`: the name of a file to write the output into, after the run;
- for this run alone, one of `cut`: a file and a length, to which it is cut; `put`: a file, a place and the bytes there;
  `flip`: a file and a place, where the first bit is flipped; `add`: a file and bytes that come after its own.

A row fails if anything differs, and if it is no such object. The file rows.txt has the number of rows of each table and
command, so that none is lost. With `--python=FOLDER` the program is `python -m slh` of the package in FOLDER, for its
five commands, without rows of custom sets.
"""
import collections
import hashlib
import json
import os
import sys

import pytest

from support import VECTORS, run

pytestmark = pytest.mark.usefixtures("of_these_sources")

TABLES = VECTORS / "commands"
OF_PYTHON = {"keygen", "public", "sign", "verify", "check", "--version", "-V"}
CHANGES, ANSWERS = {"cut", "put", "flip", "add"}, {"output", "sha256", "contains"}
MEMBERS = {"words", "status", "width", "errors", "input", "write", "keep", *CHANGES, *ANSWERS}
# A table of fewer bytes is among the few tests.
FEW = 5000


def rows_of(table):
    """The rows of a table by the numbers of their lines."""
    lines = enumerate((TABLES / f"{table}.jsonl").read_text().splitlines(), 1)
    return {number: json.loads(line) for number, line in lines if not line.startswith("#")}


def command_of(row):
    return row["words"][0] if row["words"] else "none"


ROWS = {it.stem: rows_of(it.stem) for it in sorted(TABLES.glob("*.jsonl"))}


def pytest_generate_tests(metafunc):
    if "number" not in metafunc.fixturenames:
        return
    found = [(table, number, row) for table, rows in ROWS.items() for number, row in rows.items()]
    if metafunc.config.option.python:
        found = [it for it in found if command_of(it[2]) in OF_PYTHON]
    slow = {it: (TABLES / f"{it}.jsonl").stat().st_size >= FEW for it in ROWS}
    metafunc.parametrize("table, number", [
        pytest.param(table, number, id=f"{table}-{number}-{command_of(row)}".encode("unicode_escape").decode()[:60],
                     marks=pytest.mark.slow if slow[table] else ()) for table, number, row in found])


class Commands:
    """The program, or `python -m slh` of a package, with its environment."""

    def __init__(self, words, package=None):
        self.words, self.package = words, package
        self.env = {**os.environ, **({"PYTHONPATH": package, "PYTHONDONTWRITEBYTECODE": "1"} if package else {})}

    def run(self, row, folder):
        """What came of a row, whose files are there. One of them may be changed for this run."""
        path, data = changed(row, folder)
        whole = path and path.read_bytes()
        if path:
            path.write_bytes(data)
        done = run(*self.words, *row["words"], cwd=folder, stdin=row.get("input", "").encode("latin-1"), timeout=120,
                   env=self.env)
        if path:
            path.write_bytes(whole)
        if "keep" in row:
            (folder / row["keep"]).write_bytes(done.output)
        return done

    def lacks(self, row, folder, lacking):
        """Whether the package can't run a row: it is of a custom set, or takes a file that such a row would keep, whose
        name is in `lacking`."""
        if not self.package:
            return False
        files = [folder / it for it in row["words"][1:] if 0 < len(it) < 256 and (folder / it).is_file()]
        texts = [*(it.encode() for it in row["words"]), *(it.read_bytes()[:512] for it in files)]
        return bool(command_of(row) not in OF_PYTHON or any(b"custom:" in it for it in texts)
                    or lacking & {*row["words"]})


def changed(row, folder):
    """What a file has in this run alone: its path and its bytes, or none."""
    for how in CHANGES & row.keys():
        name, at, *new = row[how]
        data = (folder / name).read_bytes()
        if how == "add":
            return folder / name, data + at.encode("latin-1")
        assert at <= len(data) - (how != "cut"), "no such place"
        if how == "cut":
            return folder / name, data[:at]
        there = new[0].encode("latin-1") if how == "put" else bytes([data[at] ^ 0x80])
        return folder / name, data[:at] + there + data[at + len(there):]
    return None, b""


class Table:
    """A table in a folder, in which each row before the next one has left its files."""

    def __init__(self, name, commands, folder):
        self.rows, self.commands, self.folder, self.left, self.lacking = ROWS[name], commands, folder, 0, set()

    def run(self, number):
        """What came of a row, after the files of those before it; or None if the package can't run it."""
        for it in [it for it in self.rows if self.left < it < number]:
            self.leave(self.rows[it], "keep" in self.rows[it])
        self.left = number
        return self.leave(self.rows[number], True)

    def leave(self, row, is_run):
        """Leaves the files of a row, and runs it if that is needed for them."""
        for name, text in row.get("write", {}).items():
            (self.folder / name).write_bytes(text.encode("latin-1"))
        if self.commands.lacks(row, self.folder, self.lacking):
            self.lacking.update([row["keep"]] if "keep" in row else [])
            return None
        return self.commands.run(row, self.folder) if is_run else None


@pytest.fixture(scope="module")
def commands(request, pytestconfig):
    if pytestconfig.option.python:
        return Commands([sys.executable, "-m", "slh"], os.path.realpath(pytestconfig.option.python))
    return Commands([request.getfixturevalue("program")])


@pytest.fixture(scope="module")
def runs(commands, tmp_path_factory):
    """Runs a row: runs(TABLE, NUMBER) is what came of it. A table begins again for a row before the last one."""
    tables = {}

    def of_row(name, number):
        if name not in tables or tables[name].left >= number:
            tables[name] = Table(name, commands, tmp_path_factory.mktemp(name))
        return tables[name].run(number)

    return of_row


@pytest.mark.program
def test_row(runs, table, number):
    row = ROWS[table][number]
    assert {"words", "status"} <= row.keys() <= MEMBERS and len(ANSWERS & row.keys()) == 1 and row.get("contains") != []
    done = runs(table, number)
    if done is None:
        pytest.skip("the row is of a custom set, or takes a file of another command")
    output, errors = done.output.decode("latin-1"), done.errors.decode("latin-1")
    assert (done.status, errors) == (row["status"], row.get("errors", ""))
    assert max(map(len, output.split("\n"))) <= row.get("width", len(output))
    if "sha256" in row:
        assert hashlib.sha256(done.output).hexdigest() == row["sha256"]
    elif "output" in row:
        assert output == row["output"]
    else:
        assert not [it for it in row["contains"] if it not in output], output


def test_no_row_is_lost():
    found = collections.Counter(f"{table} {command_of(row)}" for table, rows in ROWS.items() for row in rows.values())
    listed = [f"{name} {count}" for name, count in sorted(found.items())]
    assert listed and listed == (TABLES / "rows.txt").read_text().splitlines()
