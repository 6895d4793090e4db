"""Compares the library with the tables of known values, tests/vectors/tables, by the program slh_conformance, which
`rt ci` or a check of its crate builds. Each row must be right, and none may be malformed or of an unknown function. A
table must have the rows of each function that rows.txt says, so that none is lost, and each function of the program
must have some.
"""
import collections
import re

import pytest

from support import HERE, VECTORS, run

TABLES, CRATE = VECTORS / "tables", HERE / "crates/slh_conformance"
LISTED = [it.split() for it in (TABLES / "rows.txt").read_text().splitlines()]
NAMES = sorted({table for table, _, _ in LISTED})


@pytest.fixture(scope="module")
def conformance(checked):
    """The program slh_conformance of the sources."""
    program = CRATE / "out/slh_conformance"
    if not program.exists():
        pytest.fail("slh_conformance is not built: rt check and rt build, in its folder, or rt ci")
    return program


def has_right_rows(program, table):
    """Asserts that each row of a table is right, and that the numbers of rows by function are those of rows.txt."""
    with open(TABLES / f"{table}.tsv", "rb") as file:
        done = run(program, stdin=file)
    lines = (done.output + done.errors).decode().splitlines()
    wrong = [f"{at}: {line}" for at, line in enumerate(lines, 1) if not line.endswith(" right")]
    assert done.status == 0 and not wrong, (done.status, wrong[:20])
    found = collections.Counter(it.removesuffix(" right") for it in lines)
    assert found == {name: int(count) for of, name, count in LISTED if of == table}


@pytest.mark.parametrize("table", NAMES)
def test_rows_are_right(conformance, table):
    has_right_rows(conformance, table)


def test_each_table_is_listed():
    assert NAMES and NAMES == sorted(it.stem for it in TABLES.glob("*.tsv"))


def test_each_function_of_the_program_has_rows():
    text = "\n".join(it.read_text() for it in (CRATE / "src").glob("*.rt"))
    names = re.findall(r'^ *"([a-z0-9_]*)" => [a-z0-9_:]*\(row\),$', text, re.M)
    assert names and sorted(names) == sorted({name for _, name, _ in LISTED})
