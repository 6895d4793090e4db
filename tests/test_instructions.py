"""Counts the instructions of calls of the library for C, and compares them with tests/instructions.txt: key generation,
signing, the jobs of a signature, and verifying. It does so of the program of a release that verifies eight signatures
at a time. Speed that no clause secures shows here, as work that is done twice or hashes that left the SIMD lanes. A
count may be 2 % above or below its line.

`pytest tests/test_instructions.py --write` writes the counts of these libraries anew. valgrind knows no AVX-512, so the
archive for x86-64-v4 is skipped.
"""
import json

import pytest

from conftest import STRICT, takes_dist
from support import TESTS, VECTORS, callgrind, has_feature, need

TABLE = TESTS / "instructions.txt"
LINES = {tuple(it.split()[:3]): int(it.split()[3]) for it in TABLE.read_text().splitlines()}
LEVELS = ["v2", pytest.param("v3", marks=pytest.mark.slow), "v4"]
EIGHT = ["128f", "192f"]


@pytest.fixture(scope="module")
def written(pytestconfig):
    """The counts that were found. With --write they come into the table, in place of those of their levels."""
    found = {}
    yield found
    if pytestconfig.option.write:
        levels = {it[0] for it in found}
        lines = {**{key: count for key, count in LINES.items() if key[0] not in levels}, **found}
        TABLE.write_text("".join(sorted(f"{' '.join(key)} {count}\n" for key, count in lines.items())))


@pytest.fixture(scope="module")
def counts(request, pytestconfig, installed, compiled, written, tmp_path_factory):
    """The counts of an archive for a level, by task and set."""
    level = request.param
    need("valgrind")
    if level == "v4":
        pytest.skip("valgrind knows no AVX-512")
    if level == "v3" and not has_feature("avx2"):
        pytest.skip("this processor has no avx2")
    program = compiled("instructions", "-std=c11", "-O1", *STRICT, "-Wno-pedantic", "-I", installed / "include",
                       TESTS / "library_instructions.c", installed / f"lib/libslh-{level}.a")
    found = {tuple(label.split()): it for label, it in callgrind(tmp_path_factory.mktemp(level), program)[1] if label}
    if takes_dist(pytestconfig):
        folder = request.getfixturevalue("release")
        found |= {("eight", name): eight(folder / f"x86-64-{level}/slh", name, tmp_path_factory) for name in EIGHT}
    written.update({(level, *key): number for key, number in found.items()})
    return level, found


def eight(program, name, tmp_path_factory):
    """The instructions of a program that verifies the first eight tests of a set that have a whole signature."""
    folder = tmp_path_factory.mktemp("eight")
    tests = json.loads((VECTORS / f"slh-dsa-sha2-{name}.json").read_text())
    tests = [it for it in tests if it["kind"] == "verify"]
    whole = next(len(it["signature"]) for it in tests if it["valid"])
    tests = [it for it in tests if len(it["signature"]) == whole][:8]
    (folder / "eight.json").write_text(json.dumps(tests))
    output, counted = callgrind(folder, program, "vectors", "--file", folder / "eight.json")
    assert output.decode().splitlines()[-1] == "passed 8 failed 0"
    (_, number), = counted
    return number


@pytest.mark.parametrize("task", sorted({it[1:] for it in LINES}), ids="-".join)
@pytest.mark.parametrize("counts", LEVELS, indirect=True)
def test_count_is_near_its_line(counts, pytestconfig, task):
    level, found = counts
    if pytestconfig.option.write:
        pytest.skip("the table is written anew")
    if task[0] == "eight" and task not in found:
        pytest.skip("only a release has a program for each level (--release FOLDER)")
    wanted = LINES[level, *task]
    assert 0.98 * wanted <= found.get(task, 0) <= 1.02 * wanted, f"{found.get(task)} instructions, and not {wanted}"


@pytest.mark.parametrize("counts", LEVELS, indirect=True)
def test_each_call_has_a_line(counts, pytestconfig):
    level, found = counts
    if pytestconfig.option.write:
        pytest.skip("the table is written anew")
    assert set(found) <= {it[1:] for it in LINES if it[0] == level}
