"""Runs calls of the library for C under valgrind, with SK.seed and SK.prf marked as undefined: no branch and no address
may depend on them, except the verdicts that SECURITY.md lists. secrets.c says how, and which values are public. Two
builds whose memcpy has a leak have to be found.

SLH_SEED draws a set for each level. One start of valgrind runs those calls of a set that are selected. memcheck knows
no AVX-512, so no archive for x86-64-v4 is run. It does not see how long an instruction takes: so the code of hash
functions, which all secrets go through, must have no division.
"""
import re

import pytest

from conftest import STRICT
from packages import check_part, lines_of
from support import TESTS, has_feature, need, run, succeed

SETS = {"128f": "2", "192f": "4", "256f": "6"}
FEATURES = {"v2": "ssse3", "v3": "avx2"}
LEAKS = {"branches": 1, "addresses": 2}
SIGNING = ["sign", "sign_twice", "sign_internal", "hash_sign", "hash_sign_twice", "digest", "digest_twice"]
PARTS = ["keys", *SIGNING, *(f"{it}-random" for it in SIGNING), "jobs", "key_jobs"]
LEAKING = ["slh_keygen", "slh_sign", "slh_hash_sign", "slh_sign_internal"]
HASHING = re.compile(r"<(sha2|slh_lanes|slh_hash)::")

pytestmark = pytest.mark.usefixtures("built_by_the_kit")


@pytest.fixture(scope="module")
def linked(compiled, installed):
    """Makes the program of secrets.c with the archive for a level."""
    need("valgrind")

    def makes(level, *words):
        if not has_feature(FEATURES[level]):
            pytest.skip(f"this processor has no {FEATURES[level]}")
        return compiled("secrets", "-std=c11", "-g", "-O1", "-fno-builtin", *STRICT, "-Wno-pedantic", *words, "-I",
                        installed / "include", TESTS / "secrets.c", installed / f"lib/libslh-{level}.a")

    return makes


@pytest.fixture(scope="module")
def under_valgrind(tmp_path_factory):
    """Words that run parts of the program over a set: under_valgrind(PROGRAM, SET, PART..). The program has written the
    signatures of the set, which the parts have to make."""

    def words(program, number, *parts):
        folder = tmp_path_factory.mktemp("secrets")
        (folder / "signatures").write_bytes(succeed(program, number))
        return ["valgrind", "-q", "--error-limit=no", f"--log-file={folder}/log", program, number,
                folder / "signatures", *parts]

    return words


@pytest.fixture(scope="module")
def said(chosen, linked, under_valgrind):
    """The lines of the selected parts over a set, which run once: said(LEVEL, SET)."""
    lines = {}

    def says(level, of_set):
        if (level, of_set) not in lines:
            parts = chosen("part", level=level, of_set=of_set)
            lines[level, of_set] = lines_of(*under_valgrind(linked(level), SETS[of_set], *parts), timeout=7200)
        return lines[level, of_set]

    return says


@pytest.mark.parametrize("part", PARTS)
@pytest.mark.parametrize("level, of_set", [
    pytest.param(level, name, marks=[pytest.mark.slow, pytest.mark.drawn(f"the set of libslh-{level}.a", "of_set")])
    for level in FEATURES for name in SETS])
def test_nothing_depends_on_secrets(said, level, of_set, part):
    check_part(said(level, of_set), f"{part}, ")


@pytest.mark.slow
@pytest.mark.parametrize("leak", LEAKS)
def test_leak_is_found(linked, under_valgrind, leak):
    """Calls of four kinds, under 128f, have branches or addresses that depend on a secret."""
    program = linked("v2", f"-DLEAK={LEAKS[leak]}")
    status, output, _ = run(*under_valgrind(program, "2", "keys", "sign", "sign_internal", "hash_sign"))
    text = output.decode()
    found = [it for it in LEAKING if re.search(rf" {it}: .*: no$", text, re.M)]
    assert status == 1 and found == LEAKING and re.search(r"\n\d+ passed, \d+ failed\n\Z", text), text


@pytest.mark.parametrize("level", ["v2", pytest.param("v3", marks=pytest.mark.slow),
                                   pytest.param("v4", marks=pytest.mark.slow)])
def test_no_hash_function_divides(installed, level):
    """Other functions do."""
    need("objdump")
    name, dividing = "", []
    code = succeed("objdump", "-d", "--no-show-raw-insn", installed / f"lib/libslh-{level}.a").decode()
    for line in code.splitlines():
        name = line if re.match("[0-9a-f]+ <.*>:$", line) else name
        dividing += [name] if re.search(r":\s+i?div[bwlq]?\s", line) else []
    assert dividing and [it for it in dividing if HASHING.search(it)] == []
