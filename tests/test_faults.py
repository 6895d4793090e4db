"""Disturbs calls of the library for C, over each archive, and the program.

library_faults.c flips one bit of a register or of the stack in the course of a call: 2,000 times in slh_sign and in
slh_sign_twice, and 400 times in each other call that signs twice. slh_sign must give signatures that are valid and
wrong, and the calls that sign twice must give none. library_copies.c flips a bit while these calls write the signature.
library_glitches.c disturbs the instructions of the hardened calls and of the plain ones that verify. Each has to fail
if a call that signs once, or a plain one, replaces the call that it tries. program_faults.py tries `slh sign --twice`.

The draws follow from SLH_SEED, or from a number that a failure shows. If a wrong signature comes out, the failure names
the interrupted function and the command that repeats the draw.
"""
import os
import platform
import random
import re

import pytest

import program_faults
from conftest import STRICT
from machines import counted
from support import TESTS, best_level, need_level, run, succeed

ARCHIVES = {"libslh.a": None, "libslh-v2.a": 2, "libslh-v3.a": 3, "libslh-v4.a": 4}
SLOW = pytest.mark.slow
# One archive stands for the others, whose flips take some two processor minutes each.
DRAWN = pytest.mark.drawn("the disturbed archive", "archive")
OF_EACH = pytest.mark.parametrize("archive", [pytest.param(it, marks=DRAWN) for it in ARCHIVES])
# The instructions that are disturbed before the program refuses: from within the last hash on.
STEPS = "300"
WRONG = re.compile(r"valid and wrong: (\S+) (\d+): .* at (0x[0-9a-f]+)$", re.M)

pytestmark = pytest.mark.usefixtures("built_by_the_kit")


@pytest.fixture(scope="module")
def seed():
    given = os.environ["SLH_SEED"]
    return given if given.isdecimal() else str(random.getrandbits(30))


@pytest.fixture(scope="module")
def linked(compiled, installed):
    """Makes the program of a source in C over an archive: linked(SOURCE, ARCHIVE, WORD..)."""
    if platform.machine() != "x86_64" or platform.system() != "Linux":
        pytest.skip("the flips are for Linux on x86-64")

    def makes(source, archive, *words):
        need_level(ARCHIVES[archive] or 2)
        return compiled(source, "-std=c11", "-O1", *STRICT, *words, "-I", installed / "include",
                        TESTS / f"{source}.c", installed / "lib" / archive, "-static")

    return makes


def level_of(archive):
    """The level whose vector registers the code of an archive uses."""
    return str(ARCHIVES[archive] or best_level())


def function_at(program, address):
    """The function of a program that has an address."""
    symbols = [it.split() for it in succeed("nm", "-n", program).decode().splitlines()]
    return [it[2] for it in symbols if len(it) == 3 and it[1] in "tTwW" and int(it[0], 16) <= int(address, 16)][-1]


def wrong_signatures(program, output, *words):
    """A line for each signature that is valid and wrong: the draw, the interrupted function, and the command that
    repeats it."""
    return [f"{it[0]} in {function_at(program, it[3])}; again: {program} {' '.join(words)} {it[1]} {it[2]}"
            for it in WRONG.finditer(output.decode())]


# ---- flipped bits


@pytest.mark.parametrize("part", [pytest.param(it, marks=SLOW if it else ()) for it in range(10)])
@OF_EACH
def test_flipped_bit_gives_no_wrong_signature(linked, seed, archive, part):
    """A tenth of the flips, which takes 8 s of a processor."""
    program, drawn = linked("library_faults", archive), str(int(seed) + part)
    outcome = run(program, level_of(archive), "200", drawn, timeout=7200)
    wrong = wrong_signatures(program, outcome.output, level_of(archive), "100", drawn)
    assert not wrong, "\n".join(wrong)
    assert (outcome.status, outcome.output.splitlines()[-1:]) == (0, [b"4 passed, 0 failed"]), outcome


@OF_EACH
def test_bit_flipped_while_a_signature_is_written(linked, seed, archive):
    counted(linked("library_copies", archive), "40", seed)


@SLOW
def test_call_that_signs_once_is_found(linked, seed):
    """slh_sign gives wrong signatures, and so does the call in place of slh_sign_twice."""
    status, output, _ = run(linked("library_faults", "libslh.a", "-DONCE"), level_of("libslh.a"), "100", seed)
    text = output.decode()
    assert status == 1 and re.search("^slh_sign: .*: yes$", text, re.M), text
    assert re.search("^slh_sign_twice: .*: no$", text, re.M), text


@SLOW
def test_call_that_signs_once_is_found_when_it_writes(linked, seed):
    """Each flip is."""
    status, output, _ = run(linked("library_copies", "libslh.a", "-DONCE"), "4", seed)
    assert (status, output.splitlines()[-1]) == (1, b"0 passed, 6 failed"), output.decode()


# ---- disturbed instructions


@pytest.mark.parametrize("archive, steps", [
    ("libslh.a", "20"), *(pytest.param(it, STEPS, marks=SLOW) for it in ARCHIVES)])
def test_disturbed_instruction_turns_no_hardened_verdict(linked, archive, steps):
    """It turns some plain ones."""
    counted(linked("library_glitches", archive), steps)


@SLOW
def test_plain_verdict_in_place_of_a_hardened_one_is_found(linked):
    """The plain calls are turned as before."""
    status, output, _ = run(linked("library_glitches", "libslh.a", "-DPLAIN"), "60")
    text = output.decode()
    assert status == 1 and text.endswith("\n2 passed, 2 failed\n"), text
    assert re.search("^slh_verify_hardened: .*: no$", text, re.M), text


# ---- the program

FORMS = {"pure": [], "pre-hash": ["--prehash", "SHA2-256"], "two workers": ["--workers", "2"]}


@pytest.fixture
def signs(program, tmp_path):
    """The command that signs under 128s, whose signatures take long enough. SLH_SEED draws the flips."""
    random.seed(os.environ["SLH_SEED"])
    key, message = tmp_path / "key", tmp_path / "message"
    key.write_bytes(succeed(program, "keygen", "--set", "SLH-DSA-SHA2-128s", stdin=bytes(range(48)).hex().encode()))
    message.write_bytes(b"Dear reader,\n")
    return [program, "sign", "--key", key, "--message", message]


@SLOW
@pytest.mark.parametrize("form", FORMS)
def test_program_finds_a_flip_between_two_signatures(signs, form):
    once = [*signs, *FORMS[form]]
    assert program_faults.refused_and_wrong(once, [*once, "--twice"]) == (program_faults.WANTED, 0)


@SLOW
def test_program_that_signs_once_refuses_no_run(signs):
    """So --twice finds the flips of the test above."""
    assert program_faults.refused_and_wrong(signs, signs, tries=20)[0] == 0
