"""Runs the program `slh` over each vector file, as it is and with one digit of a signature changed.

Each file has to pass whole: status 0, a line for each test, and `passed P failed 0`. Then the first digit in the
signature of its last sign test is changed in a copy: that test has to fail, and no other, with status 1.
"""
import json
import pathlib

import pytest

from support import Outcome

QUICK = "smoke-128f"


def pytest_generate_tests(metafunc):
    # The rows of records.json are of parameter records, which no vector file names: test_interchange.py has them.
    folder = pathlib.Path(metafunc.config.option.vectors)
    files = [it for it in sorted(folder.glob("*.json")) if it.name != "records.json"]
    metafunc.parametrize("file", [
        pytest.param(it, id=it.stem.removeprefix("slh-dsa-sha2-"), marks=() if it.stem == QUICK else pytest.mark.slow)
        for it in files])


def report_of(tests, failed=()):
    """What the program writes about these tests, of which those with the numbers `failed` fail."""
    lines = [f"test {number} {test['kind']} {test['set']} {'fail' if number in failed else 'pass'}"
             for number, test in enumerate(tests, 1)]
    return "".join(f"{it}\n" for it in [*lines, f"passed {len(tests) - len(failed)} failed {len(failed)}"]).encode()


def test_file_passes(slh, file):
    assert slh("vectors", "--file", file) == Outcome(0, report_of(json.loads(file.read_text())))


def test_changed_digit_fails_its_test_alone(slh, file, tmp_path):
    tests = json.loads(file.read_text())
    number = max(at for at, test in enumerate(tests, 1) if test["kind"] == "sign")
    signature = tests[number - 1]["signature"]
    tests[number - 1]["signature"] = ("1" if signature[0] == "0" else "0") + signature[1:]
    (tmp_path / "changed.json").write_text(json.dumps(tests))
    assert slh("vectors", "--file", tmp_path / "changed.json") == Outcome(1, report_of(tests, {number}))
