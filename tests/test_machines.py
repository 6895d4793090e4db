"""Tests how the tests of the library for C look at a program that prints counts (machines.py): each end that is not a
success fails."""
import sys

import pytest

from machines import counted

ENDS = {
    "early": ("", 0, "it printed no counts"),
    "without counts": ("print('well')", 0, "it printed no counts"),
    "counts that are not last": ("print('2 passed, 0 failed'); print('well')", 0, "it printed no counts"),
    "nothing passed": ("print('0 passed, 0 failed')", 0, "status 0, 0 passed"),
    "only skipped": ("print('0 passed, 0 failed, 3 skipped')", 0, "status 0, 0 passed"),
    "a failure": ("print('2 passed, 1 failed')", 1, "status 1, 2 passed, 1 failed"),
    "a failure and status 0": ("print('2 passed, 1 failed')", 0, "status 0, 2 passed, 1 failed"),
    "another status": ("print('2 passed, 0 failed')", 1, "status 1, 2 passed, 0 failed"),
}


@pytest.mark.parametrize("code, status, reason", ENDS.values(), ids=ENDS)
def test_end_fails(code, status, reason):
    with pytest.raises(AssertionError, match=reason):
        counted(sys.executable, "-c", f"import sys; {code or 'pass'}; sys.exit({status})")


@pytest.mark.parametrize("line", ["2 passed, 0 failed", "1 passed, 0 failed, 3 skipped"])
def test_success_passes(line):
    counted(sys.executable, "-c", f"print('{line}', end='\\r\\n')")
