"""Whether docs/PROVED.md names just the C functions on whose contracts the proof of the program rests: those that
`rattle check --list-axioms` marks as reached. It checks the program `slh` again, over the libraries that `rt ci` or
checks have built, in some 50 s of processor time.
"""
import re

import pytest

from support import HERE, run

CRATE = "slh"
pytestmark = pytest.mark.slow


@pytest.fixture(scope="module")
def report(checked):
    """The report of a check of the program."""
    words = run(HERE / "tools/kit.py", "check", CRATE)
    if words.status:
        pytest.fail("the libraries of the program are not built: rt check, in crates/slh, or rt ci")
    folder = HERE / "crates" / CRATE
    (folder / "out/incremental").mkdir(parents=True, exist_ok=True)  # what tools/program.sh has proved there is taken
    done = run(*words.output.decode().split("\n")[:-1], "--list-axioms", "--incremental", "out/incremental", cwd=folder,
               timeout=3600)
    text = (done.output + done.errors).decode()
    assert done.status == 0, f"{CRATE} is not proved: {text[-500:]}"
    return text


def test_verdict_has_the_number_of_functions_that_are_listed(report):
    verdict = re.findall(r"^logic=proved .*$", report, re.M)[-1]
    found = re.findall(r"^  (\S+) +reached$", report, re.M)
    assert len(found) == int(re.search(r" axioms=(\d+) ", verdict)[1])


def test_proved_names_the_c_functions_that_the_proof_rests_on(report):
    verdict = re.findall(r"^logic=proved .*$", report, re.M)[-1]
    threads = re.search(r" threads=(\S+) ", verdict)[1].split(",")
    found = {*re.findall(r"^  (\S+) +reached$", report, re.M), *threads}
    row = re.search(r"^\| the contracts of \d+ C functions ([^|]*)\|", (HERE / "docs/PROVED.md").read_text(), re.M)
    named = {*re.findall(r"`([\w:]+)`", row[1])}
    assert named == found, f"the page lacks {sorted(found - named)}, and the report {sorted(named - found)}"
