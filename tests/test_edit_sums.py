"""Tests the sums of wrong bodies (edit_sums.py): comments change none of them, and a changed clause does. Also what is
said if the libraries below a crate are not built."""
import json
import pathlib
import re
import shutil
import subprocess
import sys

import pytest

HERE = pathlib.Path(__file__).resolve().parent.parent
COMMENT = {".rt": re.compile(r"^\s*//.*$", re.M), ".antt": re.compile(r"^\s*--(?= |$).*$", re.M)}
SUMS = """import json, wrong_bodies
edits = [(crate, path) for crate in wrong_bodies.USES for path in wrong_bodies.edits(crate)]
print(json.dumps({wrong_bodies.name_of(*it): wrong_bodies.edit_sum(*it) for it in edits}))"""


def run(copy, code):
    """What Python code prints beside the modules of a copy."""
    paths = f"import sys; sys.dont_write_bytecode = True; sys.path[:0] = ['{copy}/tests', '{copy}/tools']\n"
    done = subprocess.run([sys.executable, "-c", paths + code], stdout=subprocess.PIPE, text=True, check=True)
    return done.stdout


def sums(copy):
    return json.loads(run(copy, SUMS))


def sources(copy):
    found = [it for suffix in COMMENT for it in (copy / "crates").rglob(f"*{suffix}")]
    return [it for it in found if it.relative_to(copy).parts[2] in ("src", "specs", "proofs")]


@pytest.fixture
def copy(tmp_path):
    """A copy of what the sums are made of, without what checks have stored."""
    if shutil.which("rt") is None:
        pytest.skip("rt is not on the path: install the Rattle kit")
    shutil.copytree(HERE / "crates", tmp_path / "crates", ignore=shutil.ignore_patterns("out"))
    tests = [f"tests/{it}.py" for it in ("counts", "edit_sums", "wrong_bodies")]
    for name in ("VERSION", "crates.txt", "tools/kit.py", *tests):
        (tmp_path / name).parent.mkdir(exist_ok=True)
        shutil.copy(HERE / name, tmp_path / name)
    return tmp_path


def test_comments_change_no_sum(copy):
    before, changed = sums(copy), 0
    for path in sources(copy):
        text, number = COMMENT[path.suffix].subn(lambda it: f"{it[0]} and a word", path.read_text())
        path.write_text(text)
        changed += bool(number)
    after = sums(copy)
    assert changed > 200 and len(before) > 500 and "" not in before.values()
    assert [name for name in before if before[name] != after[name]] == []


def test_a_clause_changes_a_sum(copy):
    before = sums(copy)
    path = copy / "crates/slh_params/src/param_set/numbers.rt"
    clause = "ensures { result ≡ md_len (params self.now) }"
    path.write_text(path.read_text().replace(clause, clause.replace("≡", "≤")))
    after = sums(copy)
    changed = [name for name in before if before[name] != after[name]]
    assert "slh_params/md_len_rounded_down" in changed and len(changed) < len(before) // 2


@pytest.mark.parametrize("code", [
    "import wrong_bodies; print(wrong_bodies.prepare('slh_tree', [], sys.path[0] + '/kept', 1))",
    "import kit; sys.argv[1:] = ['check', 'slh_tree']; sys.stderr = sys.stdout\n"
    "try: kit.main()\nexcept SystemExit as it: print(it)",
])
def test_it_says_how_to_build_what_is_missing(copy, code):
    """`rt check` in slh_params has proved that crate, and not built it: the check above it does."""
    assert run(copy, code) == "slh_params: not built. `rt check` in crates/slh_tree builds all below it\n"
