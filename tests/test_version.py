"""Tests that tools/version.py finds and writes each place of the version."""
import pathlib
import shutil
import subprocess
import sys

import pytest

HERE = pathlib.Path(__file__).resolve().parent.parent
sys.path.append(str(HERE / "tools"))
import version  # noqa: E402

NAMES = r"libslh.so.N libslh\.so\.N libslhN libslhN_1.deb libslh.so libslh-dev"
FILES = sorted({path for path, _ in version.PLACES} | {"CHANGELOG.md"})


@pytest.fixture
def copy(tmp_path):
    for path in (*FILES, "VERSION", "tools/version.py"):
        (tmp_path / path).parent.mkdir(parents=True, exist_ok=True)
        shutil.copy(HERE / path, tmp_path / path)
    return tmp_path


def run(copy, *words):
    """The status and all output."""
    words = [copy / "tools/version.py", *words]
    done = subprocess.run(words, stdout=subprocess.PIPE, stderr=subprocess.STDOUT, text=True)
    return done.returncode, done.stdout


def test_the_repository_has_one_version():
    assert run(HERE, "--check") == (0, "")


def test_a_new_version_is_written_to_all_places(copy):
    changes = copy / "CHANGELOG.md"
    text = changes.read_text()
    if "## Unreleased" not in text:
        changes.write_text(text.replace("\n## ", "\n## Unreleased\n\n## ", 1))
    (copy / "VERSION").write_text("7.65.432\n")
    (copy / "tests").mkdir(exist_ok=True)
    names = copy / "tests" / "any_names"
    names.write_text(NAMES.replace("N", "0"))
    status, said = run(copy, "--check")
    assert status == 1 and sorted(said.splitlines()[:-1]) == sorted([*FILES, f"tests/{names.name}"])
    assert run(copy)[0] == 0 and run(copy, "--check") == (0, "")
    assert names.read_text() == NAMES.replace("N", "7")
    assert "    7_065_432\n" in (copy / "crates/slh_c/src/version.rt").read_text()
    assert "new: 7_065_433\n" in (copy / "crates/slh_c/wrong/version_of_the_next_release.edit").read_text()
    assert '#define SLH_VERSION_PATCH 432\n' in (copy / "c/include/slh_verify.h").read_text()
    assert "\n## 7.65.432, " in changes.read_text() and "Unreleased" not in changes.read_text()


@pytest.mark.parametrize("path, line", version.PLACES)
def test_each_place_is_looked_at(copy, path, line):
    """One that has another version is named, and one that is gone is refused."""
    now, other = (line.format(**version.forms(it)) for it in ((HERE / "VERSION").read_text().strip(), "98.76.54"))
    text = (copy / path).read_text()
    (copy / path).write_text(text.replace(now, other))
    assert run(copy, "--check")[0] == 1 and run(copy, "--check")[1].splitlines()[0] == path
    (copy / path).write_text(text.replace(now, ""))
    status, said = run(copy)
    assert status == 1 and f"{path} has " in said
