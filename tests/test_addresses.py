"""Tests tools/addresses.py: the addresses of the file ADDRESSES are in each of their places."""
import re
import shutil

import pytest

from support import HERE, run

FILES = ["ADDRESSES", "SECURITY.md", "docs/VERSIONS.md", "tools/addresses.py", "bindings/go", "bindings/tests"]


@pytest.fixture
def copy(tmp_path):
    """A copy of the files that have addresses."""
    for path in FILES:
        (tmp_path / path).parent.mkdir(exist_ok=True)
        (shutil.copytree if (HERE / path).is_dir() else shutil.copy)(HERE / path, tmp_path / path)
    return tmp_path


def addresses(folder, *words):
    return run(folder / "tools/addresses.py", *words)


def test_each_place_has_the_addresses(copy):
    outcome = addresses(copy, "--check")
    assert outcome.status == 0, outcome.errors.decode()


def write_others(folder):
    lines = "report bugs@other.example", "repository https://other.example/slh.git", "go other.example/a/slh"
    (folder / "ADDRESSES").write_text("\n".join(lines) + "\n")


def texts_of_go(folder):
    """The files that may have the module path."""
    return {it: it.read_text() for it in (folder / "bindings").rglob("*") if it.suffix in {".go", ".mod", ".md"}}


def test_module_path_is_written_everywhere(copy):
    """Go's files have no other one then, and go.mod's is the new one. A second change finds all of them again."""
    before = re.match("module (.*)\n", (copy / "bindings/go/go.mod").read_text())[1]
    having = [it for it, text in texts_of_go(copy).items() if before in text]
    write_others(copy)
    assert addresses(copy).status == 0 and len(having) > 5
    after = texts_of_go(copy)
    assert [it for it, text in after.items() if "other.example/a/slh" in text] == having
    assert not any(before in text for text in after.values())
    assert after[copy / "bindings/go/go.mod"].startswith("module other.example/a/slh\n")
    shutil.copy(HERE / "ADDRESSES", copy)
    assert addresses(copy).status == 0
    assert texts_of_go(copy) == {copy / it.relative_to(HERE): text for it, text in texts_of_go(HERE).items()
                                 if (copy / it.relative_to(HERE)).exists()}


@pytest.mark.parametrize("path", ["https://other.example/slh", "other.example", "slh/a", "other.example/slh/"])
def test_path_that_go_refuses_is_named(copy, path):
    """And nothing is written."""
    before = texts_of_go(copy)
    text = (copy / "ADDRESSES").read_text()
    (copy / "ADDRESSES").write_text(re.sub("^go .*", f"go {path}", text, flags=re.M))
    for words in ([], ["--check"]):
        outcome = addresses(copy, *words)
        assert outcome.status == 1 and f"{path} is no module path of Go" in outcome.errors.decode()
    assert texts_of_go(copy) == before


def test_file_without_the_module_path_is_found(copy):
    path = copy / "bindings/tests/erased.go"
    path.write_text(path.read_text().replace("/slh\"", "/other\""))
    outcome = addresses(copy, "--check")
    assert outcome.status == 1 and b"bindings/tests/erased.go has no module path" in outcome.errors


def test_new_addresses_are_written(copy):
    write_others(copy)
    assert addresses(copy, "--check").status == 1
    changed = addresses(copy).output.decode().split()
    assert {"SECURITY.md", "docs/VERSIONS.md", "bindings/go/go.mod"} <= {*changed}
    assert addresses(copy, "--check").status == 0
    assert "bugs@other.example" in (copy / "SECURITY.md").read_text()
    assert "git clone https://other.example/slh.git " in (copy / "docs/VERSIONS.md").read_text()


@pytest.mark.parametrize("text", [
    "report a@b.example\n", "report a b\nrepository c\ngo d\n", "report a\nrepository c\n"])
def test_other_lines_are_refused(copy, text):
    (copy / "ADDRESSES").write_text(text)
    assert addresses(copy, "--check").status == 1


def test_a_place_that_is_gone_is_found(copy):
    path = copy / "SECURITY.md"
    path.write_text(path.read_text().replace("Write to ", "Send to "))
    outcome = addresses(copy, "--check")
    assert outcome.status == 1 and b"SECURITY.md has 'Write to {report} before' 0 times" in outcome.errors
