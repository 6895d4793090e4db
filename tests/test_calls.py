"""Tests tools/calls.py: bindings/CALLS.md has each public call of the headers and the packages, by its name."""
import shutil

import pytest

from support import HERE, run

# A file, a text in it and another, and what tools/calls.py says of the change.
CHANGES = {
    "a new call of C": ("c/include/slh.h", "uint32_t slh_level(void);",
                        "uint32_t slh_level(void);\nuint32_t slh_new(void);", "no row has slh_new of C"),
    "a call of C that is gone": ("c/include/slh.h", "uint32_t slh_level(", "uint32_t slh_levels(",
                                 "C does not declare slh_level"),
    "a call of C++ that is gone": ("c/include/slh.hpp", "bool check() const", "bool checked() const",
                                   "no row has checked of C++"),
    "another name in Rust": ("bindings/rust/slh/src/secret.rs", "pub fn duplicate(", "pub fn twin(",
                             "no row has twin of Rust"),
    "another name in Go": ("bindings/go/keys.go", "func (secret *SecretKey) Check()",
                           "func (secret *SecretKey) Examine()", "no row has Examine of Go"),
    "another name in Python": ("bindings/python/slh/__init__.py", "    def check(self)", "    def examine(self)",
                               "no row has examine of Python"),
    "another name in JavaScript": ("bindings/javascript/slh.d.ts", "    check(): boolean;", "    examine(): boolean;",
                                   "no row has examine of JavaScript"),
    "another name in Java": ("bindings/java/src/pipitscreen/slh/SlhPrivateKey.java", "public void check()",
                             "public void examine()", "no row has examine of Java"),
    "another word": ("tools/calls.py", '"check", "check", "Check"', '"check", "set", "Check"',
                     "Rust has another word for 'check a secret key': settle it"),
    "a reason without another word": ("tools/calls.py", '("read PEM", "Java"): ', '("the version", "Go"): ',
                                      "REASONS has ('the version', 'Go')"),
    "a comment of C++": ("c/include/slh.hpp", "/* deprecated, ", "/* ", "Options::twice of C++ is not marked"),
    "a mark of Rust": ("bindings/rust/slh/src/options.rs", "#[deprecated(", "#[doc(", "Options::twice of Rust is not"),
    "a mark of Go": ("bindings/go/keys.go", "// Deprecated: use Erase.", "// Use Erase.", "Destroy of Go is not"),
    "a mark of Python": ("bindings/python/slh/__init__.py", "DeprecationWarning, 3", "UserWarning, 3",
                         "twice of Python is not marked"),
    "a mark of JavaScript": ("bindings/javascript/slh.d.ts", "@deprecated", "@remarks", "twice of JavaScript is not"),
    "a mark of Java": ("bindings/java/src/pipitscreen/slh/SlhSignatureSpec.java", "    @Deprecated\n", "",
                       "SlhSignatureSpec.verified of Java is not marked"),
    "a kept name that is gone": ("bindings/openssl/slh.cnf.in", "twice = 1", "once = 0", "twice of `slh.cnf` is not in"),
    "another page": ("bindings/CALLS.md", "`slh_check`", "`slh_checks`", "is not as it would be written"),
}


@pytest.fixture
def copy(tmp_path):
    """A copy of the files that the table is made of."""
    for folder in ("c/include", "bindings/rust/slh/src", "bindings/go", "bindings/python/slh", "bindings/javascript",
                   "bindings/java/src", "bindings/openssl"):
        shutil.copytree(HERE / folder, tmp_path / folder)
    for folder in ("tools", "crates/slh_tool/src"):
        (tmp_path / folder).mkdir(parents=True)
    shutil.copy(HERE / "crates/slh_tool/src/arguments.rt", tmp_path / "crates/slh_tool/src")
    shutil.copy(HERE / "tools/calls.py", tmp_path / "tools")
    shutil.copy(HERE / "bindings/CALLS.md", tmp_path / "bindings")
    return tmp_path


def test_the_page_has_each_call(copy):
    outcome = run(copy / "tools/calls.py", "--check")
    assert outcome.status == 0, outcome.errors.decode()


@pytest.mark.parametrize("name", CHANGES)
def test_a_change_is_found(copy, name):
    path, before, after, says = CHANGES[name]
    text = (copy / path).read_text()
    assert before in text
    (copy / path).write_text(text.replace(before, after))
    outcome = run(copy / "tools/calls.py", "--check")
    assert outcome.status == 1 and says in outcome.errors.decode()


def test_the_page_is_written(copy):
    page = (copy / "bindings/CALLS.md").read_bytes()
    (copy / "bindings/CALLS.md").unlink()
    assert run(copy / "tools/calls.py").status == 0
    assert (copy / "bindings/CALLS.md").read_bytes() == page
