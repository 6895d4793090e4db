#!/usr/bin/env python3
"""Writes the addresses of the file ADDRESSES to all other places that have them.

usage: tools/addresses.py            writes them, and names each file that changed
       tools/addresses.py --check    the status is 0 if each place has them

Each line of ADDRESSES is a name and an address: `report`, to which security bugs are written, `repository`, and `go`,
the module path of the package for Go, whose domain serves the module. Those with .example are placeholders, which
no mail, no browser and no `go get` reaches.
"""
import pathlib
import re
import sys

ROOT = pathlib.Path(__file__).resolve().parent.parent
# Each place: a file, and a text in it that has one of the addresses.
PLACES = [
    ("SECURITY.md", "Write to {report} before"),
    ("docs/VERSIONS.md", "Write to {report},"),
    ("docs/VERSIONS.md", "git clone {repository} "),
]
# The files that have the module path, once or more. The last one says which path the others have.
OF_GO = [
    "bindings/go/README.md", "bindings/go/examples/sign_queue/main.go", "bindings/go/key_files_test.go",
    "bindings/go/printing_test.go", "bindings/go/users_test.go", "bindings/tests/erased.go",
    "bindings/tests/key_forms.go", "bindings/tests/wycheproof.go", "bindings/go/go.mod"]


def addresses():
    """The addresses by their names."""
    found = dict(line.split(" ", 1) for line in (ROOT / "ADDRESSES").read_text().splitlines())
    if set(found) != {"report", "repository", "go"} or not all(re.fullmatch(r"\S+", it) for it in found.values()):
        sys.exit("tools/addresses.py: ADDRESSES has the lines `report ADDRESS`, `repository URL` and `go PATH`")
    if not re.fullmatch(r"[a-z0-9.-]+\.[a-z0-9-]+(/[A-Za-z0-9._~-]+)+", found["go"]):
        sys.exit(f"tools/addresses.py: {found['go']} is no module path of Go, as example.org/slh")
    return found


def with_module_path(path):
    """The text of a file with the module path in place of the one that go.mod has."""
    before = re.match(r"module (\S+)\n", (ROOT / OF_GO[-1]).read_text())[1]
    text, after = (ROOT / path).read_text(), addresses()["go"]
    if before not in text and after not in text:
        sys.exit(f"tools/addresses.py: {path} has no module path {before}")
    return text.replace(before, after)


def written(path):
    """The text of a file with the addresses in each of its places. Each place has to be there once."""
    if path in OF_GO:
        return with_module_path(path)
    text, found = (ROOT / path).read_text(), addresses()
    for line in (line for it, line in PLACES if it == path):
        pattern = re.sub(r"\\{\w+\\}", r"[^\\s,]+", re.escape(line))
        text, count = re.subn(pattern, lambda _, line=line: line.format(**found), text)
        if count != 1:
            sys.exit(f"tools/addresses.py: {path} has {line!r} {count} times, and not once")
    return text


def main():
    if sys.argv[1:] not in ([], ["--check"]):
        print(__doc__.split("\n\n")[1], file=sys.stderr)
        sys.exit(2)
    texts = {path: written(path) for path in [*(path for path, _ in PLACES), *OF_GO]}
    found = {path: text for path, text in texts.items() if text != (ROOT / path).read_text()}
    for path, text in found.items():
        print(path)
        if not sys.argv[1:]:
            (ROOT / path).write_text(text)
    if sys.argv[1:] and found:
        sys.exit("tools/addresses.py: these are without the addresses of the file ADDRESSES")


if __name__ == "__main__":
    main()
