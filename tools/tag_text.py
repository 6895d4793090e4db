#!/usr/bin/env python3
"""Prints the text of a tag for the release in dist/: its entry of CHANGELOG.md, and the SHA-256 of the release's list.

usage: tools/tag_text.py [DIST]      tools/tag_text.py | git tag -a -F - v0.13.0

A tag that somebody has signed so signs each file of the release, too. The status is 1 if CHANGELOG.md has no entry of
the release's version, or if the list has not the hash of BUILD.
"""
import hashlib
import pathlib
import re
import sys

ROOT = pathlib.Path(__file__).resolve().parent.parent


def version_of(dist):
    """The version of a release, in whose list BUILD has its hash."""
    build, sums = (dist / "BUILD").read_bytes(), (dist / "SHA256SUMS").read_text()
    if f"{hashlib.sha256(build).hexdigest()}  BUILD\n" not in sums:
        sys.exit(f"tools/tag_text.py: {dist}/SHA256SUMS has another hash of BUILD")
    return re.search(r"^version (.+)$", build.decode(), re.M)[1]


def entry_of(version):
    """The day and the text of a version's entry in CHANGELOG.md, without marks of Markdown for links and bold words."""
    pattern = rf"^## {re.escape(version)}, (.+)\n+((?:(?!## ).*\n)*)"
    found = re.search(pattern, (ROOT / "CHANGELOG.md").read_text(), re.M)
    if not found or not found[2].strip():
        sys.exit(f"tools/tag_text.py: CHANGELOG.md has no entry of {version}")
    return found[1], re.sub(r"\[([^]]+)\]\([^)]+\)", r"\1", found[2]).replace("**", "").strip()


def main():
    if len(sys.argv) > 2 or sys.argv[1:2] and sys.argv[1].startswith("-"):
        print(__doc__.split("\n\n")[1], file=sys.stderr)
        sys.exit(2)
    dist = pathlib.Path(sys.argv[1] if sys.argv[1:] else ROOT / "dist")
    version = version_of(dist)
    day, text = entry_of(version)
    listed = hashlib.sha256((dist / "SHA256SUMS").read_bytes()).hexdigest()
    print(f"Pipitscreen {version}\n\nReleased on {day}. The SHA-256 of dist/SHA256SUMS is\n{listed}.\n\n{text}")


if __name__ == "__main__":
    main()
