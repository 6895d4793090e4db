#!/usr/bin/env python3
"""Writes the version of the file VERSION to all other places that have it.

usage: tools/version.py            writes it, and names each file that changed
       tools/version.py --check    the status is 0 if each place has it

The first heading of CHANGELOG.md, `## Unreleased`, becomes that of the version and of today. bindings/debian/slh.3 gets
the version of the headers, and tools/man3.py writes its sections. The first number is also that of the shared object,
libslh.so.N, and of Debian's package libslhN: each such name in FOLDERS gets it.
"""
import datetime
import pathlib
import re
import sys

ROOT = pathlib.Path(__file__).resolve().parent.parent
CRATES = ("slh_c", "slh_c_verify")
# Each place: a file, and a text in it that has the version in one of these forms.
PLACES = [
    ("docs/LIBRARY.md", "three numbers: {text}. "),
    ("docs/LIBRARY.md", "symbol version `SLH_{major}`"),
    ("bindings/README.md", "find_package(slh {two} REQUIRED)"),
    *(("c/include/slh_verify.h", line) for line in (
        "#define SLH_VERSION_MAJOR {major}\n", "#define SLH_VERSION_MINOR {minor}\n",
        "#define SLH_VERSION_PATCH {patch}\n", '#define SLH_VERSION "{text}"\n')),
    *((f"crates/{it}/src/version.rt", line) for it in CRATES for line in ("result ≡ {number} ", "\n    {digits}\n")),
    *((f"crates/{it}/wrong/version_of_the_next_release.edit", "old: {digits}\nnew: {next_digits}\n") for it in CRATES),
    ("crates/slh_tool/src/arguments.rt", 'VERSION: &str = "{text}"'),
    ("crates/slh_tool/src/arguments.rt", '"slh {text}: '),
    ("crates/slh_tool/src/program.rt", '"slh {text}\\n"'),
    ("crates/slh_tool/specs/Replies.antt", 'codes "slh {text}"'),
    *(("tests/vectors/commands/help.jsonl", f'["{word}"], "status": 0, "output": "slh {{text}}\\n"')
      for word in ("--version", "-V")),
    ("bindings/debian/slh.3", '"slh {text}"'),
    ("bindings/java/src/pipitscreen/slh/Library.java", "as {text}."),
    ("bindings/javascript/package.json", '"version": "{text}"'),
    ("bindings/rust/Cargo.toml", '\nversion = "{text}"'),
    ("bindings/rust/Cargo.lock", 'name = "slh-sys"\nversion = "{text}"'),
    ("bindings/rust/slh-sys/src/lib.rs", "SLH_VERSION_NUMBER: u32 = {digits};"),
    *(("bindings/rust/slh-signature/Cargo.toml", line)
      for line in ('\nversion = "{text}"', 'path = "../slh", version = "{text}"')),
]
# The names with the number of the shared object, also as a regular expression writes them, and the folders that they
# are looked for in, without what is built there.
SHARED = re.compile(rb"\b(libslh(?:\\?\.so\\?\.)?)[0-9]+(?![0-9A-Za-z])")
FOLDERS = ("bindings", "c", "docs", "examples", "tests", "tools")
BUILT = {"out", "target", "__pycache__", "node_modules", "vectors"}


def forms(text):
    """The forms of a version."""
    major, minor, patch = map(int, text.split("."))
    number = 1_000_000 * major + 1000 * minor + patch
    return {"text": text, "two": f"{major}.{minor}", "major": major, "minor": minor, "patch": patch, "number": number,
            "digits": f"{number:_}", "next_digits": f"{number + 1:_}"}


def pattern(line):
    """What finds a text with any version in it."""
    return re.sub(r"\\{\w+\\}", r"[0-9._]*[0-9]", re.escape(line))


def written(path, version, text=None):
    """The text of a file, or this one, with the version in each of its places. Each place has to be there once."""
    text = text or (ROOT / path).read_text()
    for line in (line for it, line in PLACES if it == path):
        text, count = re.subn(pattern(line), lambda _: line.format(**forms(version)), text)
        if count != 1:
            sys.exit(f"tools/version.py: {path} has {line!r} {count} times, and not once")
    return text


def changelog(version, day):
    """The text of CHANGELOG.md in which the version has an entry."""
    text = (ROOT / "CHANGELOG.md").read_text()
    if f"\n## {version}, " in text:
        return text
    return re.sub(r"^## Unreleased$", f"## {version}, {day.day} {day:%B %Y}", text, count=1, flags=re.M)


def shared_names(version):
    """The files with names of the shared object, each with its text with the number of a version."""
    number = version.split(".")[0].encode()
    for path in (it for folder in FOLDERS for it in sorted((ROOT / folder).rglob("*"))):
        name = path.relative_to(ROOT).as_posix()
        if path.is_file() and not path.is_symlink() and not BUILT & set(name.split("/")):
            data = path.read_bytes()
            if SHARED.search(data):
                yield name, SHARED.sub(rb"\g<1>" + number, data).decode()


def outdated():
    """The files that do not have the version, each with the text that it should have."""
    version = (ROOT / "VERSION").read_text().strip()
    files = dict(shared_names(version))
    for path in dict.fromkeys(it for it, _ in PLACES):
        files[path] = written(path, version, files.get(path))
    files["CHANGELOG.md"] = changelog(version, datetime.date.today())
    found = {path: text for path, text in files.items() if text != (ROOT / path).read_text()}
    if f"\n## {version}, " not in files["CHANGELOG.md"]:
        sys.exit(f"tools/version.py: CHANGELOG.md has neither an entry for {version} nor '## Unreleased'")
    return found


def main():
    if sys.argv[1:] not in ([], ["--check"]):
        print(__doc__.split("\n\n")[1], file=sys.stderr)
        sys.exit(2)
    found = outdated()
    for path, text in found.items():
        print(path)
        if not sys.argv[1:]:
            (ROOT / path).write_text(text)
    if sys.argv[1:] and found:
        sys.exit(f"tools/version.py: these are without the version {(ROOT / 'VERSION').read_text().strip()}")


if __name__ == "__main__":
    main()
