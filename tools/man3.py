#!/usr/bin/env python3
"""Writes the manual page of the calls of the library for C, section 3, from the comments of its headers.

usage: tools/man3.py            writes bindings/debian/slh.3
       tools/man3.py --check    the status is 0 if bindings/debian/slh.3 is what the headers say
       tools/man3.py --names    prints the calls, one a line: tools/library.sh links slh_NAME.3 to slh.3
"""
import pathlib
import re
import sys

ROOT = pathlib.Path(__file__).resolve().parent.parent
PAGE = ROOT / "bindings/debian/slh.3"
HEADERS = [ROOT / "c/include" / name for name in ("slh.h", "slh_verify.h")]
# A comment and the declaration behind it.
CALL = re.compile(r"^/\*\n((?: \*.*\n)+?) \*/\n(?:SLH_MUST_USE )?SLH_API\n([^;{]*\b(slh_\w+)\([^;{]*\);)$", re.M)
HEAD = """.TH SLH 3 "" "slh {version}" "Pipitscreen"
.SH NAME
slh \\- keys, signatures and verification of SLH-DSA (FIPS 205) with SHA-2
.SH SYNOPSIS
.nf
#include <slh.h>

cc program.c -lslh
.fi
.SH DESCRIPTION
The library makes keys, signs and verifies with the six SHA-2 parameter sets of FIPS 205.
Each call is described in a section of its own.
A call that returns a number returns SLH_DONE (0), SLH_INVALID (30) or the number of a refusal.
An output is written only if SLH_DONE is returned.
The duties of the caller are at the top of slh.h.
"""
TAIL = """.SH SEE ALSO
.BR slh (1),
the headers slh.h and slh_verify.h, and the pages LIBRARY and SECURITY of the project.
"""


def escaped(text):
    """A text without what troff takes for commands."""
    text = text.replace("\\", "\\e").replace("-", "\\-")
    return re.sub(r"^([.'])", r"\\&\1", text, flags=re.M)


def calls():
    """The calls of both headers: names, declarations, and what their comments say, and what they say is returned."""
    for header in HEADERS:
        for comment, declaration, name in CALL.findall(header.read_text()):
            said = " ".join(line[3:].strip() for line in comment.splitlines())
            what, _, returned = said.partition(" Returns: ")
            yield name, declaration, what, returned


def section(name, declaration, what, returned):
    lines = [f".SH {name}", ".nf", escaped(declaration), ".fi", ".PP", escaped(what)]
    return "\n".join(lines + ([".PP", "Returns " + escaped(returned)] if returned else [])) + "\n"


def page():
    found = list(calls())
    declared = set(re.findall(r"\b(slh_\w+)\(", "".join(re.sub(r"/\*.*?\*/", "", it.read_text(), flags=re.S)
                                                        for it in HEADERS)))
    missing = declared - {it[0] for it in found}
    if missing:
        sys.exit(f"tools/man3.py: without a comment: {', '.join(sorted(missing))}")
    version = (ROOT / "VERSION").read_text().strip()
    return HEAD.format(version=version) + "".join(section(*it) for it in found) + TAIL


def main():
    if sys.argv[1:] == ["--names"]:
        print("\n".join(it[0] for it in calls()))
    elif sys.argv[1:] == ["--check"]:
        is_same = PAGE.exists() and PAGE.read_text() == page()
        sys.exit(0 if is_same else "bindings/debian/slh.3 is not what the headers say")
    elif sys.argv[1:]:
        sys.exit(__doc__.partition("\n\n")[2])
    else:
        PAGE.write_text(page())


if __name__ == "__main__":
    main()
