#!/usr/bin/env python3
"""Compares the ABI of the library for C of two releases: whether programs compiled with the OLD one run on the NEW one.

usage: tools/abi.py OLD NEW      folders as tools/release.sh writes them: include/ and x86-64/libslh.so.* are read

The shared objects have no types. So it compiles the headers of each release to a library of empty functions with debug
information, and abidiff compares these. Macros are not in it: their values are printed by a program and compared. Each
header has to declare just the calls that its shared object exports. New calls, numbers and macros are no difference.
The names of the shared objects and the versions of their symbols have to be equal: loaders look for them.

The status is 0 if nothing was lost or changed, 1 if something was, and 2 if a tool or a file is missing. It needs a C
compiler as CC or cc, nm, and abidiff of Debian's package abigail-tools.
"""
import os
import pathlib
import re
import shlex
import shutil
import subprocess
import sys
import tempfile

HEADERS = ("slh_verify.h", "slh.h", "slh_internal.h")
CALL = re.compile(r"((?:uint32_t|uint64_t|void|int|const char \*)\s*)\b(slh_\w+)\s*\(([^)]*)\)\s*;")
ENUMERATION = re.compile(r"\benum (\w+) \{")
# A macro without parameters whose value is not that of the version.
MACRO = re.compile(r"^#define (SLH_(?!VERSION)\w+) (.+)$", re.M)
CC = os.environ.get("CC", "cc")
INCLUDES = "".join(f"#include <{it}>\n" for it in (*HEADERS, "stdio.h"))


class Missing(Exception):
    """A tool or a file that is needed and missing."""


def run(*words, **how):
    return subprocess.run([str(it) for it in words], stdout=subprocess.PIPE, text=True, **how)


def text_of(release):
    """The headers of a release without comments."""
    try:
        text = "\n".join((release / "include" / it).read_text() for it in HEADERS)
    except OSError as fault:
        raise Missing(str(fault)) from fault
    return re.sub(r"/\*.*?\*/", "", text, flags=re.S)


def calls(release):
    """The names of the calls that the headers of a release declare."""
    return {name for _, name, _ in CALL.findall(text_of(release))}


def stub(release):
    """A library of empty functions with the types of the headers of a release."""
    text = text_of(release)
    bodies = (f"{kind} {name}({parameters}) {{ {'return' if kind.strip() == 'void' else 'return 0'}; }}\n"
              for kind, name, parameters in CALL.findall(text))
    variables = (f"enum {name} the_{name};\n" for name in ENUMERATION.findall(text))
    return INCLUDES + "".join((*bodies, *variables))


def compiled(release, text, to, *words):
    """Compiles a text over the headers of a release to a file."""
    source = to.with_suffix(".c")
    source.write_text(text)
    run(CC, "-g", "-O0", *words, "-I", release / "include", source, "-o", to, check=True)
    return to


def shared_of(release):
    """The shared object of a release."""
    found = list((release / "x86-64").glob("libslh.so.*"))
    if len(found) != 1:
        raise Missing(f"{release}/x86-64 has {len(found)} files libslh.so.*")
    return found[0]


def exported(shared):
    """The functions that a shared object exports, but for those of the C runtime, each with the version of its symbol,
    which is empty if it has none."""
    done = run("nm", "-D", "--defined-only", shared)
    if done.returncode:
        raise Missing(f"{shared} is no shared object")
    found = re.findall(r" [TWi] (\w+)(?:@@?(\w+))?", done.stdout)
    return {name: version for name, version in found if not name.startswith("_")}


def lost_symbols(old, new):
    """What a loader misses in the shared object of NEW, a line each."""
    if shared_of(old).name != shared_of(new).name:
        yield f"the shared object is {shared_of(new).name}, and was {shared_of(old).name}"
    after = exported(shared_of(new))
    for name, version in exported(shared_of(old)).items():
        if version and after.get(name, version) != version:
            yield f"{name} has the version {after[name] or 'none'}, and had {version}"


def numbers(release, work, name):
    """The values of the macros that are numbers, by name."""
    macros = [it for it, _ in MACRO.findall(text_of(release)) if it not in ("SLH_API", "SLH_MUST_USE")]
    lines = "".join(f'printf("{it} %llu\\n", (unsigned long long)({it}));\n' for it in macros)
    program = compiled(release, f"{INCLUDES}int main(void) {{\n{lines}return 0;\n}}\n", work / name)
    return dict(line.split() for line in run(program, check=True).stdout.splitlines())


def differences(old, new, work):
    """What programs of OLD miss in NEW, a line each."""
    for it in (old, new):
        declared, found = calls(it), set(exported(shared_of(it)))
        if declared != found or not declared:
            yield f"{it}: declared and exported calls differ: {sorted(declared ^ found)}"
    yield from lost_symbols(old, new)
    before, after = numbers(old, work, "old_numbers"), numbers(new, work, "new_numbers")
    for name, value in before.items():
        if after.get(name) != value:
            yield f"{name} is {after.get(name, 'missing')}, and was {value}"
    libraries = [compiled(it, stub(it), work / name, "-shared", "-fPIC") for it, name in ((old, "old"), (new, "new"))]
    done = run("abidiff", "--no-added-syms", *libraries)
    if done.returncode:
        yield done.stdout.strip() or f"abidiff ended with status {done.returncode}"


def main():
    if len(sys.argv) != 3 or sys.argv[1].startswith("-"):
        print(__doc__.split("\n\n")[1], file=sys.stderr)
        sys.exit(2)
    old, new = map(pathlib.Path, sys.argv[1:])
    lacking = [it for it in (CC, "nm", "abidiff") if shutil.which(it) is None]
    try:
        if lacking:
            raise Missing(f"there is no {lacking[0]} (Debian's packages gcc, binutils, abigail-tools)")
        with tempfile.TemporaryDirectory() as work:
            found = list(differences(old, new, pathlib.Path(work)))
    except Missing as fault:
        print(f"tools/abi.py: {fault}", file=sys.stderr)
        sys.exit(2)
    except subprocess.CalledProcessError as fault:
        found = [f"the headers are not compiled: {shlex.join(fault.cmd)}"]
    print("\n".join(found) or f"{len(calls(old))} calls are as they were")
    sys.exit(bool(found))


if __name__ == "__main__":
    main()
