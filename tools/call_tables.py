#!/usr/bin/env python3
"""Writes the texts that repeat the calls of the library for C, out of c/exports/calls.h and the headers: declarations
of the crate slh-sys, the lists of the package for JavaScript, and the calls of the portable C.

usage: tools/call_tables.py            writes the texts between the markers of each file
       tools/call_tables.py --check    the status is 0 if they are as they would be written

calls.h has the kind of each call, and the headers have the names of its arguments. A declaration of slh-sys keeps its
comment. A new one gets the first sentence of the header's. Calls that OWN lists are written by hand in the portable C.
"""
import pathlib
import re
import sys
import textwrap
from typing import NamedTuple

ROOT = pathlib.Path(__file__).resolve().parent.parent
WIDTH = 120
SLH_SYS, JAVASCRIPT, PORTABLE = "bindings/rust/slh-sys/src/lib.rs", "bindings/javascript/calls.js", "c/portable/calls.c"
BEGIN = "tools/call_tables.py writes the lines from here on."
END = "tools/call_tables.py has written the lines up to here."
# The calls of which the portable C has more than the proved call: a loop over others, and the name of its own refusal.
OWN = {"slh_verify_many", "slh_refusal_name"}
# The kinds of calls that take secrets.
SECRET_KINDS = {"SECRET", "READS"}
# The calls that are not proved.
IN_C = {"slh_erase", "slh_level", "slh_refusal_text"}
KIND = re.compile(r"^([A-Z]+)\(([a-z_]+),$", re.M)
# A comment and the declaration behind it.
DECLARED = re.compile(r"^/\*\n((?: \*.*\n)+?) \*/\n(SLH_MUST_USE )?SLH_API\n([\w ]+[ *])(slh_\w+)\(([^)]*)\);$", re.M)
RUST_TYPES = {"uint32_t": "u32", "size_t": "usize", "const uint8_t *": "*const u8", "uint8_t *": "*mut u8",
              "uint32_t *": "*mut u32", "size_t *": "*mut usize", "char *": "*mut c_char", "void *": "*mut c_void",
              "const slh_signed *": "*const slh_signed"}
RUST_RESULTS = {"uint32_t": " -> u32", "void": "", "const char *": " -> *const c_char"}


class Parameter(NamedTuple):
    kind: str  # as in C, with its star
    name: str


class Call(NamedTuple):
    name: str
    header: str
    result: str
    parameters: list
    comment: str
    must_use: bool


class Fault(Exception):
    """What is wrong with a file."""


def read(path):
    return (ROOT / path).read_text()


def parameter(text):
    kind, name = re.fullmatch(r"(.*[ *])(\w+)", text).groups()
    return Parameter(kind.strip(), name)


def declared():
    """The calls that the headers declare, in their order."""
    found = []
    for header in ("slh.h", "slh_verify.h", "slh_internal.h"):
        for comment, must_use, result, name, inside in DECLARED.findall(read(f"c/include/{header}")):
            words = " ".join(inside.split())
            parameters = [parameter(it.strip()) for it in words.split(",") if words != "void"]
            said = " ".join(line[3:].strip() for line in comment.splitlines())
            found.append(Call(name, header, result.strip(), parameters, said, bool(must_use)))
    return found


def kinds():
    """The kind of each proved call."""
    return {f"slh_{name}": kind for kind, name in KIND.findall(read("c/exports/calls.h"))}


def compare(calls, of_kind):
    """Refuses a proved call that no header declares, and a declared one that calls.h does not have."""
    names = {it.name for it in calls}
    for missing, what in ((set(of_kind) - names, "no header declares"), (names - IN_C - set(of_kind), "calls.h lacks")):
        if missing:
            raise Fault(f"{what} {', '.join(sorted(missing))}")


# ---- slh-sys


def first_sentence(comment):
    sentence = re.split(r"(?<=\.)\s|\s+Returns: ", comment)[0]
    return textwrap.wrap(sentence, WIDTH - len("    /// "))


def comments_of(text):
    """The comment of each declaration that is there."""
    found = re.findall(r"((?: +/// .*\n)+)(?: +#\[must_use\]\n)? +pub fn (slh_\w+)\(", text)
    return {name: [it.strip().removeprefix("/// ") for it in comment.splitlines()] for comment, name in found}


def as_rust(call, comment):
    """The declaration of a call, laid out as rustfmt does it."""
    try:
        words = [f"{it.name}: {RUST_TYPES[it.kind]}" for it in call.parameters]
        result = RUST_RESULTS[call.result]
    except KeyError as unknown:
        raise Fault(f"{call.name} has a type that Rust is not given: {unknown}") from None
    lines = [f"    /// {it}" for it in comment] + ["    #[must_use]"] * call.must_use
    line = f"    pub fn {call.name}({', '.join(words)}){result};"
    if len(line) <= WIDTH:
        return [*lines, line]
    return [*lines, f"    pub fn {call.name}(", *(f"        {it}," for it in words), f"    ){result};"]


def slh_sys(calls, of_kind, text):
    comments = comments_of(text)
    public = [it for it in calls if it.header != "slh_internal.h"]
    lines = [line for it in public for line in as_rust(it, comments.get(it.name) or first_sentence(it.comment))]
    return "\n".join(['extern "C" {', *lines, "}"])


# ---- JavaScript


def names_as_javascript(name, calls):
    line = textwrap.fill(" ".join(f'"{it}",' for it in calls), WIDTH - 4)
    return f"const {name} = [\n{textwrap.indent(line, '    ')}\n];"


def javascript(calls, of_kind, text):
    secret = [name for name, kind in of_kind.items() if kind in SECRET_KINDS]
    rest = [name for name, kind in of_kind.items() if kind not in SECRET_KINDS]
    return names_as_javascript("OPEN", rest) + "\n" + names_as_javascript("SECRET", secret)


# ---- the portable C


def is_bytes(it):
    return it.kind in ("const uint8_t *", "uint8_t *", "char *")


def c_line(head, words, tail):
    """A line of C with arguments, of which the later lines begin below the first argument."""
    lines = [head + words[0]]
    for at, it in enumerate(words[1:], 2):
        behind = tail if at == len(words) else ","
        if len(lines[-1]) + len(f", {it}{behind}") <= WIDTH:
            lines[-1] += f", {it}"
        else:
            lines[-1] += ","
            lines.append(" " * len(head) + it)
    return "\n".join(lines) + tail


class Parts:
    """The parts of a call of the proved code, and its arguments."""

    def __init__(self, call):
        self.parts, self.arguments, self.results = [], [], []
        names = {it.name for it in call.parameters}
        lengths = {f"{it.name}_len" for it in call.parameters if is_bytes(it)}
        for it in call.parameters:
            if it.kind == "uint32_t":
                self.arguments.append(it.name)
            elif is_bytes(it) and f"{it.name}_len" in names:
                self.arguments.append(f"B({len(self.parts)})")
                self.parts.append(f"{'READ' if it.kind.startswith('const') else 'WRITE'}({it.name})")
            elif it.kind in ("size_t *", "uint32_t *"):
                self.add_number(it)
            elif it.name not in lengths:
                raise Fault(f"{call.name}: {it.name} is no argument that the portable C is given")

    def add_number(self, it):
        """A number that the call writes."""
        at = len(self.results)
        self.arguments.append(f"P({len(self.parts)})")
        self.parts.append(f"{'NUMBER' if it.kind == 'size_t *' else 'WORD'}({at})")
        value = f"SIZE({at})" if it.kind == "size_t *" else f"get32(numbers[{at}])"
        self.results.append(f"*{it.name} = {value}")


def as_c(call):
    """The call over the translated code."""
    made = Parts(call)
    words = [f"{it.kind} {it.name}".replace("* ", "*") for it in call.parameters]
    lines = [c_line(f"uint32_t {call.name}(", words, ") {")]
    if made.results:
        lines.append(f"    uint8_t numbers[{len(made.results)}][8];")
    lines.append(c_line("    struct part parts[] = {", made.parts, "};"))
    lines.append(c_line("    RUN(", [call.name.removeprefix("slh_"), *made.arguments], ");"))
    if made.results:
        lines.append(c_line("    if (result == SLH_DONE) ", made.results, ";"))
    return "\n".join([*lines, "    return result;", "}"])


def portable(calls, of_kind, text):
    """The calls of slh_verify.h are in another file, which leaves out sets."""
    mine = [it for it in calls if it.header != "slh_verify.h" and it.name in of_kind and it.name not in OWN]
    return "\n\n".join(map(as_c, mine))


# ---- the files

FILES = {SLH_SYS: slh_sys, JAVASCRIPT: javascript, PORTABLE: portable}


def written(path, calls, of_kind):
    """The text of a file, with what is between its markers written anew."""
    text = read(path)
    parts = re.fullmatch(rf"(.*{re.escape(BEGIN)}[^\n]*\n)(.*?)([^\n]*{re.escape(END)}.*)", text, re.S)
    if parts is None:
        raise Fault(f"{path} does not have both markers")
    head, old, tail = parts.groups()
    gap = "\n" if old.startswith("\n") else ""
    return head + gap + FILES[path](calls, of_kind, old) + "\n" + gap + tail


def main():
    if sys.argv[1:] not in ([], ["--check"]):
        print(__doc__.split("\n\n")[1], file=sys.stderr)
        sys.exit(2)
    try:
        calls, of_kind = declared(), kinds()
        compare(calls, of_kind)
        texts = {path: written(path, calls, of_kind) for path in FILES}
    except Fault as why:
        sys.exit(f"tools/call_tables.py: {why}")
    others = [path for path, text in texts.items() if read(path) != text]
    if sys.argv[1:] and others:
        sys.exit(f"tools/call_tables.py: not as it would be written: {', '.join(others)}: run tools/call_tables.py")
    for path in others:
        (ROOT / path).write_text(texts[path])


if __name__ == "__main__":
    main()
