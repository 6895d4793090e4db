#!/usr/bin/env python3
"""Which files of definitions the clauses of docs/PROVED.md, "Six clauses", rest on. It begins with the names in these
clauses and in the `requires` of their functions, and with three files that types rest on. It follows each name to its
definition. The table of part 1 has to list just the files that this finds, with their lines and the sum of these.

usage: tests/reading_list.py

It prints the files with their lines, the sum, and what is wrong with the table. tests/test_pages.py runs it, too.
"""
import pathlib
import re
import sys

HERE = pathlib.Path(__file__).resolve().parent.parent
CRATES, PAGE = HERE / "crates", HERE / "docs/PROVED.md"
STARTS = re.compile(r"(?:abbrev|unfoldable|unfold|pub|record|data|instance|class|infix\w*)\b")
NAMED = re.compile(r"(?:abbrev |unfoldable |unfold )?(?:pub )?(?:record |data )?(\S+) :")
TOKEN = re.compile(r"[^\s(){}\[\],;.=λ]+")
# Which records are valid, which a `ParamSet` is; what contracts see of a seat; the pre-hash form, whose clauses are like
# the six.
ALSO = ["slh_params/specs/Valid.antt", "slh_board/specs/Seats.antt", "slh_core/specs/PreHash.antt"]
USE = re.compile(r"use Rattle\.(\w+)\.specs\.([\w.]+)\.\{([^}]*)\}")


def file_of(crate, module):
    """The file of a module of definitions, or None: it is of the kit, or a type of the code."""
    path = CRATES / crate / "specs" / f"{module.replace('.', '/')}.antt"
    return path if path.is_file() else None


def imports(text):
    """The names that a text imports, each with its file (or None) and its name there."""
    found = {}
    for crate, module, names in USE.findall(text):
        for name in names.split(", "):
            there, _, here = name.partition(" as ")
            found[here or there] = (file_of(crate, module), there)
    return found


class File:
    """A file of definitions: its imports, and each name with the text of its definition."""

    def __init__(self, path):
        text = re.sub(r"\s*--.*", "", path.read_text())
        self.imports, self.definitions, current = imports(text), {}, []
        for line in text.split("\n"):
            if STARTS.match(line) and (named := NAMED.match(line)):
                current = self.definitions.setdefault(named[1], [])
            elif member := re.match(r"  (?:pub )?(\S+) :", line):  # a constructor or a field
                self.definitions.setdefault(member[1], current)
            current.append(line)


FILES = {}


def read(path):
    if path not in FILES:
        FILES[path] = File(path)
    return FILES[path]


def uses(name, tokens):
    """Whether a name is used; an operator has the places of its arguments in its name."""
    parts = [it for it in name.split("◌") if it]
    return bool(parts) and all(it in tokens for it in parts)


def followed(names):
    """Each definition that is reached from names, as pairs of a file and a name."""
    reached, left = set(), list(names)
    while left:
        path, name = left.pop()
        if path is None or (path, name) in reached:
            continue
        reached.add((path, name))
        file = read(path)
        tokens = set(TOKEN.findall("\n".join(file.definitions.get(name, []))))
        left += [(path, it) for it in file.definitions if uses(it, tokens)]
        left += [there for it, there in file.imports.items() if uses(it, tokens)]
    return reached


def clauses():
    """The clauses of part 2: the name of each, or None if it has none, its function, and the function's file."""
    rows = re.findall(r"^\| (?:`(\w+)` of|the one of) `(?:\w+::)?(\w+)` \| `([\w/.]+)` \|", PAGE.read_text(), re.M)
    return [(name or None, function, CRATES / file) for name, function, file in rows]


def names_of(clause, function, path):
    """The names in a clause of a function, and in its `requires`."""
    text = path.read_text()
    head = re.search(rf"\n( *)pub fn {function}\b.*?\n\1\{{\n", text, re.S)[0]
    found = re.findall(r"(requires|ensures) ?(\w+)? \{(.*?)\}\n(?= *(?:requires|ensures|//|\{|\n))", head, re.S)
    wanted = [it for kind, name, it in found if kind == "requires" or (name or None) == clause]
    has_it = any(kind == "ensures" and (name or None) == clause for kind, name, _ in found)
    assert has_it, f"{path.name}: {function} has no clause {clause}"
    tokens = set(TOKEN.findall("\n".join(wanted)))
    return [there for it, there in imports(text).items() if uses(it, tokens)]


def needed():
    """The files that the clauses rest on, each with its lines."""
    rows = clauses()
    assert len(rows) == 6, f"{len(rows)} clauses in part 2"
    names = [there for row in rows for there in names_of(*row)]
    names += [(CRATES / it, name) for it in ALSO for name in read(CRATES / it).definitions]
    reached = followed(names)
    paths = sorted({path for path, _ in reached})
    return {f"{it.parts[-3]}/{it.stem}": it.read_text().count("\n") for it in paths}


def listed():
    """The files of the table of part 1 with their lines, and the sum that stands above it."""
    part = re.search(r"^## 1\..*?^## 2\.", PAGE.read_text(), re.M | re.S)[0]
    rows = re.findall(r"^\| `(\w+)/specs` \| ([^|]*) \|", part, re.M)
    found = {f"{crate}/{name}": int(lines) for crate, cell in rows for name, lines in re.findall(r"(\w+) (\d+)", cell)}
    return found, int(re.search(r"([\d,]+) lines", part)[1].replace(",", ""))


def faults():
    """What is wrong with the table."""
    files, (said, total) = needed(), listed()
    found = [f"{it}, {lines} lines, is not listed" for it, lines in files.items() if it not in said]
    found += [f"{it} is listed, and nothing rests on it" for it in said if it not in files]
    found += [f"{it} has {files[it]} lines, and not {lines}" for it, lines in said.items() if files.get(it, lines) != lines]
    return found + ([f"the sum is {sum(files.values()):,}, and not {total:,}"] if total != sum(files.values()) else [])


if __name__ == "__main__":
    for name, lines in needed().items():
        print(f"{name} {lines}")
    print(f"{sum(needed().values()):,} lines")
    sys.exit("\n".join(faults()))
