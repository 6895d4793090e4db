#!/usr/bin/env python3
"""Writes docs/CONTRACTS.md from the sources: for each file of each crate the calls that other crates can use, the names
of their clauses, and the wrong bodies that the prover has to refuse, as edits in must-fail/ (tried by `rt ci`) and
wrong/ (tried by tests/wrong_bodies.py). A private function is listed if an edit turns it. The script also writes the numbers
of lines of definitions into docs/PROVED.md. It checks that the code on crates/slh_examples/README.md is that of
crates/slh_hello and crates/slh_examples, its lines those of crates.txt, and that the sources have the clauses that
docs/PROVED.md names.

Usage: tools/contracts.py           writes the pages
       tools/contracts.py --check   fails if a page or the code is not what the sources say
"""
import glob
import os
import re
import sys
import textwrap

ROOT = os.path.dirname(os.path.dirname(os.path.abspath(__file__)))
PAGE = os.path.join(ROOT, "docs", "CONTRACTS.md")
CALLING = os.path.join(ROOT, "crates", "slh_examples", "README.md")
PROVED = os.path.join(ROOT, "docs", "PROVED.md")
UNNAMED = "one, unnamed"
HEAD = """# Every call, its clauses and its wrong bodies

For auditors: which clauses does a call have, and which wrong bodies does the prover refuse?

`tools/contracts.py` writes this page from the sources, and the test command fails if it differs. The contracts
themselves, their definitions and a search field are on the page that `tools/contracts_page.py FILE` writes.
[PROVED.md](PROVED.md) explains the clauses.

The page lists the calls that other crates can use, by crate and file. Each call has the names of its clauses, then the
names of its wrong bodies. {edits} edits are in `crates/NAME/wrong`, which `tests/wrong_bodies.py` tries, and {few} in
`crates/NAME/must-fail`, which `rt ci` tries. A private function is listed if an edit changes it. "X as T" is a type's
method of the trait T, with the trait's clauses. "no clause": the function is safe and returns, as all do.
"""
WIDTH = 160


def read(*path):
    with open(os.path.join(ROOT, "crates", *path)) as file:
        return file.read()


def sources(crate):
    """The paths of a crate's source files, tests left out."""
    top = os.path.join(ROOT, "crates", crate)
    for folder, folders, files in os.walk(os.path.join(top, "src")):
        folders[:] = sorted(name for name in folders if name != "tests")
        for name in sorted(files):
            if name.endswith(".rt") and name != "tests.rt":
                yield os.path.relpath(os.path.join(folder, name), top)


def exported(crate):
    """The names that lib.rt gives to other crates."""
    text = read(crate, "src/lib.rt") if os.path.isfile(os.path.join(ROOT, "crates", crate, "src", "lib.rt")) else ""
    lists = re.findall(r"pub use (?:crate::)?[\w:]+::\{([^}]*)\};|pub use (?:crate::)?[\w:]+::(\w+);", text)
    own = re.findall(r"^pub (?:fn|struct|enum|trait|const) (\w+)", text, re.M)
    return {name.strip() for some, one in lists for name in (some or one).split(",")} | set(own)


def owner_of(line):
    """The type, trait or type with its trait that the functions below this line belong to, "" for none, or None where
    the line says nothing of it."""
    of_trait = re.match(r"(?:pub(?:\(crate\))? )?trait (\w+)", line)
    of_impl = re.match(r"impl(?:<.*?>)? (?:(\w+)(?:<.*?>)? for )?&?(\w+)", line)
    if of_trait:
        return of_trait[1]
    if of_impl:
        return f"{of_impl[2]} as {of_impl[1]}" if of_impl[1] else of_impl[2]
    return "" if line.startswith("}") else None


def functions(crate, path):
    """The functions of a file: line, name, whether other crates can call it, and its clauses by name."""
    text = read(crate, path)
    names, owner, found = exported(crate), "", []
    for number, line in enumerate(text.split("\n")):
        owner = owner if owner_of(line) is None else owner_of(line)
        function = re.match(r'\s*(pub )?(?:pub\(\w+\) )?(?:final )?(?:const )?(extern "C" )?fn (\w+)', line)
        if function:
            in_trait = owner and re.search(rf"^pub trait {owner}\b", text, re.M)
            is_public = bool(function[2]) or (owner or function[3]) in names and bool(function[1] or in_trait)
            found.append((number, f"{owner}::{function[3]}" if owner else function[3], is_public, []))
        clause = re.match(r"\s*ensures(?: (\w+))? \{", line)
        if clause and found:
            found[-1][3].append(clause[1] or UNNAMED)
    return found


def edits(crate):
    """For each edit of a crate its name, the file, and the line that it changes first. The file has that text once, and
    the crate has the function that the prover has to refuse."""
    for folder in ("must-fail", "wrong"):
        top = os.path.join(ROOT, "crates", crate, folder)
        for name in sorted(os.listdir(top)) if os.path.isdir(top) else ():
            text = read(crate, folder, name)
            path, old = re.search(r"^file: (.*)$", text, re.M)[1], re.search(r"^old: (.*)$", text, re.M)[1]
            code, function = read(crate, path), re.search(r"^refused: .*?(\w+)$", text, re.M)[1]
            all_code = "".join(read(crate, it) for it in sources(crate))
            if code.count(old) != 1 or not re.search(rf"\bfn {function}\b", all_code):
                sys.exit(f"tools/contracts.py: {name} of {crate}: {path} has not its text once, or no file {function}")
            yield name.removesuffix(".edit"), path, code.partition(old)[0].count("\n")


def quoted(names):
    return ", ".join(f"`{name}`" for name in names)


def clauses_of(name, clauses):
    """The words of a line for a function's clauses."""
    if not clauses:
        return "clauses of the trait" if " as " in name else "no clause"
    return "one clause" if set(clauses) == {UNNAMED} else quoted(clauses)


def line_of(name, is_public, clauses, wrong):
    """The list item of a function, as lines of at most WIDTH characters."""
    private = "" if is_public or " as " in name else " (private)"
    said = f"- `{name}`{private}: {clauses_of(name, clauses)}" + (f"; wrong: {quoted(wrong)}" if wrong else "")
    return "\n".join(textwrap.wrap(said, WIDTH, subsequent_indent="  ", break_long_words=False, break_on_hyphens=False))


def rows_of(crate):
    """The section of a crate, "" if it has no calls: for each file a list of the functions that other crates can call,
    or that an edit turns."""
    rows, turned = [], {}
    for edit, path, line in edits(crate):
        above = [name for number, name, _, _ in functions(crate, path) if number <= line]
        turned.setdefault((path, above[-1] if above else ""), []).append(edit)
    for path in sources(crate):
        lines = []
        for _, name, is_public, clauses in functions(crate, path):
            wrong = turned.pop((path, name), [])
            if wrong or is_public:
                lines.append(line_of(name, is_public, clauses, wrong))
        if (path, "") in turned:
            lines.append(f"- the file itself; wrong: {quoted(turned.pop((path, '')))}")
        rows += [f"\n**{path.removeprefix('src/')}**\n", *lines] if lines else []
    if turned:
        sys.exit(f"tools/contracts.py: edits of {crate} turn text that is in none of its sources: {turned}")
    return "\n".join([f"\n## {crate}", *rows]) + "\n" if rows else ""


def head():
    few, edits = (len(glob.glob(os.path.join(ROOT, "crates", "*", kind, "*.edit"))) for kind in ("must-fail", "wrong"))
    return HEAD.format(edits=edits, few=few)


def crates():
    """The crates in the order of crates.txt, but those for tests alone."""
    with open(os.path.join(ROOT, "crates.txt")) as file:
        names = [line.partition(":")[0].partition(" ")[0] for line in file if line.strip()]
    return [name for name in names if not name.endswith("_tests") and name != "refusing_allocator"]


def strange_code():
    """The first lines of the code on crates/slh_examples/README.md that no file of slh_hello and slh_examples has, and
    its lines of crates.txt that are not there."""
    files = [read(crate, path) for crate in ("slh_hello", "slh_examples") for path in sources(crate)]
    with open(os.path.join(ROOT, "crates.txt")) as list_of_crates, open(CALLING) as page:
        known, text = list_of_crates.read().split("\n"), page.read()
    pieces = re.findall(r"^```rust\n(.*?)^```$", text, re.M | re.S)
    lines = "".join(re.findall(r"^```text\n(.*?)^```$", text, re.M | re.S)).splitlines()
    strange = [piece.partition("\n")[0] for piece in pieces if not any(piece in file for file in files)]
    return strange + [line for line in lines if line not in known]


def with_lines(page):
    """The page PROVED, with the numbers of lines that its files of definitions have."""
    counts = []

    def counted(row):
        names = re.findall(r"(\w+) \d+", row[2])
        lines = [read(row[1], "specs", f"{name}.antt").count("\n") for name in names]
        counts.extend(lines)
        return f"| `{row[1]}/specs` | {', '.join(f'{name} {count}' for name, count in zip(names, lines))} |"

    page = re.sub(r"^\| `(\w+)/specs` \| ([\w, ]+) \|", counted, page, flags=re.M)
    return re.sub(r"[\d,]+ lines in all", f"{sum(counts):,} lines in all", page)


def missing_clauses():
    """The clauses that PROVED names for a crate, or for a function of a file, and that are not there."""
    with open(PROVED) as page:
        text = page.read()
    crate_rows = re.findall(r"^\| (slh_\w+) \| .* \| (`.*`.*?) \|$", text, re.M)
    rows = re.findall(r"^\| (?:`(\w+)`|the one) of `([\w:]+)` \| `(\w+)/(src/[\w/]+\.rt)` \|", text, re.M)
    if len(crate_rows) < 10 or len(rows) != 6:
        yield f"docs/PROVED.md has {len(crate_rows)} crates with clauses, {len(rows)} clauses of functions"
    for crate, named in crate_rows:
        known = {clause for path in sources(crate) for function in functions(crate, path) for clause in function[3]}
        known |= {name for path in sources(crate) for _, name, _, _ in functions(crate, path)}
        yield from (f"{name} of {crate}" for name in re.findall(r"`(\w+)`", named) if name not in known)
    for clause, function, crate, path in rows:
        if not any(name == function and (clause or UNNAMED) in all for _, name, _, all in functions(crate, path)):
            yield f"{clause or UNNAMED} of {function} in {path} of {crate}"


def main():
    written = head() + "".join(rows_of(crate) for crate in crates())
    with open(PROVED) as file:
        proved = file.read()
    counted = with_lines(proved)
    if "--check" not in sys.argv[1:]:
        with open(PAGE, "w") as file:
            file.write(written)
        with open(PROVED, "w") as file:
            file.write(counted)
    else:
        with open(PAGE) as file:
            if (file.read(), proved) != (written, counted):
                sys.exit("docs/CONTRACTS.md or docs/PROVED.md is not what the sources say: run tools/contracts.py")
    missing = list(missing_clauses())
    if missing:
        sys.exit("docs/PROVED.md names clauses that are not there: " + "; ".join(missing))
    strange = strange_code()
    if strange:
        sys.exit("crates/slh_examples/README.md has code that no file of slh_hello or slh_examples has, or lines that "
                 "crates.txt has not: " + "; ".join(strange))


if __name__ == "__main__":
    main()
