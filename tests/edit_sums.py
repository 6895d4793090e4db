"""What the answer to an edit of tests/wrong_bodies.py depends on, as a sum: the edit; the function that it turns and
the texts that it changes; the proof of this function and the lemmas of its crate; the contracts of the functions that
these name; the types and traits that all these name, in the crate and in those that it uses; the definitions that they
cite; and the prover's logic. Comments and line breaks change no sum. A word that is a function's name elsewhere counts
as a call, so a sum may also change for a text on which the answer does not depend.

The files are read as `rt fmt` lays them out.
"""
import functools
import hashlib
import os
import re

import kit
from kit import ROOT, USES

# A text in quotes, a comment behind code with its line break, or another line break with the indent of the next line.
BREAK = re.compile(r"""'\\?"'|"(?:\\.|[^"\\])*"|//[^\n]*\n|\n\s*""", re.S)
FUNCTION = re.compile(r'\s*(pub(?:\(\w+\))? )?(?:(?:final|const|unsafe|extern "C") )*fn (\w+)')
TYPE = re.compile(r"(?:pub(?:\(\w+\))? )?(?:struct|enum|trait|type|const|static) (\w+)")
# The files of a function's proof, in a folder with its name.
ANSWERS = ("Answers.antt", "Invariants.antt", "Proof.antt")


class Chunk:
    """A function, a type, a trait or an impl block of a source file: its text without bodies of functions, its bodies,
    and the names of which another text has to have one of each set to reach it."""

    def __init__(self, crate, path, lines, names, body=(), is_public=False):
        self.crate, self.path, self.names, self.is_public = crate, path, names, is_public
        self.is_function = bool(names) and any(FUNCTION.match(line) for line in lines) and not any(
            re.match(r"(?:pub(?:\(\w+\))? )?(?:trait|impl)\b", line) for line in lines)
        self.text, self.body = plain("\n".join(lines)), "\n".join(body)
        self.words = words_of(self.text)

    def is_named(self, words):
        return all(some & words for some in self.names)


def words_of(text):
    return set(re.findall(r"\w+", text))


def files(crate, *parts):
    """The files of parts of a crate, by their path in it."""
    top = os.path.join(ROOT, "crates", crate)
    for part in parts:
        for folder, folders, names in os.walk(os.path.join(top, part)):
            folders.sort()
            for name in sorted(names):
                yield os.path.relpath(os.path.join(folder, name), top)


def text_of(crate, path):
    with open(os.path.join(ROOT, "crates", crate, path), encoding="utf-8") as file:
        return file.read()


def without_comments(text):
    return "\n".join(line for line in text.split("\n") if not re.match(r"\s*(//|--( |$))", line))


def plain(text):
    """A text of a source file with a space for each line break and indent: a clause that is broken into lines changes
    no proof. A line break in quotes is a part of the text, and one behind a comment ends it."""
    return BREAK.sub(lambda it: " " if it[0][0] == "\n" else it[0], text)


def end_of_item(lines, first):
    """The line behind an item that begins in a line: its braces are closed there, and no clause and no body follows."""
    depth = 0
    for number in range(first, len(lines)):
        line, after = lines[number], "".join(lines[number + 1 : number + 2])
        depth += line.count("{") - line.count("}")
        if not depth and line.endswith((";", "}")) and not re.match(r"\s*((ensures|requires|where)\b|\{$)", after):
            return number + 1
    return len(lines)


def split_function(lines):
    """The contract of a function, and its body."""
    indent = re.match(r"\s*", next(line for line in lines if FUNCTION.match(line)))[0]
    for number, line in enumerate(lines):
        if line == indent + "{" or line.startswith(indent) and line.endswith(" {") and "fn " in line:
            return lines[: number + 1], lines[number + 1 :]
    return lines, []


def inner_chunks(crate, path, head, lines, owner, of_trait):
    """The chunks of an impl block or a trait: a function each of an impl of no trait, and all else as one."""
    rest, bodies, start, number = [head], [], 0, 0
    while number < len(lines):
        function = FUNCTION.match(lines[number])
        if not function or not lines[number].startswith("    ") or lines[number].startswith("     "):
            if not re.match(r"\s*#\[", lines[number]):
                rest, start = rest + lines[start : number + 1], number + 1
            number += 1
            continue
        end = end_of_item(lines, number)
        contract, body = split_function(lines[start:end])
        if of_trait:
            rest, bodies = rest + contract, bodies + [(function[2], contract + body)]
        else:
            is_public = (function[1] or "").strip() == "pub"
            yield Chunk(crate, path, contract, [{function[2]}, {owner}], body, is_public)
        start = number = end
    whole = [line for _, body in bodies for line in body]
    yield Chunk(crate, path, rest, [{owner}], whole, True)


@functools.lru_cache(None)
def chunks(crate, path):
    """The chunks of a source file, and its imports of definitions."""
    return chunks_of(crate, path, text_of(crate, path))


def chunks_of(crate, path, text):
    """The same of a text that a source file may have."""
    lines = [line for line in without_comments(text).split("\n") if line.strip()]
    found, imports, start, number = [], {}, 0, 0
    while number < len(lines):
        line = lines[number]
        if line.startswith("#!["):
            found.append(Chunk(crate, path, [line], [], (), True))
        if line.startswith(("#[", "#![")):
            start, number = (start, number + 1) if line.startswith("#[") else (number + 1, number + 1)
            continue
        end = end_of_item(lines, number)
        block = lines[start:end]
        ghost = re.match(r"(?:pub )?ghost (use .*)", plain("\n".join(lines[number:end])))
        implementation = re.match(r"impl(?:<.*?>)? (?:(\w+)(?:<.*?>)? for )?&?(?:'\w+ )?(\w+)", line)
        if ghost:
            imports |= imported(ghost[1])
        elif implementation or re.match(r"(?:pub(?:\(\w+\))? )?trait ", line):
            owner = implementation[2] if implementation else TYPE.match(line)[1]
            of_trait = not implementation or bool(implementation[1])
            found += inner_chunks(crate, path, "\n".join(lines[start : number + 1]),
                                  lines[number + 1 : end - 1], owner, of_trait)
        elif FUNCTION.match(line):
            contract, body = split_function(block)
            is_public = (FUNCTION.match(line)[1] or "").strip() == "pub"
            found.append(Chunk(crate, path, contract, [{FUNCTION.match(line)[2]}], body, is_public))
        elif TYPE.match(line):
            found.append(Chunk(crate, path, block, [{TYPE.match(line)[1]}], (), True))
        elif not re.match(r"(?:pub(?:\(\w+\))? )?(?:use|mod) ", line):
            found.append(Chunk(crate, path, block, [], (), True))
        start = number = end
    return found, imports


@functools.lru_cache(None)
def reachable(crate):
    """The chunks that a function of a crate may reach: all of the crate, and the public ones of those that it uses."""
    places = [(name, path) for name in [crate, *USES[crate]] if name in USES for path in files(name, "src")]
    return [it for name, path in places if path.endswith(".rt") for it in chunks(name, path)[0]
            if name == crate or it.is_public]


@functools.lru_cache(None)
def logic():
    return kit.logic()


def imported(text):
    """The words that a text imports from definitions: of each its crate, module and name there ("" is the module)."""
    found = {}
    for crate, module, names in re.findall(r"use Rattle\.(\w+)\.specs\.([\w.]+)\.\{([^}]*)\}", text):
        for it in names.split(","):
            name, _, alias = it.strip().replace("◌", "").partition(" as ")
            found[alias or name] = (crate, module, name)
    for crate, module, alias in re.findall(r"use Rattle\.(\w+)\.specs\.([\w.]+) as (\w+)", text):
        found[alias] = (crate, module, "")
    return found


@functools.lru_cache(None)
def source_of(crate, module):
    """The file of a crate that a module of its specs stands for, of specs/ or the one of src/ that declares a type, and
    the next name behind the module's."""
    names = module.strip(".").split(".")
    for count in range(len(names), 0, -1):
        is_declared = names[0] == "declared"
        folder, part, end = ("src", names[1:count], ".rt") if is_declared else ("specs", names[:count], ".antt")
        path = f"{folder}/{'/'.join(part)}{end}"
        if os.path.isfile(os.path.join(ROOT, "crates", crate, path)):
            return path, "".join(names[count : count + 1])
    return None, ""


@functools.lru_cache(None)
def blocks(crate, path):
    """The definitions of a file of specs/ by name, each with all lines up to an empty one, and the file's imports."""
    text, found = without_comments(text_of(crate, path)), {}
    for block in re.split(r"\n\s*\n", text):
        if not block.lstrip().startswith(("use ", "pub use ")):
            for name in re.findall(r"^(?:abbrev |unfoldable )?pub (?:record |data )?([\w']+)", block, re.M):
                found[name] = block.strip()
    return found, imported(text)


@functools.lru_cache(None)
def definition(crate, module, name):
    """The text of a definition, and what it names: the whole file if the name has no lines of its own."""
    path, name = source_of(crate, f"{module}.{name}") if crate in USES else (None, "")
    if not path:
        return "", ()
    if path.endswith(".rt"):
        whole = plain(without_comments(text_of(crate, path)))
        text = "\n".join(it.text for it in chunks(crate, path)[0] if {name} in it.names) or whole
        known, own = chunks(crate, path)[1], {}
    else:
        own, known = blocks(crate, path)
        if name in known and name not in own:
            return "", (known[name],)
        text = own.get(name) or without_comments(text_of(crate, path))
    module = path.partition("/")[2].rpartition(".")[0].replace("/", ".")
    words = words_of(text)
    return text, (*(known[it] for it in words if it in known), *((crate, module, it) for it in words if it in own))


def cited(names):
    """The texts of definitions, and of all that they name."""
    found, left = {}, list(names)
    while left:
        it = left.pop()
        if it not in found:
            found[it], more = definition(*it)
            left += more
    return {text for text in found.values() if text}


@functools.lru_cache(None)
def proofs(crate):
    """The proof files of a crate by path, without comments."""
    return {path: without_comments(text_of(crate, path)) for path in files(crate, "proofs") if path.endswith(".antt")}


def turned(crate, edit, refused, changed):
    """The chunks that an edit turns or whose proof it has to cost, and the texts of their bodies."""
    function = refused.rpartition("::")[2]
    olds = re.findall(r"^old: (.*)$", edit, re.M)
    found = [it for it in reachable(crate) if it.crate == crate and (
        {function} in it.names or re.search(rf"\bfn {function}\b", it.body)
        or it.path in changed and any(old.strip() in it.text or old.strip() in it.body for old in olds))]
    return found, [plain(it.body) for it in found]


def reached(crate, found, texts):
    """The chunks that chunks and texts reach: the functions that they name, and all types, traits and impl blocks that
    they, these functions and one another name."""
    called = set().union(*map(words_of, texts), *(it.words for it in found))
    words, left = set(called), [it for it in reachable(crate) if it not in found]
    while True:
        named = [it for it in left if it.is_named(words) and (not it.is_function or it.names[0] & called)]
        if not named:
            return found, words
        found, left = found + named, [it for it in left if it not in named]
        words = words.union(*(it.words for it in named))


def changed_body(crate, texts):
    """The function, as NAME or Type::NAME, whose body is all that these texts of source files change, or "" if they
    change more."""
    found = []
    for path, text in texts.items():
        (old, imports), (new, others) = chunks(crate, path), chunks_of(crate, path, text)
        if imports != others or [(it.names, it.text) for it in old] != [(it.names, it.text) for it in new]:
            return ""
        found += [was for was, now in zip(old, new) if was.body != now.body]
    if len(found) != 1 or not found[0].is_function:
        return ""
    return "::".join(name for some in reversed(found[0].names) for name in some)


def sum_of(crate, path, refused, changed):
    """The sum of an edit of a crate, which refuses a function and changes files of src/."""
    edit, function = text_of(crate, path), refused.rpartition("::")[2]
    found, bodies = turned(crate, edit, refused, changed)
    answers = [text for name, text in proofs(crate).items()
               if os.path.basename(name) in ANSWERS and function in name.split("/")]
    lemmas = [text for name, text in proofs(crate).items() if os.path.basename(name) not in ANSWERS]
    found, words = reached(crate, found, [edit, *bodies, *answers])
    imports = {it for place in {(it.crate, it.path) for it in found} for word, it in chunks(*place)[1].items()
               if word in words}
    definitions = cited({*imports, *(it for text in [*answers, *lemmas] for it in imported(text).values())})
    made = hashlib.sha256(logic().encode())
    names = {".".join(it) for it in imports}
    for text in [edit, *bodies, *answers, *lemmas, *sorted({it.text for it in found} | names), *sorted(definitions)]:
        made.update(f"\0{text}".encode())
    return made.hexdigest()[:32]
