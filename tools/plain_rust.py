#!/usr/bin/env python3
"""Writes the proved crates as plain Rust, which stable rustc compiles: their text without clauses and ghosts.

usage: tools/plain_rust.py [--counts FILE] OUT

Writes a cargo workspace into the folder OUT: a new one, or one of an earlier run, which is removed first. Its crate
`slh` has each crate of CRATES as a module, and over them the files of the package bindings/rust/slh. Clauses, ghost
members and attributes of the prover are removed; the rest is copied token by token, except where a rule of RULES
applies. The number of times that each removal and rule was applied is printed, one a line, and written into FILE as
JSON, by source file. tests/plain_rust_check.py compares the result with the sources by these numbers.

What this program does not know it refuses, with the file and the line: status 1. rustfmt lays the result out.
"""
import collections
import json
import pathlib
import posixpath
import re
import shutil
import subprocess
import sys
from typing import NamedTuple

HERE = pathlib.Path(__file__).resolve().parent.parent
BESIDE = HERE / "tools" / "plain_rust"
PACKAGES = HERE / "bindings" / "rust"
CRATES = ["slh_params", "slh_hash", "slh_width", "slh_lanes", "slh_tree", "slh_few", "slh_core", "slh_subtrees",
          "slh_jobs", "slh_key_files", "slh_c", "slh_c_verify"]


class Refused(Exception):
    """A construct that this program does not know."""


class Token(NamedTuple):
    kind: str  # word, lifetime, literal or mark
    text: str
    lead: str  # the spaces and comments before it
    line: int


# ---------------------------------------------------------------------------------------------------------- tokens

SPACE = re.compile(r"(?:\s|//[^\n]*)+")
TOKEN = re.compile(r"""
    (?P<literal> b?"(?:\\.|[^"\\])*" | b?'(?:\\.[^']*|[^'\\\n])' | [0-9][0-9A-Za-z_]* )
  | (?P<lifetime> '[A-Za-z_][0-9A-Za-z_]* )
  | (?P<word> [A-Za-z_][0-9A-Za-z_]* )
  | (?P<mark> . )
""", re.VERBOSE | re.DOTALL)


def tokens_of(text):
    """The tokens of a text, and the spaces and comments behind the last one."""
    found, at, line = [], 0, 1
    while True:
        space = SPACE.match(text, at)
        lead = space.group() if space else ""
        at, line = at + len(lead), line + lead.count("\n")
        if at == len(text):
            return found, lead
        match = TOKEN.match(text, at)
        found.append(Token(match.lastgroup, match.group(), lead, line))
        at, line = match.end(), line + match.group().count("\n")


def text_of(tokens, tail):
    return "".join(it.lead + it.text for it in tokens) + tail


CLOSING = {"(": ")", "[": "]", "{": "}"}


def closes(tokens):
    """For the place of each opening bracket the place of its closing one."""
    pairs, stack = {}, []
    for place, it in enumerate(tokens):
        if it.kind != "mark":
            continue
        if it.text in CLOSING:
            stack.append(place)
        elif it.text in CLOSING.values():
            if not stack or CLOSING[tokens[stack[-1]].text] != it.text:
                raise Refused(f"line {it.line}: a bracket without its other one")
            pairs[stack.pop()] = place
    if stack:
        raise Refused(f"line {tokens[stack[-1]].line}: a bracket that is not closed")
    return pairs


def is_at(tokens, place, *texts):
    """Whether these tokens stand from `place` on. `None` stands for any token."""
    if not 0 <= place <= len(tokens) - len(texts) or tokens[place].text != texts[0]:
        return False
    return all(text in (None, tokens[place + it].text) for it, text in enumerate(texts))


def joined_lead(before, after):
    """The lead of a token before which others were removed: comments stay, and as many line ends as one place had."""
    head, tail = before.rstrip(), after.lstrip()
    space = max(before[len(head):], after[:len(after) - len(tail)], key=lambda it: (it.count("\n"), len(it)))
    return head + space + tail


def without(tokens, spans):
    """The tokens without those of the spans, pairs of a place and the place behind it; and the lead that a span at the
    end leaves. A span has a third member: the lead that stays."""
    kept, at, left = [], 0, None
    for first, past, lead in sorted(spans):
        for it in tokens[at:first]:
            kept.append(it if left is None else it._replace(lead=joined_lead(left, it.lead)))
            left = None
        left = lead if left is None else joined_lead(left, lead)
        at = past
    for it in tokens[at:]:
        kept.append(it if left is None else it._replace(lead=joined_lead(left, it.lead)))
        left = None
    return kept, left or ""


# ---------------------------------------------------------------------------------------------------------- ghosts

def own_comment_cut(lead):
    """A lead without the comment right above its token, which speaks of it."""
    lines = lead.split("\n")
    last = len(lines) - 1
    while last > 0 and re.match(r"\s*//(?!!)", lines[last - 1]):
        last -= 1
    return "\n".join(lines[:last] + lines[-1:])


def past_blocks(tokens, pairs, place, words):
    """The place behind `WORD {..}` for each of these words that stands there."""
    while place + 1 < len(tokens) and tokens[place].text in words and tokens[place + 1].text == "{":
        place = pairs[place + 1] + 1
    return place


def ghost_use(tokens, pairs, place):
    past = place
    while tokens[past].text != ";":
        past = pairs.get(past, past) + 1
    return (place, past + 1, tokens[place].lead), "ghost use"


def ghost_member(tokens, pairs, place):
    """A ghost field of a struct, or a ghost member of a trait or an impl."""
    first = place - 1 if is_at(tokens, place - 1, "pub") else place
    past = past_blocks(tokens, pairs, place + 2, (":", "=", "by"))
    if past == place + 2 or tokens[past].text not in ",;":
        raise Refused(f"line {tokens[place].line}: no ghost member that is known")
    return (first, past + 1, own_comment_cut(tokens[first].lead)), "ghost member"


def signature_end(tokens, pairs, place):
    """The place of the first clause, of the body or of the semicolon of the function whose `fn` stands at `place`."""
    while tokens[place].text not in ("{", ";", "requires", "ensures"):
        place = pairs.get(place, place) + 1
    return place


def clauses(tokens, pairs, place):
    """The spans of the clauses of a function, one after another."""
    place, spans = signature_end(tokens, pairs, place), []
    while tokens[place].text in ("requires", "ensures"):
        named = tokens[place + 1].kind == "word"
        past = place + 1 + named
        if tokens[past].text != "{":
            raise Refused(f"line {tokens[place].line}: no clause that is known")
        past = past_blocks(tokens, pairs, pairs[past] + 1, ("by",))
        spans.append(((place, past, ""), "clause"))
        place = past
    if tokens[place].text not in "{;":
        raise Refused(f"line {tokens[place].line}: no body behind the clauses")
    return spans


def tactic(tokens, pairs, place):
    """An attribute of the prover, `#[tactic(..)]` or `#![tactic(..)]`."""
    past = pairs[place + (2 if is_at(tokens, place + 1, "!") else 1)] + 1
    return (place, past, tokens[place].lead), "tactic"


def ghosts(tokens):
    """The spans of all that only the prover reads, each with its kind."""
    pairs, found, place = closes(tokens), [], 0
    while place < len(tokens):
        new = []
        if is_at(tokens, place, "ghost", "use"):
            new = [ghost_use(tokens, pairs, place)]
        elif is_at(tokens, place, "ghost"):
            new = [ghost_member(tokens, pairs, place)]
        elif is_at(tokens, place, "#", "[", "tactic") or is_at(tokens, place, "#", "!", "[", "tactic"):
            new = [tactic(tokens, pairs, place)]
        elif is_at(tokens, place, "fn") and tokens[place + 1].kind == "word":
            new = clauses(tokens, pairs, place)
        found += new
        place = new[-1][0][1] if new else place + 1
    return found


# ----------------------------------------------------------------------------------------------------------- rules

class Source(NamedTuple):
    """A file that is written, as the rules see it."""
    crate: str
    path: str


def derived_drop(tokens, source):
    """`Drop` of a `derive`: each value of Rust may be let go."""
    spans, pairs = [], closes(tokens)
    for place in range(len(tokens)):
        if not is_at(tokens, place, "#", "[", "derive", "("):
            continue
        past = pairs[place + 1] + 1
        names = [it for it in range(place + 4, past) if tokens[it].text == "Drop"]
        if names and past - place == 7:
            spans.append((place, past, tokens[place].lead))
        elif names:
            first = names[0] if tokens[names[0] + 1].text == "," else names[0] - 1
            spans.append((first, first + 2, tokens[first].lead))
    return without(tokens, spans)[0], len(spans)


def model(tokens, source):
    """`impl Model for NAME {}` and its import: it had ghost members alone."""
    spans = []
    for place in range(len(tokens)):
        if is_at(tokens, place, "use", "std", ":", ":", "marker", ":", ":", "Model", ";"):
            spans.append((place, place + 9, tokens[place].lead))
        elif is_at(tokens, place, "impl", "Model", "for", None, "{", "}"):
            spans.append((place, place + 6, own_comment_cut(tokens[place].lead)))
    return without(tokens, spans)[0], len(spans)


def sure_clone(tokens, source):
    """`let Ok(NAME) = VALUE.clone() else { unreachable!() };` and `VALUE.clone()?`: a clone of Rust is no `Result`."""
    spans, pairs, count = [], closes(tokens), 0
    for place in range(len(tokens)):
        if is_at(tokens, place, ".", "clone", "(", ")", "?"):
            spans.append((place + 4, place + 5, ""))
            count += 1
        if not is_at(tokens, place, "let", "Ok", "("):
            continue
        end = pairs[place + 2]
        other = next(it for it in range(end, len(tokens)) if tokens[it].text in ("else", ";"))
        if is_at(tokens, other - 3, "clone", "(", ")", "else", "{", "unreachable", "!", "(", ")", "}", ";"):
            spans += [(place + 1, place + 3, " "), (end, end + 1, ""), (other, other + 7, "")]
            count += 1
    return without(tokens, spans)[0], count


def exchanged(tokens, old, new):
    """The tokens with `new` for each run `old`, and how many there were. A word of `new` that begins with a space has
    the space before it."""
    made, place, count = [], 0, 0
    while place < len(tokens):
        if not is_at(tokens, place, *old):
            made.append(tokens[place])
            place += 1
            continue
        first = tokens[place]
        made += [Token("word", text.strip(), first.lead if not it else " " * (text[0] == " "), first.line)
                 for it, text in enumerate(new)]
        place, count = place + len(old), count + 1
    return made, count


def random_generator(tokens, source):
    """`Rng` of the kit's rand_core is `RngCore` of the crate."""
    return exchanged(tokens, ["Rng"], ["RngCore"]) if is_used(tokens, "rand_core") else (tokens, 0)


def is_used(tokens, crate):
    return any(is_at(tokens, place, "use", crate) for place in range(len(tokens)))


def vectors(tokens, source):
    """`std::simd` is the crate's own module of vectors."""
    old = ["use", "std", ":", ":", "simd", ":", ":", "prelude", ":", ":", "*"]
    return exchanged(tokens, old, ["use", " crate", ":", ":", "vectors", ":", ":", "*"])


def core_names(tokens, source):
    """`std::str` is `core::str`."""
    return exchanged(tokens, ["use", "std", ":", ":", "str"], ["use", " core", ":", ":", "str"])


# Before an item that takes memory.
OF_ALLOC = ["#", "[", "cfg", "(", "feature", " =", ' "alloc"', ")", "]"]


def memory(tokens, source):
    """Allocators, and vectors and strings that may be refused memory, are those of the crate's own module of memory, as
    is `hex`."""
    count = 0
    own = [*OF_ALLOC, " use", " crate", ":", ":", "memory", ":", ":"]
    for names, more in [("AllocError", []), ("{AllocError,Allocator}", ["String", "Vec"])]:
        old = re.findall(r"\w+|\W", names)
        new = [*own, *old[:-1], *(word for it in more for word in (",", " " + it)), old[-1]] if more else [*own, *old]
        tokens, times = exchanged(tokens, ["use", "std", ":", ":", "alloc", ":", ":", *old, ";"], [*new, ";"])
        count += times
    tokens, times = exchanged(tokens, ["hex", ":", ":"], ["crate", ":", ":", "memory", ":", ":", "hex", ":", ":"])
    return tokens, count + times


def with_alloc(tokens, source):
    """The items of slh_key_files that take memory are there with the feature `alloc`."""
    count = 0
    for first, *more in (["mod", "key_front"], ["mod", "key_text"], ["pub", "use", "key_front"],
                         ["pub", "use", "key_text"], ["impl", "From", "<", "AllocError"]):
        new = [f" {it}" if it[0].isalpha() else it for it in more]
        tokens, times = exchanged(tokens, [first, *more], [*OF_ALLOC, f" {first}", *new])
        count += times
    return tokens, count


def crate_paths(tokens, source):
    """`crate::` is `crate::CRATE::` in the module of a crate."""
    return exchanged(tokens, ["crate", ":", ":"], ["crate", ":", ":", source.crate, ":", ":"])


def sibling_paths(tokens, source):
    """`CRATE::` of another crate is `crate::CRATE::`."""
    count = 0
    for crate in CRATES:
        if crate != source.crate:
            tokens, times = exchanged(tokens, [crate, ":", ":"], ["crate", ":", ":", crate, ":", ":"])
            count += times
    return tokens, count


def labels(tokens, source):
    """The label of a loop that no `break` or `continue` names: proofs name it."""
    places = [it for it in range(len(tokens)) if tokens[it].kind == "lifetime" and
              (is_at(tokens, it + 1, ":", "for") or is_at(tokens, it + 1, ":", "while"))]
    left = {tokens[it].text for it in range(1, len(tokens)) if tokens[it - 1].text in ("break", "continue")}
    spans = [(it, it + 2, tokens[it].lead) for it in places if tokens[it].text not in left]
    return without(tokens, spans)[0], len(spans)


def let_chains(tokens, source):
    """`if A && let P = E` is `if let (true, P) = (A, E)`, which rustc before 1.88 reads, too."""
    made, count = tokens, 0
    for place in reversed(range(len(tokens))):
        if is_at(tokens, place, "&", "&", "let"):
            made, count = chain_as_pair(made, place), count + 1
    return made, count


def chain_as_pair(tokens, place):
    """The tokens with the chain at the marks `&& let` as one pattern. A is all from the `if` on."""
    first = place - 1
    while tokens[first].text != "if":
        if tokens[first].text in "{};" or is_at(tokens, first, "|", "|"):
            raise Refused(f"line {tokens[place].line}: a chain that does not begin behind its if")
        first -= 1
    equal = next(it for it in range(place, len(tokens)) if tokens[it].text == "=")
    body = next(it for it in range(equal, len(tokens)) if tokens[it].text == "{")

    def made(text, lead=""):
        return Token("mark", text, lead, tokens[place].line)

    if any(tokens[it].text == "{" for it in range(first, place)):
        raise Refused(f"line {tokens[place].line}: a chain with a block in it")
    test = [tokens[first + 1]._replace(lead=""), *tokens[first + 2:place]]
    pattern = [made("let", " "), made("(", " "), made("true"), made(","), *tokens[place + 3:equal], made(")")]
    value = [made("(", " "), *test, made(","), *tokens[equal + 1:body], made(")")]
    return tokens[:first + 1] + pattern + tokens[equal:equal + 1] + value + tokens[body:]


def exports(tokens, source):
    """The functions that libslh exports are plain ones here: `#[unsafe(no_mangle)]` and `extern "C"` go, and so that
    they are seen, the modules of the two crates are public."""
    if source.crate in ("slh_c", "slh_c_verify"):
        tokens, opened = exchanged(tokens, ["mod"], ["pub", " mod"])
    else:
        opened = 0
    spans = []
    for place in range(len(tokens)):
        if is_at(tokens, place, "#", "[", "unsafe", "(", "no_mangle", ")", "]"):
            spans.append((place, place + 7, tokens[place].lead))
        elif is_at(tokens, place, "extern", '"C"', "fn"):
            spans.append((place, place + 2, " "))
    return without(tokens, spans)[0], len(spans) + opened


def widths(tokens, source):
    """The widths of the build are those that the module of levels has for the processor."""
    count = 0
    for name in "short", "long":
        new = [name, ":", " crate", ":", ":", "levels", ":", ":", name, "(", ")"]
        tokens, times = exchanged(tokens, [name, ":", "Width", ":", ":", "Eight"], new)
        count += times
    return tokens, count


def each_level(tokens, source):
    """Vectors of N lanes have a level as a parameter: the instructions by which they are added."""
    if source.crate != "slh_lanes":
        return tokens, 0
    count = 0
    for word in "u32", "u64":
        tokens, times = exchanged(tokens, ["Simd", "<", word, ",", "N", ">"],
                                  ["Simd", "<", word, ",", " N", ",", " L", ">"])
        count += times
    if not count:
        return tokens, 0
    for old, new in ((["N", ":", "usize", ">"], ["N", ":", " usize", ",", " L", ":", " Level", ">"]),
                     (["N", ":", "usize", ",", "const", "M", ":", "usize", ">"],
                      ["N", ":", " usize", ",", " const", " M", ":", " usize", ",", " L", ":", " Level", ">"])):
        tokens, times = exchanged(tokens, ["<", "const", *old], ["<", "const", " " + new[0], *new[1:]])
        count += times
    return tokens, count


INLINE = ["#", "[", "inline", "(", "always", ")", "]"]
# For each call of slh_lanes that is a kernel the function of the module of levels that takes its place.
KERNELS = [("rounds::compress(", "compress("), ("run::<Words,Rounds>", "run"), ("run::<TwoWords,Rounds>", "run"),
           ("compress_part::<LongWords,u64x4,Rounds>", "compress_four")]
# The other calls by `Rounds`, which are of the build's level.
OF_BUILD = ["run_singles::<Rounds>", "compress_singles::<Rounds>", "compress_long_singles::<Rounds>",
            "run_part::<u32x4,Rounds>", "compress_part::<Words,u32x4,Rounds>"]
# The words of an import from the module of rounds.
OF_ROUNDS = {"use", "crate", "slh_lanes", "rounds", "self", "Compression", "ChainCompression", "Rounds", "round"}


def kernels(tokens, source):
    """The rounds and the steps of chains are called through the module of levels, and inlined into its functions. So
    that it sees them, the modules of slh_lanes are those of the crate. Other calls by `Rounds` have to be known."""
    if source.crate != "slh_lanes":
        return tokens, 0
    own = ["pub", "(", "crate", ")"]
    changes = [(["mod"], [*own, " mod"])]
    changes += [(split(call), split("crate::levels::" + name)) for call, name in KERNELS]
    for old in [*own, "fn", "compress", "<", "W"], [*own, "fn", "run", "<", "W"], ["fn", "compress_part", "<"]:
        name = old.index("fn") + 1
        changes.append((old, [*INLINE, " pub", *own[1:], " fn", " " + old[name], *old[name + 1:]]))
    count = 0
    for old, new in changes:
        tokens, times = exchanged(tokens, old, new)
        count += times
    refuse_other_rounds(tokens)
    return tokens, count


def split(text):
    return re.findall(r"\w+|\W", text)


def refuse_other_rounds(tokens):
    """Refuses a use of the rounds that could be a kernel: one that is neither an import, nor in OF_BUILD."""
    place = 0
    while place < len(tokens):
        it = tokens[place]
        if it.text == "use":
            first, place = place, next(at for at in range(place, len(tokens)) if tokens[at].text == ";")
            words = {word.text for word in tokens[first:place] if word.text.isidentifier()}
            known = "rounds" not in words or words <= OF_ROUNDS
        elif it.text == "Rounds" and tokens[place - 1].text not in ("struct", "for"):
            calls = [split(call) for call in OF_BUILD]
            known = any(is_at(tokens, place + 2 - len(call), *call) for call in calls)
        else:
            known = not is_at(tokens, place, "rounds", ":", ":")
        if not known:
            raise Refused(f"line {it.line}: a use of the rounds that is not known here")
        place += 1


RULES = {it.__name__.replace("_", " "): it for it in
         (derived_drop, model, sure_clone, random_generator, crate_paths, sibling_paths, vectors,
          core_names, memory, with_alloc, labels, let_chains, exports, widths, each_level, kernels)}


# ----------------------------------------------------------------------------------------------------- what is left

ATTRIBUTES = {"derive", "inline", "error"}
MACROS = {"matches", "or_refuse", "macro_rules", "unreachable"}
PATHS = {"core", "crate", "self", "super", "sha2", "arrayvec", "rand_core", "thiserror"}
BEFORE_NOT = {"if", "while", "return", "match", "in", "else"}
OF_RATTLE = {"ghost", "requires", "ensures", "invariant", "decreases", "tactic", "final", "prove", "Model"}


def refuse_unknown(tokens):
    """Refuses the tokens that are left if one of them is not known to be Rust's."""
    for place, it in enumerate(tokens):
        if not is_known(tokens, place):
            raise Refused(f"line {it.line}: {it.text} is not known here")


def is_known(tokens, place):
    it = tokens[place]
    if it.kind == "literal":
        return True
    if not it.text.isascii() or it.text in OF_RATTLE:
        return False
    if it.text == "#":
        is_for_c = is_at(tokens, place, "#", "[", "repr", "(", "C", ")", "]")
        is_own = is_for_c or is_at(tokens, place, *map(str.strip, OF_ALLOC))
        return is_own or is_at(tokens, place, "#", "[") and tokens[place + 2].text in ATTRIBUTES
    if it.kind == "word" and is_at(tokens, place + 1, "!") and not is_at(tokens, place + 2, "="):
        return it.text in MACROS | BEFORE_NOT
    if it.text == "use":
        return tokens[place + 1].text in PATHS or is_module(tokens, tokens[place + 1].text)
    if it.text == "extern" or it.text == "unsafe":
        return False
    return True


def is_module(tokens, name):
    """Whether the file declares this module, or has a macro of this name."""
    return any(is_at(tokens, place, "mod", name, ";") or is_at(tokens, place, "macro_rules", "!", name)
               for place in range(len(tokens)))


# ----------------------------------------------------------------------------------------------------------- files

def plain(text, source):
    """The text as plain Rust, and how often each removal and rule was applied."""
    tokens, tail = tokens_of(text)
    found = ghosts(tokens)
    counted = collections.Counter(kind for _, kind in found)
    tokens, left = without(tokens, [span for span, _ in found])
    for name, rule in RULES.items():
        tokens, times = rule(tokens, source)
        counted[name] += times
    refuse_unknown(tokens)
    return f"// Made by tools/plain_rust.py from {source.path}.\n" + text_of(tokens, joined_lead(left, tail)), +counted


def place_of(crate, path):
    """The place of a source file among the written ones."""
    inner = path.relative_to(HERE / "crates" / crate / "src").with_suffix(".rs")
    return pathlib.Path(f"{crate}.rs") if inner.name == "lib.rs" else crate / inner


def write_crate(crate, out):
    """Writes the files of a crate, and gives the counts of each."""
    counted = {}
    for path in sorted((HERE / "crates" / crate / "src").rglob("*.rt")):
        name = str(path.relative_to(HERE))
        try:
            text, counted[name] = plain(path.read_text(), Source(crate, name))
        except Refused as why:
            raise Refused(f"{name}, {why}") from None
        except (IndexError, StopIteration):
            raise Refused(f"{name}: it ends within a construct") from None
        place = out / place_of(crate, path)
        place.parent.mkdir(parents=True, exist_ok=True)
        place.write_text(text)
    return counted


def refusal_text():
    """The sentences of c/exports/refusal_text.c as a function of Rust."""
    headers = "".join((HERE / "c" / "include" / it).read_text() for it in ("slh_verify.h", "slh.h"))
    numbers = dict(re.findall(r"\b(SLH_[A-Z_]+) = ([0-9]+)", headers))
    text = (HERE / "c" / "exports" / "refusal_text.c").read_text()
    rows = re.findall(r'(?:case (SLH_[A-Z_]+)|(default)):\s+return ("[^"\\]*");', text)
    if len(rows) != text.count("return"):
        raise Refused("c/exports/refusal_text.c: a sentence is not known here")
    arms = "".join(f"{numbers[name] if name else '_'} => c{sentence},\n" for name, _, sentence in rows)
    return ("// Made by tools/plain_rust.py from c/exports/refusal_text.c.\n//! A sentence for each result.\n\n"
            "use core::ffi::CStr;\n\n/// A sentence on a result.\n"
            f"pub fn refusal_text(result: u32) -> &'static CStr {{\nmatch result {{\n{arms}}}\n}}\n")


def numbers():
    """The constants of the package's declarations of libslh, which are tested against the headers."""
    text = (PACKAGES / "slh-sys" / "src" / "lib.rs").read_text()
    found = re.findall(r"^(?:///.*\n)+pub const SLH_\w+: \w+ = [\w-]+;\n", text, re.MULTILINE)
    if not found or len(found) != text.count("\npub const "):
        raise Refused("bindings/rust/slh-sys/src/lib.rs: a constant is not known here")
    head = "// Made by tools/plain_rust.py from bindings/rust/slh-sys/src/lib.rs.\n//! The numbers of the headers for C.\n\n"
    return head + "".join(found)


def from_the_top(page):
    """The page of the package, with links that lead on from dist/rust/slh and out/plain_rust/slh, three folders down."""
    place = lambda link: posixpath.normpath(f"bindings/rust/slh/{link}")
    return re.sub(r"\]\((\.\./[^)]+)\)", lambda it: f"](../../../{place(it[1])})", page)


def user_crate(out):
    """Copies the package for Rust into the crate, over the proved modules, and beside it the crate of the traits of
    `signature`."""
    left_out = shutil.ignore_patterns("target", "Cargo.lock", ".gitignore")
    for name in "slh", "slh-signature":
        shutil.copytree(PACKAGES / name, out / name, dirs_exist_ok=True, ignore=left_out)
    (out / "slh" / "src" / "numbers.rs").write_text(numbers())
    page = out / "slh" / "README.md"
    page.write_text(from_the_top(page.read_text()))


def empty(out):
    """Removes what an earlier run wrote. Another folder that has files is refused."""
    if out.exists() and not (out / "slh_exports" / "Cargo.toml").is_file() and any(out.iterdir()):
        raise Refused(f"{out} has files of others")
    shutil.rmtree(out, ignore_errors=True)


def lay_out(out):
    files = [it for crate in ("slh", "slh_exports") for it in sorted((out / crate / "src").rglob("*.rs"))]
    try:
        subprocess.run(["rustfmt", "--edition", "2024", "--config-path", out, *files], check=True)
    except (OSError, subprocess.CalledProcessError):
        raise Refused("it needs the rustfmt of Rust 1.85 or later") from None


def write(out):
    """Writes all, and gives the counts by source file."""
    empty(out)
    shutil.copytree(BESIDE, out)
    manifest = out / "Cargo.toml"
    manifest.write_text(manifest.read_text().replace("VERSION", (HERE / "VERSION").read_text().strip()))
    source, counted = out / "slh" / "src", {}
    for crate in CRATES:
        counted |= write_crate(crate, source)
    (source / "refusal_text.rs").write_text(refusal_text())
    user_crate(out)
    lay_out(out)
    return counted


def main():
    words = sys.argv[1:]
    report = pathlib.Path(words[1]) if words[:1] == ["--counts"] and len(words) == 3 else None
    if words[:1] in (["--help"], ["-h"]) or len(words) != (3 if report else 1):
        print(__doc__.strip(), file=sys.stderr)
        sys.exit(0 if words[:1] in (["--help"], ["-h"]) else 2)
    try:
        counted = write(pathlib.Path(words[-1]))
    except (Refused, OSError) as why:
        sys.exit(f"tools/plain_rust.py: {why}")
    if report:
        report.write_text(json.dumps(counted, indent=1) + "\n")
    for name, times in sorted(sum(counted.values(), collections.Counter()).items()):
        print(f"{name}: {times}")


if __name__ == "__main__":
    main()
