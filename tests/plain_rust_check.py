#!/usr/bin/env python3
"""Compares plain Rust that tools/plain_rust.py wrote with the proved sources, token by token.

usage: tests/plain_rust_check.py OUT COUNTS [SOURCES]

OUT is the folder that was written, COUNTS the file of --counts, SOURCES a folder that has crates/ (default: this
repository). This program shares no code with the one that it checks, and follows the grammar of Rattle:

- `ghost`, `requires` and `ensures` are keywords. `ghost use .. ;`, a ghost member `ghost NAME : {..} = {..} by {..}`
  with its `;` or `,`, a clause `requires NAME {..} by {..}`, and an attribute `tactic` are for the prover alone.
- All other tokens have to be in the Rust file, in their order. Only where a rule of RULES meets its pattern, the Rust
  file must have the tokens that the rule states.
- The layout may differ: a comma before a closing bracket, and braces round the one expression of an arm or a closure.
- The comments of the Rust file, except the head, are the source's, in order. Only those within a ghost or right above a
  ghost member may be lost.
- How often each kind of ghost and each rule was met is the number in COUNTS.

It prints the first difference of each file. The status is 0 if there is none, and some files were compared.
"""
import collections
import json
import pathlib
import sys

# The files of the crate that are not of the proved crates.
OF_PACKAGE, BY_HAND = "bindings/rust/slh/src", "tools/plain_rust/slh/src"
MADE = ["numbers.rs", "refusal_text.rs"]
OPEN, CLOSE = "([{", ")]}"
WORD = frozenset("abcdefghijklmnopqrstuvwxyzABCDEFGHIJKLMNOPQRSTUVWXYZ0123456789_")


class Different(Exception):
    """A difference that no rule explains."""


# ----------------------------------------------------------------------------------------------------------- lexing

def end_of_quoted(text, at):
    """The place behind a string or a character whose first quote is at `at`."""
    quote, place = text[at], at + 1
    while text[place] != quote:
        place += 2 if text[place] == "\\" else 1
    return place + 1


def is_character(text, at):
    """Whether the quote at `at` begins a character, and no lifetime."""
    return text[at + 1] == "\\" or text[at + 2:at + 3] == "'"


def end_of_token(text, at):
    it = text[at]
    if it == '"' or it == "'" and is_character(text, at):
        return end_of_quoted(text, at)
    if it == "b" and (text[at + 1] == '"' or text[at + 1] == "'"):
        return end_of_quoted(text, at + 1)
    place = at + 1
    if it == "'" or it in WORD:
        while place < len(text) and text[place] in WORD:
            place += 1
    return place


def lex(text):
    """The tokens of a text, and its comments: each with the number of tokens before it."""
    tokens, comments, at = [], [], 0
    while at < len(text):
        if text[at].isspace():
            at += 1
        elif text.startswith("//", at):
            end = text.find("\n", at)
            comments.append((len(tokens), text[at:end].rstrip()))
            at = end
        else:
            end = end_of_token(text, at)
            tokens.append(text[at:end])
            at = end
    return tokens, comments


# ---------------------------------------------------------------------------------------------------------- grammar

def past_group(tokens, at):
    """The place behind the group of brackets that begins at `at`."""
    depth = 0
    for place in range(at, len(tokens)):
        depth += tokens[place] in OPEN and len(tokens[place]) == 1
        depth -= tokens[place] in CLOSE and len(tokens[place]) == 1
        if depth == 0:
            return place + 1
    raise Different("brackets")


def past_parts(tokens, at, words):
    """The place behind each `WORD {..}` of these words, in their order."""
    for word in words:
        if tokens[at:at + 2] == [word, "{"]:
            at = past_group(tokens, at + 1)
    return at


def ghost_at(tokens, at):
    """The kind and the end of the ghost that begins at `at`, or none."""
    it = tokens[at]
    if it == "pub" and tokens[at + 1] == "ghost":
        return ghost_at(tokens, at + 1)
    if it == "ghost" and tokens[at + 1] == "use":
        return "ghost use", tokens.index(";", at) + 1
    if it == "ghost":
        end = past_parts(tokens, at + 2, [":", "=", "by"])
        if tokens[end] not in (",", ";") or end == at + 2:
            raise Different("a ghost member without its end")
        return "ghost member", end + 1
    if it in ("requires", "ensures"):
        block = at + 1 if tokens[at + 1] == "{" else at + 2
        return "clause", past_parts(tokens, past_group(tokens, block), ["by"])
    if it == "#" and "tactic" in tokens[at + 1:at + 4]:
        return "tactic", past_group(tokens, tokens.index("[", at))
    return None


def without_ghosts(tokens, met):
    """The tokens that are Rust's, and the places where a comment may be lost. Counts each kind of ghost in `met`."""
    left, lost, at = [], set(), 0
    while at < len(tokens):
        ghost = ghost_at(tokens, at)
        if ghost:
            met[ghost[0]] += 1
            lost.update(range(at + (ghost[0] in ("ghost use", "tactic")), ghost[1]))
            at = ghost[1]
        else:
            left.append(tokens[at])
            at += 1
    return left, lost


# ------------------------------------------------------------------------------------------------------------ rules
#
# A rule gets the source's tokens, a place, and the name of the crate. It returns none, or the place behind its pattern
# and the tokens that the Rust file has instead.

def derived_drop(tokens, at, crate):
    if tokens[at:at + 4] != ["#", "[", "derive", "("]:
        return None
    end = past_group(tokens, at + 1)
    names = [it for it in tokens[at + 4:end - 2] if it != ","]
    if "Drop" not in names:
        return None
    left = [it for name in names if name != "Drop" for it in (name, ",")][:-1]
    return end, ["#", "[", "derive", "(", *left, ")", "]"] if left else []


def model(tokens, at, crate):
    if tokens[at:at + 9] == "use std : : marker : : Model ;".split():
        return at + 9, []
    if tokens[at:at + 3] == ["impl", "Model", "for"] and tokens[at + 4:at + 6] == ["{", "}"]:
        return at + 6, []
    return None


def sure_clone(tokens, at, crate):
    if tokens[at:at + 5] == [".", "clone", "(", ")", "?"]:
        return at + 5, tokens[at:at + 4]
    if tokens[at:at + 3] != ["let", "Ok", "("]:
        return None
    behind = past_group(tokens, at + 2)
    other = tokens.index("else", behind)
    call, refusal = tokens[other - 4:other], tokens[other:other + 8]
    if call != [".", "clone", "(", ")"] or refusal != "else { unreachable ! ( ) } ;".split():
        return None
    return other + 8, ["let", *tokens[at + 3:behind - 1], *tokens[behind:other], ";"]


def fixed(*pairs):
    """A rule that states tokens for tokens."""
    pairs = [(old.split(), new.split()) for old, new in pairs]

    def rule(tokens, at, crate):
        for old, new in pairs:
            if tokens[at:at + len(old)] == old:
                return at + len(old), new
        return None
    return rule


def random_generator(tokens, at, crate):
    return (at + 1, ["RngCore"]) if tokens[at] == "Rng" and "rand_core" in tokens else None


def crate_paths(tokens, at, crate):
    if tokens[at:at + 3] == ["crate", ":", ":"]:
        return at + 3, ["crate", ":", ":", crate, ":", ":"]
    return None


def sibling_paths(tokens, at, crate):
    if tokens[at].startswith("slh_") and tokens[at + 1:at + 3] == [":", ":"] and tokens[at] != crate:
        return at + 3, ["crate", ":", ":", tokens[at], ":", ":"]
    return None


def labels(tokens, at, crate):
    if tokens[at][0] == "'" and tokens[at + 1] == ":" and tokens[at + 2] in ("for", "while", "loop"):
        names = [it for before, it in zip(tokens, tokens[1:]) if before in ("break", "continue")]
        return None if tokens[at] in names else (at + 2, [])
    return None


def let_chains(tokens, at, crate):
    if tokens[at] != "if":
        return None
    body = tokens.index("{", at)
    joined = [it for it in range(at, body) if tokens[it:it + 3] == ["&", "&", "let"]]
    if len(joined) != 1:
        return None
    equal = tokens.index("=", joined[0])
    pattern, tests, value = tokens[joined[0] + 3:equal], tokens[at + 1:joined[0]], tokens[equal + 1:body]
    return body, ["if", "let", "(", "true", ",", *pattern, ")", "=", "(", *tests, ",", *value, ")"]


def exports(tokens, at, crate):
    if tokens[at:at + 7] == "# [ unsafe ( no_mangle ) ]".split():
        return at + 7, []
    if tokens[at:at + 3] == ["extern", '"C"', "fn"]:
        return at + 2, []
    if crate in ("slh_c", "slh_c_verify") and tokens[at] == "mod":
        return at + 1, ["pub", "mod"]
    return None


def each_level(tokens, at, crate):
    """In slh_lanes `Simd<WORD, N>` gets a level, and so do the parameters of each item of such a file: those that end
    with the number of lanes N, or with N and M."""
    if crate != "slh_lanes":
        return None
    if tokens[at:at + 2] == ["Simd", "<"] and tokens[at + 3:at + 6] == [",", "N", ">"]:
        return at + 6, [*tokens[at:at + 5], ",", "L", ">"]
    for names in "N", "NM":
        parameters = [it for name in names for it in ("const", name, ":", "usize", ",")][:-1]
        end = at + 1 + len(parameters)
        if tokens[at:end + 1] == ["<", *parameters, ">"] and has_lanes(tokens):
            return end + 1, [*tokens[at:end], ",", "L", ":", "Level", ">"]
    return None


def has_lanes(tokens):
    return any(tokens[at] == "Simd" and tokens[at + 3:at + 6] == [",", "N", ">"] for at in range(len(tokens) - 6))


# The calls of slh_lanes in whose place functions of the module of levels are called.
OF_LEVELS = {"rounds : : compress (": "compress (", "run : : < Words , Rounds >": "run",
             "run : : < TwoWords , Rounds >": "run",
             "compress_part : : < LongWords , u64x4 , Rounds >": "compress_four"}


def kernels(tokens, at, crate):
    """In slh_lanes the calls of `rounds::compress`, of `run` by `Rounds`, and of `compress_part` on four words of 64 bits
    go to the module of levels. These three functions are inlined. Each module is the crate's. All other calls by `Rounds`
    are of single words, or of four words of 32 bits."""
    if crate != "slh_lanes":
        return None
    if tokens[at] == "mod":
        return at + 1, "pub ( crate ) mod".split()
    for call, instead in OF_LEVELS.items():
        end = at + len(call.split())
        if " ".join(tokens[at:end]) == call:
            return end, f"crate : : levels : : {instead}".split()
    if tokens[at] == "Rounds" and tokens[at + 1] == ">" and tokens[at - 2:at] != ["u32x4", ","]:
        if tokens[at - 1] != "<" or not tokens[at - 4].endswith("_singles"):
            raise Different("a call by Rounds is not known")
    inline = "# [ inline ( always ) ] pub ( crate ) fn".split()
    is_own = tokens[at:at + 5] == "pub ( crate ) fn".split()
    if is_own and tokens[at + 5] in ("compress", "run") and tokens[at + 6:at + 8] == ["<", "W"]:
        return at + 5, inline
    if tokens[at:at + 3] == ["fn", "compress_part", "<"]:
        return at + 1, inline
    return None


# Before an item that takes memory.
OF_ALLOC = '# [ cfg ( feature = "alloc" ) ] '
RULES = {
    "derived drop": derived_drop,
    "model": model,
    "sure clone": sure_clone,
    "random generator": random_generator,
    "vectors": fixed(("use std : : simd : : prelude : : *", "use crate : : vectors : : *")),
    "core names": fixed(("use std : : str", "use core : : str")),
    "memory": fixed(("use std : : alloc : : AllocError ;", OF_ALLOC + "use crate : : memory : : AllocError ;"),
                    ("use std : : alloc : : { AllocError , Allocator } ;",
                     OF_ALLOC + "use crate : : memory : : { AllocError , Allocator , String , Vec } ;"),
                    ("hex : :", "crate : : memory : : hex : :")),
    "with alloc": fixed(*((it, OF_ALLOC + it) for it in
                          ("mod key_front", "mod key_text", "pub use key_front", "pub use key_text",
                           "impl From < AllocError"))),
    "crate paths": crate_paths,
    "sibling paths": sibling_paths,
    "labels": labels,
    "let chains": let_chains,
    "exports": exports,
    "widths": fixed(("short : Width : : Eight", "short : crate : : levels : : short ( )"),
                    ("long : Width : : Eight", "long : crate : : levels : : long ( )")),
    "each level": each_level,
    "kernels": kernels,
}


def by_rules(tokens, crate, met):
    """The tokens that the Rust file has to have. Counts each rule in `met`. A rule also sees the tokens within the
    pattern of another one, which are left as they are."""
    wanted, at = [], 0
    while at < len(tokens):
        name = next((name for name, rule in RULES.items() if rule(tokens, at, crate)), None)
        if name is None:
            wanted.append(tokens[at])
            at += 1
            continue
        met[name] += 1
        at, instead = RULES[name](tokens, at, crate)
        wanted += instead
    return wanted


# ----------------------------------------------------------------------------------------------------------- layout

def laid_out(tokens):
    """The tokens in one layout: no comma before a closing bracket, no braces round one expression."""
    made, at = [], 0
    while at < len(tokens):
        if tokens[at] == "," and at + 1 < len(tokens) and tokens[at + 1] in CLOSE:
            at += 1
            continue
        made.append(tokens[at])
        at += 1
    return without_braces(made)


def without_braces(tokens):
    """Takes the braces round the one expression of an arm away, and puts the comma behind it."""
    place = 0
    while place < len(tokens) - 2:
        if tokens[place:place + 3] == ["=", ">", "{"]:
            end = past_group(tokens, place + 2)
            inner = tokens[place + 3:end - 1]
            if inner and is_one(inner):
                comma = [] if tokens[end] in (",", "}") else [","]
                tokens = tokens[:place + 2] + inner + comma + tokens[end:]
        place += 1
    return tokens


def is_one(tokens):
    """Whether a block has one expression, which no brace ends."""
    depth = 0
    for it in tokens:
        depth += it in OPEN and len(it) == 1
        depth -= it in CLOSE and len(it) == 1
        if it == ";" and depth == 0:
            return False
    return tokens[0] not in ("if", "match", "for", "while", "let", "loop", "#")


# -------------------------------------------------------------------------------------------------------- comparing

def is_within(some, all_of):
    """Whether the items stand in the others in their order."""
    rest = iter(all_of)
    return all(it in rest for it in some)


def compare(crate, name, source, rust):
    """Compares a file, and gives how often ghosts and rules were met."""
    met = collections.Counter()
    tokens, comments = lex(source)
    found, written = lex(rust)
    left, lost = without_ghosts(tokens, met)
    wanted, found = laid_out(by_rules(left, crate, met)), laid_out(found)
    for at, (want, have) in enumerate(zip(wanted + [""], found + [""])):
        if want != have:
            near = " ".join(wanted[max(at - 6, 0):at])
            raise Different(f"behind `{near}` comes `{have}`, and not `{want}`")
    compare_comments(name, comments, lost, [it for _, it in written])
    return +met


def compare_comments(name, comments, lost, written):
    if written[:1] != [f"// Made by tools/plain_rust.py from {name}."]:
        raise Different("the head does not name the source")
    if not is_within(written[1:], [it for _, it in comments]):
        raise Different("a comment is not the source's, or not in its place")
    if not is_within([it for at, it in comments if at not in lost], written[1:]):
        raise Different("a comment is lost")


def rust_of(crate, path):
    inner = path.with_suffix(".rs")
    return f"{crate}.rs" if str(inner) == "lib.rs" else f"{crate}/{inner}"


def sources_of(folder, crates):
    """Each source file: its crate, its name, and its place in the crate's src/."""
    for crate in crates:
        base = folder / "crates" / crate / "src"
        for path in sorted(base.rglob("*.rt")):
            yield crate, str(path.relative_to(folder)), path.relative_to(base)


def difference(out, counts, folder, crate, name, inner):
    """The difference of a file from its source, or none."""
    try:
        rust = (out / "slh" / "src" / rust_of(crate, inner)).read_text()
        met = compare(crate, name, (folder / name).read_text(), rust)
    except (Different, OSError, ValueError, IndexError) as why:
        return f"{name}: {why}"
    if met != counts.get(name):
        return f"{name}: met {dict(met)}, and the generator counts {counts.get(name)}"
    return None


def differences(out, counts, folder):
    """How many files were compared, and their differences."""
    written, files = out / "slh" / "src", list(sources_of(folder, sorted({it.split("/")[1] for it in counts})))
    found = [difference(out, counts, folder, *it) for it in files]
    package = [it.name for base in (OF_PACKAGE, BY_HAND) for it in (folder / base).glob("*.rs")]
    own = {written / it for it in [*package, *MADE, *(rust_of(crate, inner) for crate, _, inner in files)]}
    strangers = [f"{it}: made of no source" for it in sorted(set(written.rglob("*.rs")) - own)]
    return len(files), [it for it in found if it] + strangers


def main():
    if not 3 <= len(sys.argv) <= 4:
        print(__doc__.strip(), file=sys.stderr)
        sys.exit(2)
    out, counts, *folder = map(pathlib.Path, sys.argv[1:])
    folder = folder[0] if folder else pathlib.Path(__file__).resolve().parent.parent
    compared, found = differences(out, json.loads(counts.read_text()), folder)
    print("\n".join(found + [f"{compared} files compared, {len(found)} differences"]))
    sys.exit(1 if found or not compared else 0)


if __name__ == "__main__":
    main()
