#!/usr/bin/env python3
"""Writes an HTML page of all contracts, with a search field and no server: each call as tools/contracts.py lists it,
with its comment, its contract, and the wrong bodies that the prover refuses. Each word of a clause links to its definition,
and so do the words of definitions, down to a section of FIPS 205.

usage: tools/contracts_page.py FILE      FILE#q=WORDS opens the page with these words in the search field
"""
import html
import os
import re
import sys

sys.dont_write_bytecode = True
from contracts import crates, edits, functions, read, sources, ROOT

HEAD = """<!doctype html>
<html lang="en">
<head>
<meta charset="utf-8">
<meta name="viewport" content="width=device-width, initial-scale=1">
<title>Pipitscreen VERSION: every call and its contract</title>
<style>
:root { color-scheme: light dark; font-family: sans-serif; line-height: 1.4 }
body { max-width: 75rem; margin: 0 auto; padding: 0 1rem; overflow-wrap: anywhere }
#bar { position: sticky; top: 0; padding: .5rem 0; background: Canvas }
input { width: 100%; font: inherit; padding: .4rem; box-sizing: border-box }
section { border-top: 1px solid GrayText; padding: .5rem 0; scroll-margin-top: 5rem }
pre { margin: .3rem 0; white-space: pre-wrap } pre a { text-decoration-style: dotted }
h3 { margin: 0; font-size: 1rem } :target { outline: 2px solid Highlight }
nav a { display: inline-block; padding: .2rem .5rem .2rem 0 }
@media (max-width: 40rem) { body { padding: 0 .5rem } pre { font-size: .8rem } }
</style>
</head>
<body>
<header>
<h1>Every call of Pipitscreen VERSION and its contract</h1>
<p>For auditors: what does a call require and ensure? A prover has checked each function against its contract. A
<code>requires</code> holds if the caller meets it, an <code>ensures</code> once the call has returned. Each word of a
clause links to its definition.</p>
<dl>
<dt><code>x.now</code></dt><dd>the value that the reference x points to, if the call can't change it</dd>
<dt><code>x.old</code>, <code>x.new</code></dt><dd>the value that a <code>&amp;mut</code> reference points to: at the
call, and at the return</dd>
<dt><code>x.entry</code></dt><dd>the parameter x, which has a reference in it, as the caller passed it</dd>
<dt><code>result</code></dt><dd>the value that the call returns</dd>
</dl>
<nav aria-label="Crates"><b>Crates:</b> CRATES</nav>
</header>
<div id="bar"><label>Search calls, clauses, definitions and wrong bodies
<input id="search" type="search" placeholder="sign_join authentic"></label> <output id="count"></output></div>
<main>
"""
TAIL = """</main>
<script>
const field = document.getElementById("search"), all = [...document.querySelectorAll("section")];
const texts = all.map((it) => it.textContent.toLowerCase()), parts = [...document.querySelector("main").children];
const names = new Map(all.map((it) => [it, it.querySelector("h3").textContent.toLowerCase().split(/[ :]+/).slice(1)]));
// Sections with a word's own name come first, then those whose name has the word in it, then all others.
function rank(part, words) {
    const own = names.get(part) ?? [];
    if (words.length === 0 || words.some((word) => own.includes(word))) return 0;
    return words.some((word) => own.some((name) => name.includes(word))) ? 1 : 2;
}
function show() {
    const words = field.value.toLowerCase().split(/\\s+/).filter(Boolean);
    const found = all.filter((it, i) => !(it.hidden = !words.every((word) => texts[i].includes(word))));
    const ranks = new Map(parts.map((it) => [it, rank(it, words)]));
    for (const it of parts) if (!names.has(it)) it.hidden = words.length > 0;
    document.querySelector("main").append(...parts.toSorted((one, other) => ranks.get(one) - ranks.get(other)));
    document.getElementById("count").textContent = `${found.length} of ${all.length}`;
}
function open() {
    const words = location.hash.match(/^#q=(.*)/);
    const target = words ? null : document.getElementById(decodeURIComponent(location.hash.slice(1)));
    const section = target?.closest("section");
    if (words || section?.hidden) field.value = words ? decodeURIComponent(words[1]) : "";
    show();
    if (target) target.scrollIntoView();
}
field.addEventListener("input", show);
addEventListener("hashchange", open);
open();
</script>
</body>
</html>
"""
DEFINES = re.compile(r"^(?:abbrev |unfoldable )?pub (?:record |data |inductive )?([\w']+)\b|^ *pub ([\w']+) :", re.M)


def modules(crate):
    """The files of definitions of a crate, by their module's name."""
    top = os.path.join(ROOT, "crates", crate, "specs")
    for folder, _, names in sorted(os.walk(top)):
        for name in sorted(names):
            if name.endswith(".antt") and name != "Lib.antt":
                path = os.path.relpath(os.path.join(folder, name), top)
                yield path.removesuffix(".antt").replace(os.sep, "."), read(crate, "specs", path)


def imported(text):
    """The words that a file imports from definitions of this repository, each with its crate and module."""
    found = {}
    for crate, module, names in re.findall(r"use Rattle\.(slh_\w+)\.specs\.([\w.]+)\.\{([^}]*)\}", text):
        found |= {name.strip().split(" as ")[-1]: f"{crate}.{module}.{name.strip().split(' as ')[0]}"
                  for name in names.split(",")}
    return found


def linked(text, words, known):
    """HTML of a text, in which each word that has a definition links to it."""
    def link(word):
        place = words.get(word[0])
        return f'<a href="#{place}">{word[0]}</a>' if place in known else word[0]

    return re.sub(r"[A-Za-z_][\w']*", link, html.escape(text, quote=False))


def contract(text, number):
    """The comment and the contract of the function in this line, up to its body or to the end of a trait's method."""
    lines = text.split("\n")
    indent, first, last, depth = re.match(r"\s*", lines[number])[0], number, number, 0
    while re.match(r"\s*(///|#\[)", lines[first - 1]):
        first -= 1
    comment = " ".join(re.findall(r"/// ?(.*)", "\n".join(lines[first:number])))
    for last in range(number, len(lines)):
        depth += lines[last].count("{") - lines[last].count("}")
        goes_on = re.match(r"\s*(ensures|requires|//)|\s*$", "".join(lines[last + 1 : last + 2]))
        if depth == 1 and lines[last].endswith("{") or depth == 0 and lines[last].endswith((";", "}")) and not goes_on:
            break
    body = lines[number : last + (lines[last] != indent + "{")]
    return comment, "\n".join(it.removeprefix(indent) for it in body).removesuffix(" {")


def calls_of(crate, known):
    """The sections of a crate's calls: those of other crates' use, and those that an edit turns."""
    turned = {}
    for edit, path, line in edits(crate):
        above = [name for number, name, _, _ in functions(crate, path) if number <= line]
        turned.setdefault((path, above[-1] if above else ""), []).append(edit)
    for path in sources(crate):
        text = read(crate, path)
        for number, name, is_public, _ in functions(crate, path):
            wrong = turned.get((path, name), [])
            if is_public or wrong:
                comment, said = contract(text, number)
                yield (f'<section class="call"><h3>{crate}: {html.escape(name)}</h3>'
                       f'<small>{crate}/{path}{"" if is_public else ", private"}</small>'
                       f"<p>{html.escape(comment)}</p><pre>{linked(said, imported(text), known)}</pre>"
                       + (f"<p>Wrong bodies that the prover refuses: {', '.join(wrong)}</p>" if wrong else "")
                       + "</section>\n")


def definitions_of(crate, known):
    """The sections of a crate's definitions: a file each."""
    for module, text in modules(crate):
        own = {name: f"{crate}.{module}.{name}" for pair in DEFINES.findall(text) for name in pair if name}
        shown = linked(text, imported(text) | own, known)
        for name, place in own.items():
            link = f'<a href="#{place}">{name}</a>'
            shown = shown.replace(f"pub {link}", f'pub <b id="{place}">{name}</b>', 1)
            for kind in ("record", "data", "inductive"):
                shown = shown.replace(f"pub {kind} {link}", f'pub {kind} <b id="{place}">{name}</b>', 1)
        yield (f'<section class="definitions" id="{crate}.{module}"><h3>{crate}: {module}</h3>'
               f"<small>{crate}/specs/{module.replace('.', '/')}.antt</small><pre>{shown}</pre></section>\n")


def main():
    if len(sys.argv) != 2 or sys.argv[1].startswith("-"):
        sys.exit(__doc__)
    known = {f"{crate}.{module}.{name}" for crate in crates() for module, text in modules(crate)
             for pair in DEFINES.findall(text) for name in pair if name}
    calls = {crate: "".join(calls_of(crate, known)) for crate in crates()}
    definitions = "".join(it for crate in crates() for it in definitions_of(crate, known))
    with open(os.path.join(ROOT, "VERSION")) as file:
        head = HEAD.replace("VERSION", file.read().strip())
    head = head.replace("CRATES", " ".join(f'<a href="#{it}">{it}</a>' for it in calls if calls[it]))
    shown = "".join(text.replace("<section", f'<section id="{it}"', 1) for it, text in calls.items())
    with open(sys.argv[1], "w") as file:
        file.write(f"{head}<h2>Calls</h2>\n{shown}<h2>Definitions</h2>\n{definitions}{TAIL}")


main()
