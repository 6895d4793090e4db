#!/usr/bin/env python3
"""Tries wrong bodies: edits of the sources, each of which the prover has to refuse.

usage: tests/wrong_bodies.py CRATE[/EDIT]..  all edits of these crates, or one of a crate
       tests/wrong_bodies.py --all          all edits
       tests/wrong_bodies.py --changed      each edit that is not as the list says
       tests/wrong_bodies.py --gate [SEED]  these, and edits of some crates, drawn by SEED or at random, until they are
                                            a thirty-second of all
       --write with any of these            writes the list anew for each edit that was refused

An edit is a file crates/NAME/wrong/EDIT.edit with lines

    refused: FUNCTION    the function whose proof has to be missing then, by the end of its path as a check prints it
    file: src/FILE       the file that is changed
    old: TEXT            a text that occurs once in the file, on one line
    new: TEXT            the text in its place (more pairs may follow, each for the text that the earlier ones left)

The functions that a crate's edits turn are first checked as they are, over the libraries that `rt ci`, or a check, has
built. Then a copy of the crate is edited for each edit, and its function is checked over the work of that check and of
the edits before it. Edits that change only the body of the function that they name are tried together, one a function,
since no proof depends on another function's body. Of these each that was not refused so is tried alone. An edit is
refused only if its check says that the proof of this function is missing. A name that is not there, a text that can't
be read, or another function whose proof is missing without it, is an edit to mend.
tests/wrong_bodies.txt lists for each edit a sum of the texts that its answer depends on, at which it was seen refused
(tests/edit_sums.py). An edit that is not as listed makes the run fail, except under --write, and under --gate if it is
refused. The last line has the counts of edits, and the status is 0 if nothing failed.
"""
import argparse
import concurrent.futures
import os
import random
import re
import shutil
import subprocess
import sys
import tempfile
import time

sys.dont_write_bytecode = True
sys.path.append(os.path.join(os.path.dirname(os.path.dirname(os.path.abspath(__file__))), "tools"))
import kit
from counts import count, counts, end_counts
from edit_sums import changed_body, files, sum_of, text_of
from kit import ROOT, USES

LIST = os.path.join(ROOT, "tests", "wrong_bodies.txt")
PARTS = ("src", "specs", "proofs")
SHARE = 32
# The most edits that one check tries.
TOGETHER = 12
# What the prover says of a proof file that names what the edit took away, and of what only depends on a refused answer.
NAMES = re.compile(r"(note: )?(\./)?proofs/.*"
                   r"(has no field|is not in scope|has no `|was not admitted|is no name|which was rejected)", re.S)
# How a message of the prover begins.
HEAD = re.compile(r"((note|warning|help): )?\S+:\d+:\d+: |"
                  r"(fn|note:|warning:|help:|statements|by-macro:|rattle:) |(only|logic|holes)=")
# What it says of a text that it could not read, where the error is of no declaration or of a name.
UNREAD = re.compile(r"is not in scope|has no field|is no name|operand is missing|expected the end|cannot continue")


def name_of(crate, path):
    return f"{crate}/{os.path.basename(path).removesuffix('.edit')}"


def edit_sum(crate, path):
    """The sum of an edit, or "" if it can't be applied."""
    refused, texts, why = read_edit(crate, path)
    return "" if why else sum_of(crate, path, refused, set(texts))


def listed():
    if not os.path.exists(LIST):
        return {}
    with open(LIST) as lines:
        return {words[0]: words[1] for words in map(str.split, lines) if words}


def write(well):
    """Adds the sums of edits to the list as it is by now, since another run may have written it, and returns it."""
    known = {name_of(crate, path) for crate in USES for path in edits(crate)}
    new = {name: it for name, it in sorted({**listed(), **well}.items()) if name in known}
    with open(LIST, "w") as file:
        file.writelines(f"{name} {it}\n" for name, it in new.items())
    return new


def edits(crate):
    return [path for path in files(crate, "wrong") if path.endswith(".edit")]


def read_edit(crate, path, before=()):
    """The function that has to be refused and the texts of the changed files, or why the edit can't be applied. The
    texts that edits before it have left may be given."""
    refused, file, old, texts = "", "", "", dict(before)
    for line in text_of(crate, path).split("\n"):
        word, _, rest = line.partition(": ") if ": " in line else (line.rstrip(":"), "", "")
        if word == "refused":
            refused = rest.strip()
        elif word == "file":
            file = rest.strip()
        elif word == "old":
            old = rest
        elif word == "new":
            if file not in files(crate, "src"):
                return refused, None, f"there is no file {file}"
            text = texts.get(file) or text_of(crate, file)
            if not old or text.count(old) != 1:
                number = text.count(old) if old else 0
                return refused, None, f"an 'old:' text stands in {file} {number} times, and not once"
            texts[file], old = text.replace(old, rest), ""
        elif line.strip():
            return refused, None, f"a line begins neither with refused:, file:, old: nor new:: {line[:60]}"
    if not refused or not texts:
        return refused, None, "it names no function that has to be refused, or changes nothing"
    return refused, texts, ""


def messages(said):
    """What a check said, by messages: each begins on a line of its own, and may go on over several lines."""
    found = []
    for line in said.rstrip("\n").split("\n"):
        if found and not HEAD.match(line):
            found[-1] += f"\n{line}"
        else:
            found.append(line)
    return found


def is_unread(message, changed):
    at = re.match(r"(?:\./)?(\S+?):\d+:\d+: error: (?:(`[^`]*`): )?(.*)", message, re.S)
    said = at and re.sub(r"`[^`]*`", "", at[3])
    is_of_edit = bool(at) and (at[1] in changed or at[1].startswith(("src/", "specs/")))
    return is_of_edit and (not at[2] or bool(UNREAD.search(said)))


def verdict(status, said, refused, changed):
    """Whether a check refused the function for want of a proof, and what it said."""
    lines = messages(said)
    unread = [it for it in lines if is_unread(it, changed)]
    if unread or not re.fullmatch(r"only=\d+ proved=\d+", lines[-1]):
        return False, f"BAD EDIT: it did not reach the prover: {(unread or lines[-3:])[0][:300]}"
    if status == 0:
        return False, "NOT REFUSED: the function is still proved"
    is_asked = lambda name: f"::{name}".endswith(f"::{refused}")
    missing = re.findall(r"^fn (\S+): (?:no proof|not proved)(?:: (it calls )?.*)?$", said, re.M)
    others = [name for name, calls in missing if not calls and not is_asked(name)]
    if others or not any(is_asked(name) for name, calls in missing if not calls):
        missing = ", ".join(others) or "no function"
        return False, f"BAD EDIT: the proof of {missing} is missing, and not that of {refused} alone"
    told = [it for it in lines if re.match(r"(note: )?\S+:\d+:\d+:", it)]
    told = [it for it in told if ": error" in it or it.startswith("note: ")]
    proofs = [it for it in told + re.findall(r"^fn .*did not prove.*$", said, re.M) if not NAMES.match(it)]
    if not proofs:
        line = (told or lines)[0].partition("\n")[0][:300]
        return False, f"BAD EDIT: only a proof file misses what the edit took away: {line}"
    return True, proofs[0].partition("\n")[0][:160]


def of_function(said, refused):
    """What a check of several functions said of one of them."""
    at = re.compile(rf"(?:\./)?proofs/(?:\S+/)?{refused.replace('::', '/')}/\S+:\d+:\d+: |fn \S*::{refused}: ")
    return "\n".join(it for it in messages(said) if at.match(it) or it.startswith("only="))


def verdict_together(status, said, refused, functions, changed):
    """Whether a check of several edited functions refused this one. `False` may also mean that it can't be told."""
    missing = re.findall(r"^fn (\S+): (?:no proof|not proved)(?:: (it calls )?.*)?$", said, re.M)
    is_asked = lambda name: any(f"::{name}".endswith(f"::{it}") for it in functions)
    others = [name for name, calls in missing if not calls and not is_asked(name)]
    if others or any(is_unread(it, changed) for it in messages(said)):
        return False, "the check of several edits tells nothing"
    return verdict(status, of_function(said, refused), refused, changed)


def reads_answers():
    """Whether what the prover was seen to say is read as it was meant: of an edit that takes a call away, which a proof
    names, nothing is known; of one that changes a value the function is refused. Of two edits one may be refused, and
    the other not, or nothing may be known of it."""
    at = "./proofs/t_stream/TStream/finish/Answers.antt"
    ends = "fn slh_hash::t_stream::TStream::finish: not proved\nonly=1 proved=0\n"
    after = f"{at}:12:5: error: 1 declaration that depends on `value`, which was rejected, was not checked: len\n{ends}"
    gone = f"{at}:10:44: error: `value`: record `After-finish` has no field `n`\n  the fields are `before`, `finish`\n"
    wrapped = f"{at}:10:44: error: `value`: this can't be read\n  record `After-finish` has no field `n`\n"
    other = f"{at}:10:5: error: `value`: this term has another type\n  found `take 24 x`\n"
    said = [verdict(1, text + after, "TStream::finish", {})[0] for text in (gone, wrapped, other)]
    both = "TStream::finish", "TStream::take"
    more = "fn slh_hash::t_stream::TStream::take: not proved\n"
    same = [verdict_together(1, text, both[0], both, {})[0] for text in (
        gone + more + after, other + more + after, f"{other}fn slh_hash::midstate::take: not proved\n{after}",
        f"src/t_stream.rt:1:1: error: expected the end\n{other}{after}")]
    take = verdict_together(1, other + more + after, both[1], both, {})[0]
    return said == [False, False, True] and same == [False, True, False, False] and not take


def check(crate, folder, functions, kept, jobs):
    """A check of functions of the crate whose sources stand in a folder, over what `kept` has, and its output."""
    only = [word for name in functions for word in ("--only", name)]
    words = [kit.RATTLE, "check", *kit.words(crate), "--jobs", str(jobs), *only, "--incremental", kept]
    how = {"stdin": subprocess.DEVNULL, "stdout": subprocess.PIPE, "stderr": subprocess.STDOUT}
    return subprocess.run(words, cwd=folder, text=True, errors="replace", **how)


def prepare(crate, some, kept, jobs):
    """Checks in the crate as it is what edits of it turn, so that each edit is one function more to check. Says what is
    wrong where that fails."""
    own = os.path.join(ROOT, "crates", crate, "out", "incremental")
    shutil.copytree(own, kept) if os.path.isdir(own) else os.mkdir(kept)
    if kit.lacking(crate):
        return kit.how_to_build(crate)
    functions = sorted({read_edit(crate, path)[0] for path in some} - {""})
    ran = check(crate, os.path.join(ROOT, "crates", crate), functions, kept, jobs)
    return "" if ran.returncode == 0 else f"without an edit it is not proved: {ran.stdout[-300:]}"


def check_edited(crate, texts, functions, kept):
    """A check of functions of a copy of the crate in which files have these texts."""
    with tempfile.TemporaryDirectory(prefix="rt-edit-") as copy:
        for part in PARTS:
            if os.path.isdir(os.path.join(ROOT, "crates", crate, part)):
                shutil.copytree(os.path.join(ROOT, "crates", crate, part), f"{copy}/{part}")
        for file, text in texts.items():
            with open(f"{copy}/{file}", "w", encoding="utf-8") as it:
                it.write(text)
        return check(crate, copy, functions, kept, 1)


def try_edit(crate, path, kept):
    """Tries an edit over what `kept` has: whether it is refused, and what was said."""
    refused, texts, why = read_edit(crate, path)
    if why:
        return False, f"BAD EDIT: {why}"
    ran = check_edited(crate, texts, [refused], kept)
    return verdict(ran.returncode, ran.stdout, refused, texts)


def try_together(crate, group, kept):
    """Tries edits in one check over what `kept` has. By path, what was said of each that was refused: of the others
    nothing is known."""
    functions, texts = {}, {}
    for path in group:
        refused, after, why = read_edit(crate, path, texts)
        if not why:
            functions[path], texts = refused, after
    ran = check_edited(crate, texts, [*functions.values()], kept)
    found = {path: verdict_together(ran.returncode, ran.stdout, refused, functions.values(), texts)
             for path, refused in functions.items()}
    return {path: said for path, (is_refused, said) in found.items() if is_refused}


def groups(crate, some):
    """Edits of a crate as they are tried together: each changes the body of the function that it refuses and no more,
    and no two of a group the same. Each other one is alone."""
    found, alone = [], []
    for path in some:
        refused, texts, why = read_edit(crate, path)
        body = "" if why else changed_body(crate, texts)
        if not body or refused != body and ("::" in body or refused.rpartition("::")[2] != body):
            alone.append({refused: path})
            continue
        fitting = [it for it in found if refused not in it and len(it) < TOGETHER]
        if not fitting:
            found.append({})
        (fitting or found[-1:])[0][refused] = path
    return [list(it.values()) for it in found + alone]


def try_edits(crate, some, kept):
    """Tries groups of edits of a crate in turn."""
    found = []
    for group in some:
        start = time.monotonic()
        known = try_together(crate, group, kept) if len(group) > 1 else {}
        if known:
            print(f"{crate}: {len(known)} of {len(group)} refused in {time.monotonic() - start:.0f} s", flush=True)
        for path in group:
            start = time.monotonic()
            is_refused, said = (True, known[path]) if path in known else try_edit(crate, path, kept)
            found.append((crate, path, is_refused, said))
            told = f"{'refused' if is_refused else 'FAILED'} in {time.monotonic() - start:.0f} s: {said}"
            print(f"{crate}/{os.path.basename(path)}: {told}", flush=True)
    return found


def try_all(runs, jobs):
    """Tries the edits of each crate, so many at once. Each is tried over what a check of the crate as it is, and the
    edits before it in its share, have kept."""
    with tempfile.TemporaryDirectory(prefix="rt-edits-") as room, concurrent.futures.ThreadPoolExecutor(jobs) as pool:

        def begin(crate):
            start = time.monotonic()
            why = prepare(crate, runs[crate], f"{room}/{crate}", max(1, jobs // len(runs)))
            print(f"{crate}: {why or f'checked as it is in {time.monotonic() - start:.0f} s'}", flush=True)
            return why

        def go_on(crate, part):
            kept = f"{room}/{crate} {part}"
            shutil.copytree(f"{room}/{crate}", kept)
            found = try_edits(crate, shares[crate][part::jobs], kept)
            shutil.rmtree(kept)
            return found

        failed = dict(zip(runs, pool.map(begin, runs)))
        failed = {crate: why for crate, why in failed.items() if why}
        found = [(crate, path, False, f"not tried: {why}") for crate, why in failed.items() for path in runs[crate]]
        shares = {it: groups(it, runs[it]) for it in runs if it not in failed}
        parts = [(it, part) for it in shares for part in range(min(jobs, len(shares[it])))]
        return found + [it for ran in pool.map(lambda it: go_on(*it), parts) for it in ran]


def drawn(runs, seed):
    """Edits by crate: those of runs, and of crates drawn at random as many as make a thirty-second of all. The check of
    the crate as it is costs more than an edit, so crates are drawn, and the last one gives only the missing number."""
    left = -(-sum(len(edits(name)) for name in USES) // SHARE) - sum(map(len, runs.values()))
    draw, others = random.Random(seed), [name for name in USES if name not in runs and edits(name)]
    for name in draw.sample(others, len(others)):
        if left > 0:
            runs[name] = draw.sample(edits(name), min(left, len(edits(name))))
            left -= len(runs[name])
    return runs


def arguments():
    parser = argparse.ArgumentParser(description="Tries wrong bodies, each of which the prover has to refuse.")
    parser.add_argument("crate", nargs="*", metavar="CRATE[/EDIT]", help="crates whose edits are tried, or edits")
    parser.add_argument("--all", action="store_true", help="all edits")
    parser.add_argument("--changed", action="store_true", help="the edits of each crate that is not as listed")
    parser.add_argument("--gate", nargs="?", const=random.randrange(1_000_000), type=int, metavar="SEED",
                        help="these, and edits of more crates until they are a thirty-second of all")
    parser.add_argument("--write", action="store_true", help="writes the list")
    parser.add_argument("--jobs", type=int, default=len(os.sched_getaffinity(0)), help="how many checks run at once")
    return parser.parse_args()


def edits_of(words):
    """By crate the edits that CRATE or CRATE/EDIT stand for."""
    found = {}
    for word in words:
        crate, _, edit = word.partition("/")
        some = [it for it in edits(crate) if crate in USES and it in (f"wrong/{edit}.edit", it if not edit else "")]
        found.setdefault(crate, []).extend(some or sys.exit(f"tests/wrong_bodies.py: there are no edits {word}"))
    return found


def main():
    asked, old = arguments(), listed()
    kit.need_kit()
    if not reads_answers():
        sys.exit("tests/wrong_bodies.py: it takes an edit for refused of which nothing is known, "
                 "or the other way round")
    named = [(name, path) for name, some in edits_of(asked.crate).items() for path in some]
    looked_at = named or [(name, path) for name in USES for path in edits(name)]
    sums = {it: edit_sum(*it) for it in looked_at}
    stale = [it for it in looked_at if not sums[it] or old.get(name_of(*it)) != sums[it]]
    runs = {}
    for crate, path in stale if asked.changed or asked.gate is not None else looked_at if named or asked.all else ():
        runs.setdefault(crate, []).append(path)
    if asked.gate is not None:
        runs = drawn(runs, asked.gate)
        print(f"seed {asked.gate}: {', '.join(f'{len(it)} of {name}' for name, it in runs.items())}", flush=True)
    found = try_all(runs, asked.jobs)
    tried, failed = {it[:2] for it in found}, {it[:2]: it[3] for it in found if not it[2]}
    if asked.write:
        new = write({name_of(*it): sums[it] for it in tried if it not in failed})
        stale = [it for it in stale if new.get(name_of(*it)) != sums[it]]
    elif asked.gate is not None:
        stale = [it for it in stale if it not in tried]
    for it, why in failed.items():
        count("failed", f"{name_of(*it)}: {' '.join(why.split())}")
    for it in [it for it in stale if it not in failed]:
        alone = f"run tests/wrong_bodies.py --write {name_of(*it)}"
        count("failed", f"{name_of(*it)} is not as tests/wrong_bodies.txt lists it: {alone}")
    counts["passed"] = len({*looked_at, *tried}) - counts["failed"]
    end_counts()


if __name__ == "__main__":
    main()
