"""Tests the plain Rust that tools/plain_rust.py makes of the proved crates: the generator, the check beside it, and the
crates, which cargo builds without the kit. The sources are tested, whatever release is.

- Small texts become what a table states, and constructs that are not known are refused.
- tests/plain_rust_check.py compares the result with the sources, and refuses the results of wrong generators.
- `cargo clippy` warns of nothing with each feature alone and with all, `cargo doc` with all. `cargo package` makes a
  small package.
- The module of vectors gives what arrays give, at each level of x86-64 that this processor has.
- A debug build signs in threads by the lines of the page.
- The package, compiled for the oldest processor, passes its tests. Code for AVX2 runs if the processor has it. Nothing
  that was erased is in the memory of a program.

test_from_source.py tests the library for C. No network is used: cargo takes Debian's packages of the crates. The
workspace and what cargo builds in it stay in out/tests, by what they are made of.
"""
import hashlib
import importlib.util
import json
import os
import pathlib
import random
import re
import shutil
import sys
import typing

import pytest

from conftest import cache_folder, make_once
from key_forms import check_key_forms
from packages import check_memory, count_tests, is_key_file, with_another_root
from support import HERE, TESTS, callgrind, need, need_level, run, succeed

DEBIAN = pathlib.Path("/usr/share/cargo/registry")
CRATES = ["sha2", "arrayvec", "rand_core", "thiserror", "getrandom", "zeroize"]
LEAST_RUSTC = 1, 85
MOST_PACKED = 400_000
MOST_UNSAFE_LINES = 400
# What the workspace is made of. The folders are searched for all that no build has left there.
MADE_OF = ["VERSION", "bindings", "c", "crates", "tools/plain_rust", "tools/plain_rust.py"]
LEFT_BY_BUILDS = {"out", "target", "node_modules", "__pycache__"}
# The status of a program that an instruction ended which the processor lacks.
ILLEGAL = -4
# Programs of a user, as examples of the crate: that of bindings/tests, and one that asks for self-tests.
PROGRAMS = HERE / "bindings/tests"
SELF_TEST = """use slh::{Error, ParameterSet, SlhDsaSha2_128f, SlhDsaSha2_192f};
fn main() {
    for result in [SlhDsaSha2_192f::self_test(), SlhDsaSha2_128f::self_test()] {
        match result {
            Ok(()) => println!("passed"),
            Err(error @ Error::SelfTestFailed) => println!("{error}"),
            Err(error) => panic!("another error: {error}"),
        }
    }
}
"""
# The files of the package's own tests.
OWN_TESTS = sorted(it.stem for folder in ("bindings/rust", "tools/plain_rust")
                   for it in (HERE / folder / "slh/tests").glob("*.rs"))
# What cargo says of tests that passed, with their number.
OF_CARGO = r"^test result: ok\. (\d+) passed; 0 failed;"


def module(path):
    """A program of the repository as a module."""
    spec = importlib.util.spec_from_file_location(path.stem, path)
    found = importlib.util.module_from_spec(spec)
    spec.loader.exec_module(found)
    return found


generator = module(HERE / "tools/plain_rust.py")
check = module(TESTS / "plain_rust_check.py")


# ---- small texts


OF_ALLOC = '#[cfg(feature = "alloc")] '
BECOMES = [
    ("clauses",
     "fn f(x: u8) -> u8\n    requires small { x < 2 }\n    ensures { result ≡ x } by { refl }\n{\n    x\n}\n",
     "fn f(x: u8) -> u8\n{\n    x\n}\n"),
    ("a comment among clauses", "fn f()\n    ensures a { 1 ≡ 1 }\n\n    // Why.\n    ensures b { 2 ≡ 2 }\n{}\n",
     "fn f()\n{}\n"),
    ("a clause of a method without a body", "trait T {\n    fn f(self)\n        ensures { a ≡ b };\n}\n",
     "trait T {\n    fn f(self);\n}\n"),
    ("a const parameter, and a bound behind where",
     "fn f<T, const N: usize>(x: [T; N]) -> [T; N] where T: Copy ensures { x ≡ x } { x }\n",
     "fn f<T, const N: usize>(x: [T; N]) -> [T; N] where T: Copy { x }\n"),
    ("an impl with a const parameter", "impl<const N: usize> L for S<u32, N> {\n    ghost LANES = { N };\n}\n",
     "impl<const N: usize> L for S<u32, N> {\n}\n"),
    ("ghost members with their comments",
     "trait T {\n    /// The lanes.\n    ghost N: { ℕ };\n\n    /// All.\n    fn f();\n\n"
     "    ghost law: { P } = { λ x. x };\n}\n",
     "trait T {\n\n    /// All.\n    fn f();\n}\n"),
    ("a ghost field", "struct S {\n    pub a: u8,\n    pub ghost b: { a < 2 } by { it },\n}\n",
     "struct S {\n    pub a: u8,\n}\n"),
    ("imports of ghosts", "//! Text.\nghost use A.B.{◌≡◌};\nghost use C.{d};\n\nuse super::x;\n",
     "//! Text.\n\nuse super::x;\n"),
    ("attributes of the prover", "#![tactic(auto, using(a::b))]\n\n#[inline(always)]\n#[tactic(auto)]\nfn f() {}\n",
     "#[inline(always)]\nfn f() {}\n"),
    ("derived drops",
     "#[derive(Drop)]\nstruct A;\n#[derive(Debug, Drop, Error)]\nstruct B;\n#[derive(Drop, Eq)]\nstruct C;\n",
     "struct A;\n#[derive(Debug, Error)]\nstruct B;\n#[derive(Eq)]\nstruct C;\n"),
    ("models", "use std::marker::Model;\nimpl Model for S {\n    ghost Value = { ℕ };\n}\n", ""),
    ("a clone that may fail", "let Ok(x) = y;\nlet Ok(z) = y.clone() else { return };\n",
     "let Ok(x) = y;\nlet Ok(z) = y.clone() else { return };\n"),
    ("clones", "let Ok(mut s) = self.s.clone() else {\n    unreachable!()\n};\n", "let mut s = self.s.clone();\n"),
    ("an arm that is never taken", "let Some(x) = y else {\n    unreachable!()\n};\n",
     "let Some(x) = y else {\n    unreachable!()\n};\n"),
    ("paths", "use crate::a;\nuse slh_hash::{b};\npub(crate) use crate::c;\n",
     "use crate::slh_few::a;\nuse crate::slh_hash::{b};\npub(crate) use crate::slh_few::c;\n"),
    ("a clone of an allocator", "let x = f(alloc.clone()?, y)?;\n", "let x = f(alloc.clone(), y)?;\n"),
    ("memory", "use std::alloc::AllocError;\nuse std::alloc::{AllocError, Allocator};\nfn f() { hex::encode(a) }\n",
     f"{OF_ALLOC}use crate::memory::AllocError;\n{OF_ALLOC}use crate::memory::{{AllocError, Allocator, String, Vec}};\n"
     "fn f() { crate::memory::hex::encode(a) }\n"),
    ("items that take memory", "pub use key_text::f;\nmod key_text;\nmod lines;\nimpl From<AllocError> for A {\n}\n",
     f"{OF_ALLOC}pub use key_text::f;\n{OF_ALLOC}mod key_text;\nmod lines;\n"
     f"{OF_ALLOC}impl From<AllocError> for A {{\n}}\n"),
    ("vectors and names of core", "use std::simd::prelude::*;\nuse std::str;\n",
     "use crate::vectors::*;\nuse core::str;\n"),
    ("random generators", "use rand_core::Rng;\nfn f<R: Rng>() {}\n",
     "use rand_core::RngCore;\nfn f<R: RngCore>() {}\n"),
    ("labels", "fn f() { 'a: for i in 0..2 {} 'b: for i in 0..2 { break 'b; } }\n",
     "fn f() { for i in 0..2 {} 'b: for i in 0..2 { break 'b; } }\n"),
    ("chains", "fn f() { if a < b && let Some(x) = self.y() { z } else { w } }\n",
     "fn f() { if let (true, Some(x)) = (a < b, self.y()) { z } else { w } }\n"),
    ("exports", "#[unsafe(no_mangle)]\npub extern \"C\" fn f() {}\n", "pub fn f() {}\n"),
    ("a layout for C", "#[repr(C)]\nstruct S;\n", "#[repr(C)]\nstruct S;\n"),
    ("characters, lifetimes and strings", "fn f<'a>(x: &'a u8) { ('{', b'\\'', \"ghost { // \\\"\", b\"}\") }\n",
     "fn f<'a>(x: &'a u8) { ('{', b'\\'', \"ghost { // \\\"\", b\"}\") }\n"),
]

REFUSED = [
    ("a ghost of another kind", "ghost fn f() {}\n"),
    ("a ghost statement", "fn f() { ghost let x = 1; }\n"),
    ("a clause of a loop", "fn f() { while a invariant { b } { } }\n"),
    ("a clause of a closure", "fn f() { let g = |x| requires { x } { x }; }\n"),
    ("a starred clause", "fn f() ensures* a { b } { }\n"),
    ("a macro of the prover", "fn f() { prove!(a); }\n"),
    ("an attribute", "#[repr(packed)]\nstruct S;\n"),
    ("an import of std", "use std::alloc::Allocator;\n"),
    ("a crate that is not there", "use serde_json::Value;\n"),
    ("unsafe code", "fn f() { unsafe { g() } }\n"),
    ("an export of another kind", "extern \"C\" { fn f(); }\n"),
    ("a term of the prover", "fn f() { a ≡ b }\n"),
    ("a bracket too many", "fn f() { ) }\n"),
    ("a model with a member", "impl Model for S { fn f() {} }\n"),
    ("a chain behind an or", "fn f() { if a || b && let Some(x) = y { } }\n"),
]


# The same of files of slh_lanes.
OF_LANES = [
    ("vectors have a level", "impl<const N: usize> Lanes for Simd<u32, N> {}\n",
     "impl<const N: usize, L: Level> Lanes for Simd<u32, N, L> {}\n"),
    ("kernels",
     "mod a;\nfn f() { rounds::compress(x); run::<TwoWords, Rounds>(x); }\n"
     "fn g() { compress_part::<LongWords, u64x4, Rounds>(x) }\n",
     "pub(crate) mod a;\nfn f() { crate::levels::compress(x); crate::levels::run(x); }\n"
     "fn g() { crate::levels::compress_four(x) }\n"),
    ("functions that are inlined", "pub(crate) fn run<W: A, C: B<W>>() {}\nfn compress_part<G, W>() {}\n",
     "#[inline(always)] pub(crate) fn run<W: A, C: B<W>>() {}\n"
     "#[inline(always)] pub(crate) fn compress_part<G, W>() {}\n"),
    ("calls of the build's level",
     "fn f() { run_part::<u32x4, Rounds>(x); run_singles::<Rounds>(x); run::<W, C>(x) }\n",
     "fn f() { run_part::<u32x4, Rounds>(x); run_singles::<Rounds>(x); run::<W, C>(x) }\n"),
]

REFUSED_OF_LANES = [
    ("chains of other vectors", "fn f() { run::<u32x8, Rounds>(x) }\n"),
    ("a part of other vectors", "fn f() { run_part::<u32x8, Rounds>(x) }\n"),
    ("another function by rounds", "fn f() { hash::<Rounds>(x) }\n"),
    ("another function of the rounds", "fn f() { rounds::begin(x) }\n"),
    ("a name of a function of the rounds", "use crate::rounds::compress;\n"),
    ("another name of the rounds", "use crate::rounds::Rounds as R;\n"),
]


def named(table):
    """The rows of a table as cases, each by its name."""
    return [pytest.param(*row, id=name) for name, *row in table]


def plain(text, crate="slh_few"):
    return generator.plain(text, generator.Source(crate, "source"))[0].split("\n", 1)[1]


@pytest.mark.parametrize("text, wanted", named(BECOMES))
def test_as_plain_rust(text, wanted):
    """Without empty lines where a clause was."""
    found = plain(text)
    assert "".join(found.split()) == "".join(wanted.split()) and "\n\n\n" not in found


@pytest.mark.parametrize("text", named(REFUSED))
def test_unknown_construct_is_refused(text):
    with pytest.raises(generator.Refused):
        plain(text)


@pytest.mark.parametrize("text, wanted", named(OF_LANES))
def test_lanes_as_plain_rust(text, wanted):
    assert "".join(plain(text, "slh_lanes").split()) == "".join(wanted.split())


@pytest.mark.parametrize("text", named(REFUSED_OF_LANES))
def test_unknown_use_of_the_rounds_is_refused(text):
    """It could be one that should run by AVX2."""
    with pytest.raises(generator.Refused):
        plain(text, "slh_lanes")


# ---- the workspace


class Workspace(typing.NamedTuple):
    """The folder of a workspace, the workspace in it, and the counts of the generator."""

    folder: pathlib.Path
    out: pathlib.Path
    counts: dict

    def cargo(self, *words, **environment):
        """Runs cargo in the workspace, without a network."""
        env = {**os.environ, "CARGO_NET_OFFLINE": "true", "CARGO_BUILD_JOBS": "2", **environment}
        return run("cargo", *words, cwd=self.out, env=env, timeout=3600)


def files_of(path):
    """The files of a path, in their order, without those that builds left."""
    if path.is_file():
        return [path]
    found = []
    for folder, folders, names in os.walk(path):
        folders[:] = sorted(set(folders) - LEFT_BY_BUILDS)
        found += [pathlib.Path(folder) / it for it in sorted(names)]
    return found


def content():
    """The SHA-256 of all that the workspace and its builds depend on."""
    total = hashlib.sha256(repr(sorted(it.name for it in DEBIAN.glob("*"))).encode() + succeed("rustfmt", "--version"))
    total.update(run("rustc", "--version").output if shutil.which("rustc") else b"")
    for path in [file for name in MADE_OF for file in files_of(HERE / name)]:
        total.update(f"{path.relative_to(HERE)}\n".encode() + hashlib.sha256(path.read_bytes()).digest())
    return total.hexdigest()[:32]


def write_workspace(folder):
    """Writes the workspace. Its tests read the version and the vectors of the repository, above it, and run `./slh`."""
    (folder / "out").mkdir(parents=True)
    for name in "VERSION", "tests":
        (folder / name).symlink_to(HERE / name)
    (folder / "slh").write_text(f'#!/bin/sh\nexec "{HERE}/slh" "$@"\n')
    (folder / "slh").chmod(0o755)
    succeed(sys.executable, HERE / "tools/plain_rust.py", "--counts", folder / "counts.json", folder / "out/plain_rust")
    crate = folder / "out/plain_rust/slh"
    for name in "erased", "key_forms":
        shutil.copy(PROGRAMS / f"{name}.rs", crate / "examples")
    (crate / "examples" / "self_test.rs").write_text(SELF_TEST)
    with open(crate / "Cargo.toml", "a") as manifest:
        for name in "erased", "key_forms", "self_test":
            manifest.write(f'\n[[example]]\nname = "{name}"\nrequired-features = ["std"]\n')
    (folder / ".cargo").mkdir()
    (folder / ".cargo/config.toml").write_text(
        f'[source.crates-io]\nreplace-with = "debian"\n[source.debian]\ndirectory = "{DEBIAN}"\n')


@pytest.fixture(scope="module")
def workspace(tmp_path_factory):
    """The workspace, written once. Of other sources none is kept."""
    need("rustfmt")
    if run("rustfmt", "--edition", "2024").status:
        pytest.skip("there is no rustfmt of Rust 1.85 or later (to be had by Debian 13's package rustfmt)")
    kept = cache_folder(tmp_path_factory)
    folder = kept / f"plain_rust-{content()}"
    if not folder.exists():
        for old in kept.glob("plain_rust-*"):
            shutil.rmtree(old, ignore_errors=True)
        make_once(folder, kept / f"plain_rust.{os.getpid()}", write_workspace)
    return Workspace(folder, folder / "out/plain_rust", json.loads((folder / "counts.json").read_text()))


def test_folder_with_files_of_others_stays(tmp_path):
    """It is refused."""
    (tmp_path / "file").write_text("text")
    done = run(sys.executable, HERE / "tools/plain_rust.py", tmp_path)
    assert done.status == 1 and b"files of others" in done.errors
    assert [it.name for it in tmp_path.iterdir()] == ["file"]


def test_result_is_the_sources_without_ghosts(workspace):
    compared, found = check.differences(workspace.out, workspace.counts, HERE)
    assert compared and not found


def test_layout(workspace):
    """Of the files that are copied. In lib.rs rustfmt does not find the modules."""
    folders = ["bindings/rust/slh", "bindings/rust/slh-signature", "tools/plain_rust/slh"]
    files = [it for folder in folders for it in (HERE / folder).rglob("*.rs") if not LEFT_BY_BUILDS & {*it.parts}]
    files.remove(HERE / "bindings/rust/slh/src/lib.rs")
    succeed("rustfmt", "--edition", "2024", "--check", "--config-path", HERE / "bindings/rust", *sorted(files))


def test_links_of_the_page_lead_somewhere(workspace):
    """They lead on from a folder three below the top, as dist/rust/slh and out/plain_rust/slh are."""
    links = re.findall(r"\]\((\.\./[^)#]+)", (workspace.out / "slh/README.md").read_text())
    lost = [it for it in links if not pathlib.Path(os.path.normpath(HERE / "dist/rust/slh" / it)).is_file()]
    assert links and not lost


# ---- wrong generators

# Changes of a file that was written, each as of a generator that is wrong. The first file in which the old text stands
# is changed once.
WRONG = [
    ("a clause's word is left in", "pub fn sign(", "pub fn ensures sign("),
    ("an operator is lost", "!fits(", "fits("),
    ("an operator is another one", "+ 1", "- 1"),
    ("a number is another one", "255", "256"),
    ("an attribute is lost", "#[inline(never)]", ""),
    ("a call is lost", "scratch.fill(0);", ""),
    ("a derived trait is lost", "#[derive(Clone, Copy, PartialEq", "#[derive(Copy, PartialEq"),
    ("a derived drop is left in", "#[derive(Debug, Error)]", "#[derive(Debug, Drop, Error)]"),
    ("a path leads to another crate", "crate::slh_few::context", "crate::slh_tree::context"),
    ("a path has the rule twice", "crate::slh_few::wots", "crate::slh_few::slh_few::wots"),
    ("a width is the other one", "short: crate::levels::short()", "short: crate::levels::long()"),
    ("a level is lost", "Simd<u32, N, L>", "Simd<u32, N>"),
    ("another function has a level", "fn part_of_six<G", "fn part_of_six<L: Level, G"),
    ("a part goes to the levels", "run_part::<u32x4, Rounds>", "crate::levels::run_part"),
    ("a call does not go to the levels", "crate::levels::compress(state", "rounds::compress(state"),
    ("a block is empty", "{ DONE } else { INVALID }", "{ DONE } else { DONE }"),
    ("an argument is exchanged", "sk_seed, sk_prf", "sk_prf, sk_seed"),
    ("a doc comment is lost", "/// Draws n bytes.\n", ""),
    ("a comment is another one", "/// Draws n bytes.", "/// Draws no bytes."),
    ("the head names another source", "from crates/slh_hash/src/mgf1.rt", "from crates/slh_hash/src/hmac.rt"),
]


@pytest.fixture
def copied(workspace, tmp_path):
    """A copy of the sources of the workspace, which a test may change."""
    shutil.copytree(workspace.out / "slh/src", tmp_path / "slh/src")
    return tmp_path


@pytest.mark.parametrize("lost, more", [([], ["more.rs"]), (["slh_tree.rs"], [])], ids=["too many", "too few"])
def test_other_files_are_refused(workspace, copied, lost, more):
    for it in lost:
        (copied / "slh/src" / it).unlink()
    for it in more:
        (copied / "slh/src" / it).write_text("")
    assert len(check.differences(copied, workspace.counts, HERE)[1]) == 1


@pytest.mark.parametrize("old, new", named(WRONG))
def test_wrong_result_is_refused(workspace, copied, old, new):
    """A result in which something is another one."""
    files = check.sources_of(HERE, sorted({it.split("/")[1] for it in workspace.counts}))
    paths = {it: copied / "slh/src" / check.rust_of(it[0], it[2]) for it in files}
    file, path = next((it, path) for it, path in paths.items() if old in path.read_text())
    assert not check.difference(copied, workspace.counts, HERE, *file)
    path.write_text(path.read_text().replace(old, new, 1))
    assert check.difference(copied, workspace.counts, HERE, *file)


def finds_a_difference(crate, name):
    """Whether the check refuses what the generator now makes of a file, or the generator itself does."""
    path = HERE / "crates" / crate / "src" / name
    source = str(path.relative_to(HERE))
    try:
        text, counted = generator.plain(path.read_text(), generator.Source(crate, source))
        met = check.compare(crate, source, path.read_text(), text)
    except (generator.Refused, check.Different):
        return True
    return dict(met) != dict(counted)


# What is removed by a wrong generator, of the spans that the right one removes: pairs of a span and its kind.
WRONG_SPANS = {
    "the first word of a clause stays": lambda found: [*found[:-1], moved(found[-1], 1, 0)],
    "the last token of a clause stays": lambda found: [*found[:-1], moved(found[-1], 0, -1)],
    "a token more is removed": lambda found: [*found[:-1], moved(found[-1], 0, 1)],
    "the token before a clause is removed": lambda found: [moved(it, -(it == first_clause(found)), 0) for it in found],
    "a clause stays": lambda found: found[:-1],
    "the first ghost stays": lambda found: found[1:],
}


def first_clause(found):
    return next(it for it in found if it[1] == "clause")


def moved(ghost, first, past):
    """The span of a ghost with other ends."""
    (begin, end, lead), kind = ghost
    return (begin + first, end + past, lead), kind


@pytest.mark.parametrize("spans", WRONG_SPANS.values(), ids=WRONG_SPANS)
def test_generator_with_wrong_spans_is_refused(monkeypatch, spans):
    right = generator.ghosts
    assert not finds_a_difference("slh_tree", "paths.rt")
    monkeypatch.setattr(generator, "ghosts", lambda tokens: spans(right(tokens)))
    assert finds_a_difference("slh_tree", "paths.rt")


def changed(tokens, place, other, draw):
    """The tokens with one that is lost, doubled, exchanged with the next one, or another one."""
    it, following = tokens[place:place + 2]
    twice = it._replace(lead=" " + it.lead)
    new = draw.choice([[following], [it, twice, following], [it._replace(text=following.text),
                       following._replace(text=it.text)], [it._replace(text=other.text), following]])
    return [*tokens[:place], *new, *tokens[place + 2:]]


def test_changed_token_is_refused(workspace):
    """In each file one token is another one, somewhere. Commas are left out: before a bracket they are layout."""
    draw, tried = random.Random(os.environ["SLH_SEED"]), 0
    for crate, name, inner in check.sources_of(HERE, sorted({it.split("/")[1] for it in workspace.counts})):
        text = (workspace.out / "slh/src" / check.rust_of(crate, inner)).read_text()
        tokens, tail = generator.tokens_of(text)
        place, other = draw.randrange(len(tokens) - 1), draw.choice(tokens)
        wrong = generator.text_of(changed(tokens, place, other, draw), tail)
        words = [[it.text for it in generator.tokens_of(of)[0]] for of in (text, wrong)]
        if words[0] == words[1] or "," in (tokens[place].text, tokens[place + 1].text, other.text):
            continue
        tried += 1
        try:
            met = dict(check.compare(crate, name, (HERE / name).read_text(), wrong))
        except (check.Different, ValueError, IndexError):
            continue
        assert met != workspace.counts[name], (name, tokens[place].line, wrong)
    assert tried > 50


def twice(rule):
    """A rule that counts once more than it was applied."""
    def wrong(tokens, source):
        made, times = rule(tokens, source)
        return made, times + (times > 0)
    return wrong


def none(rule):
    """A rule that does nothing."""
    return lambda tokens, source: (tokens, 0)


@pytest.mark.parametrize("change", [twice, none], ids=["applied once too often", "left out"])
@pytest.mark.parametrize("rule", generator.RULES)
def test_wrong_rule_is_refused(workspace, monkeypatch, rule, change):
    """In the first file in which the rule has a place. One that has none can go."""
    file = next(it for it, counted in workspace.counts.items() if rule in counted)
    _, crate, _, name = file.split("/", 3)
    assert not finds_a_difference(crate, name)
    monkeypatch.setitem(generator.RULES, rule, change(generator.RULES[rule]))
    assert finds_a_difference(crate, name)


def without_tests(text):
    """The code of a file before its tests, and without comments."""
    return re.sub(r"//.*", "", re.split(r"#\[cfg\((?:test|all\(test)", text)[0])


def files_with(workspace, word):
    """The files of the crate whose code has this word."""
    source = workspace.out / "slh/src"
    return sorted(str(it.relative_to(source)) for it in source.rglob("*.rs")
                  if re.search(rf"\b{word}\b", without_tests(it.read_text())))


def test_code_is_unsafe_in_one_short_module_alone(workspace):
    """Whoever reviews unsafe code reads at most 400 lines."""
    assert files_with(workspace, "unsafe") == ["vectors.rs"]
    assert len((workspace.out / "slh/src/vectors.rs").read_text().splitlines()) <= MOST_UNSAFE_LINES


def test_one_module_alone_makes_vectors_of_avx2(workspace):
    """Its code runs only if the processor has AVX2."""
    assert files_with(workspace, "Avx2") == ["levels.rs", "vectors.rs"]


# ---- the crates


@pytest.fixture(scope="module")
def crates(workspace):
    """The workspace, if cargo can build it here."""
    need("cargo", "rustc")
    version = tuple(map(int, re.search(r"(\d+)\.(\d+)", succeed("rustc", "--version").decode()).groups()))
    if version < LEAST_RUSTC:
        pytest.skip("rustc is older than 1.85 (to be had by Debian 13's package rustc)")
    for it in CRATES:
        if not list(DEBIAN.glob(f"{it}-[0-9]*")):
            pytest.skip(f"cargo finds no {it} (to be had by the package librust-{it.replace('_', '-')}-dev)")
    return workspace


def with_all(pytestconfig):
    """Skips a test that compiles the crate once more."""
    if not pytestconfig.option.all:
        pytest.skip("the crate is compiled once more with --all alone")


@pytest.mark.slow
def test_clippy_warns_of_nothing(crates):
    done = crates.cargo("clippy", "--workspace", "--features", "slh/zeroize", "--all-targets", "--", "-D", "warnings")
    assert done.status == 0, done.errors.decode()[-4000:]


def features():
    """Those of the crate, but for the list of those that it has by default."""
    text = (HERE / "bindings/rust/slh/Cargo.toml").read_text()
    [table] = re.findall(r"^\[features\]\n((?:[^\[\n].*\n|\n)*)", text, re.M)
    return [it for it in re.findall(r"^(\w+) =", table, re.M) if it != "default"]


@pytest.mark.slow
@pytest.mark.parametrize("feature", ["", *features()], ids=lambda it: it or "none")
def test_each_feature_alone_warns_of_nothing(crates, feature):
    done = crates.cargo("clippy", "-p", "slh", "--no-default-features", "--features", feature, "--lib", "--", "-D",
                        "warnings")
    assert done.status == 0, done.errors.decode()[-4000:]


@pytest.mark.slow
def test_doc_warns_of_nothing(crates):
    done = crates.cargo("doc", "--no-deps", "--features", "slh/zeroize", RUSTDOCFLAGS="-D warnings")
    assert done.status == 0, done.errors.decode()[-4000:]


@pytest.mark.slow
def test_package_is_small(pytestconfig, crates):
    """`cargo package` makes and builds it: of sources alone, which are below 400 KB when packed."""
    with_all(pytestconfig)
    done = crates.cargo("package", "-p", "slh", "--allow-dirty")
    assert done.status == 0, done.errors.decode()[-4000:]
    [packed] = (crates.out / "target/package").glob("slh-*.crate")
    assert packed.stat().st_size < MOST_PACKED
    names = [it.split("/", 1)[1] for it in succeed("tar", "tzf", packed).decode().split()]
    texts = {"README.md", "LICENSE-APACHE", "LICENSE-MIT"}
    of_cargo = {"Cargo.toml", "Cargo.toml.orig", "Cargo.lock", ".cargo_vcs_info.json"}
    assert texts <= {*names} <= {*texts, *of_cargo, *(it for it in names if re.fullmatch(r"src/[a-z0-9_/]+\.rs", it))}


@pytest.fixture(scope="module")
def lanes(crates):
    """Compiles the program that compares vectors with arrays, once for a level: lanes(LEVEL) is its path."""
    def compiles(level):
        path = crates.folder / f"lanes-{level}"
        if not path.exists():
            succeed("rustc", "--edition", "2024", "--test", "-O", "-C", f"target-cpu=x86-64-v{level}", "-o", path,
                    crates.out / "slh/tests/lanes.rs")
        return path

    return compiles


@pytest.mark.slow
@pytest.mark.parametrize("level", [2, 3, 4])
def test_vectors_are_arrays(lanes, level):
    need_level(level)
    assert count_tests(run(lanes(level)), OF_CARGO) == 18


# ---- debug builds


@pytest.mark.slow
def test_debug_build_signs_in_threads_by_lines_of_the_page(pytestconfig, crates, tmp_path, letter):
    """They are of a file that cargo reads. Without them the stack of a thread overflows."""
    with_all(pytestconfig)
    page, words = (HERE / "bindings/rust/slh/README.md").read_text(), ["run", "-p", "slh", "--example", "sign_threads"]
    (tmp_path / "lines.toml").write_text(re.search(r"^```toml\n(.*?)^```$", page, re.M | re.S)[1])
    assert b"has overflowed its stack" in crates.cargo(*words, "2", letter).errors
    done = crates.cargo(*words, "--config", tmp_path / "lines.toml", "2", letter)
    assert (done.status, done.output) == (0, b"valid\n"), done.errors.decode()[-4000:]


# ---- the package, for the oldest processor


@pytest.fixture(scope="module")
def own_tests(crates):
    """Runs some of the package's own tests, all of which cargo compiles at first: own_tests(WORD..) is the outcome."""
    words = "test", "--release", "-p", "slh", "--features", "zeroize"
    done = crates.cargo(*words, "--no-run")
    assert done.status == 0, done.errors.decode()[-4000:]
    programs = re.findall(r"Executable (?:unittests )?\w+/(\w+)\.rs ", done.errors.decode())
    assert sorted(programs) == sorted(["lib", *OWN_TESTS])
    return lambda *those: crates.cargo(*words, *those)


@pytest.mark.slow
@pytest.mark.parametrize("those", ["--lib", "--doc", *(f"--test={it}" for it in OWN_TESTS)])
def test_package_passes_its_tests(own_tests, those):
    """Compiled for the oldest processor: code for AVX2 runs if this one has it. The vectors and the lines of the page
    are among them."""
    count_tests(own_tests(those), OF_CARGO)


@pytest.mark.slow
def test_traits_of_signature_pass_their_tests(crates):
    if not [*DEBIAN.glob("signature-2*")]:
        pytest.skip("there is no signature 2 (to be had by Debian 13's package librust-signature-dev)")
    manifest = crates.out / "slh-signature/Cargo.toml"
    count_tests(crates.cargo("test", "--manifest-path", manifest, RUSTFLAGS="-Dwarnings"), OF_CARGO)


@pytest.fixture(scope="module")
def examples(crates):
    """The folder of the example of the package, and of the programs of a user."""
    done = crates.cargo("build", "--release", "-p", "slh", "--features", "zeroize", "--examples")
    assert done.status == 0, done.errors.decode()[-4000:]
    return crates.out / "target/release/examples"


@pytest.fixture
def example(examples):
    """The example, which signs a file."""
    return examples / "sign_threads"


@pytest.mark.slow
def test_changed_keys_of_other_programs_are_judged(examples):
    check_key_forms(examples / "key_forms")


@pytest.mark.slow
def test_nothing_erased_is_in_memory(examples, installed_as_is):
    """Neither in the heap nor on the stacks of threads."""
    check_memory(installed_as_is / "lib/libslh.so.1", examples / "erased")


@pytest.mark.slow
def test_another_known_answer_is_told(examples, tmp_path):
    """By the self-test of its set. That of another set passes."""
    another = tmp_path / "self_test"
    another.write_bytes(with_another_root((examples / "self_test").read_bytes()))
    another.chmod(0o755)
    assert succeed(examples / "self_test") == b"passed\npassed\n"
    assert succeed(another) == b"passed\n40 SelfTestFailed: an answer of the self-test is not the known one\n"


@pytest.fixture
def letter(tmp_path):
    (tmp_path / "letter").write_text("Dear reader,")
    return tmp_path / "letter"


@pytest.mark.slow
def test_example_writes_a_key_file(example, letter):
    assert succeed(example, "2", letter) == b"valid\n" and is_key_file(letter.with_suffix(".pub"))


@pytest.mark.slow
def test_code_for_avx2_runs_here(example, letter):
    """Valgrind names the functions that ran."""
    need("valgrind")
    need_level(3)
    assert callgrind(letter.parent, example, "1", letter)[0] == b"valid\n"
    assert "vectors::by_avx2::compiled" in (letter.parent / "part").read_text()


@pytest.mark.slow
@pytest.mark.emulator
@pytest.mark.parametrize("processor", ["core2duo", "Haswell,-avx2", "Haswell"])
def test_emulated_processor_signs(example, letter, processor):
    """With AVX2, and without: the emulator ends a program that takes instructions that the processor lacks."""
    need("qemu-x86_64")
    done = run("qemu-x86_64", "-cpu", processor, example, "1", letter)
    assert (done.status, done.output) == (0, b"valid\n"), done.errors


@pytest.mark.slow
@pytest.mark.emulator
@pytest.mark.parametrize("processor, status", [("Haswell,-avx2", ILLEGAL), ("Haswell", 0)])
def test_emulator_ends_what_takes_avx2(lanes, processor, status):
    """As the module of vectors that is compiled for x86-64-v3."""
    need("qemu-x86_64")
    assert run("qemu-x86_64", "-cpu", processor, lanes(3), "eight_short", "--exact").status == status
