"""Tests a release as a user has it who has no kit: ./slh, tools/library.sh and tools/install.sh in a copy of this
repository with the release in dist/. README's commands sign and verify, also in a root in which no kit is. Damaged and
missing files are neither run nor installed, and other sources are told. The builds for all levels of processors give
the values of tests/vectors/."""
import hashlib
import io
import os
import pathlib
import re
import subprocess
import tarfile
import time

import pytest

from conftest import STRICT
from copies import LEVELS, WITHOUT_KIT, script
from support import HERE, TESTS, need, run, succeed

pytestmark = pytest.mark.release
slow = pytest.mark.slow
VERSION = (HERE / "VERSION").read_text().strip()
PARAMS = ("./slh", "params")


def levels_here():
    """The levels of x86-64 that this processor has, as glibc tells: the highest one first."""
    loader = pathlib.Path("/lib64/ld-linux-x86-64.so.2")
    said = run(loader, "--help").output.decode() if loader.exists() else ""
    return re.findall(r"^ *(x86-64-v[234]) \(supported", said, re.M)


HERE_ARE = levels_here()
BEST = HERE_ARE[0] if HERE_ARE else "none"


def need_level(level):
    if level not in HERE_ARE:
        pytest.skip(f"this processor lacks {level}")


@pytest.fixture
def changed(copy_of_module):
    """A copy of which a test changes dist/ alone."""
    return copy_of_module.take_release()


def lists_sets(done):
    """Whether this is what `slh params` prints, and no word more."""
    return done.status == 0 and len(done.output.splitlines()) == 6 and done.errors == b""


# ---- the release


def test_each_file_has_the_hash_that_is_listed(release):
    listed = dict(reversed(it.split(maxsplit=1)) for it in (release / "SHA256SUMS").read_text().splitlines())
    files = [it for it in release.rglob("*") if it.is_file() and it.name not in ("SHA256SUMS", "SHA256SUMS.sig")]
    assert {str(it.relative_to(release)): hashlib.sha256(it.read_bytes()).hexdigest() for it in files} == listed


def test_programs_alone_may_be_run(release):
    """Beside shared objects, as linkers write them."""
    may_run = {str(it.relative_to(release)) for it in release.rglob("*") if it.is_file() and it.stat().st_mode & 0o111}
    programs = {it for it in may_run if not re.search(r"\.(so\.\d+|dll|wasm)$", it)}
    assert programs == {f"x86-64{it}/slh" for it in ("", "-v2", "-v3", "-v4")}


@slow
def test_plain_rust_is_what_its_tool_writes(release, tmp_path):
    need("rustfmt")
    build = (release / "BUILD").read_text()
    made_by = {"sources": succeed(HERE / "tools/sources.sh"), "rust": succeed(HERE / "tools/sources.sh", "rust"),
               "rustfmt": succeed("rustfmt", "--version").split()[1]}
    for name, value in made_by.items():
        if f"\n{name} {value.decode().strip()}\n" not in build:
            pytest.skip(f"the release was made by another {name} (tools/release.sh makes it anew)")
    succeed(HERE / "tools/plain_rust.py", tmp_path / "rust")
    succeed("diff", "-r", tmp_path / "rust", release / "rust")


REGISTERS = [("x86-64-v2", "xmm", "ymm"), ("x86-64-v3", "ymm", "zmm"), ("x86-64-v4", "zmm", "tmm")]


@slow
@pytest.mark.parametrize("file", ["slh", "libslh.a", "libslh_verify.a"])
@pytest.mark.parametrize("level, has, lacks", REGISTERS)
def test_code_has_the_registers_of_its_level(release, level, has, lacks, file):
    """Except slh_clear, which clears all that a processor has."""
    need("objdump")
    said = succeed("objdump", "-d", "--no-show-raw-insn", release / level / file).decode()
    code = [it for it in said.split("\nDisassembly of section ")[1:] if "slh_clear" not in it.splitlines()[0]]
    assert any(f"%{has}" in it for it in code) and not any(f"%{lacks}" in it for it in code)


def counted(*words):
    """Runs a test of its own, whose counts are its last line: some have passed, and all others too."""
    env = {key: it for key, it in os.environ.items() if key != "SLH_FAILURES"}
    done = run(*words, env=env, cwd=HERE)
    said = done.output.decode()
    assert done.status == 0 and re.match(r"[1-9]\d* passed, 0 failed", said.splitlines()[-1]), said[-4000:]


# tests/test_vectors.py has the program for the best level, and the tests of the library its archive.
OTHERS = [pytest.param(it, marks=[slow, pytest.mark.drawn(f"the build for {it}", "kind")])
          for it in LEVELS if it != BEST]


@pytest.mark.parametrize("kind", ["program", "library"])
@pytest.mark.parametrize("level", OTHERS)
def test_vectors_by_the_build_for_another_level(release, level, kind, tmp_path):
    need_level(level)
    if kind == "program":
        return counted("pytest", "-p", "no:cacheprovider", f"--program={release / level / 'slh'}",
                       TESTS / "test_vectors.py")
    need("cc")
    succeed("cc", "-shared", "-Wl,--whole-archive", release / level / "libslh.a", "-Wl,--no-whole-archive",
            "-o", tmp_path / "slh.so")
    counted(TESTS / "library_vectors.py", tmp_path / "slh.so")


# ---- README's commands

# README's commands are run as they are there, and after them those of LIBRARY and DEVICES.
FURTHER = """\
./slh sign --key secret.key --message letter.txt --workers 4 > same.sig
./slh sign --key secret.key --message letter.txt | cmp - same.sig
tools/library.sh prefix
cc examples/sign_file.c -I prefix/include prefix/lib/libslh.a -o sign_file
./sign_file README.md
cp README.md image
./slh sign --key secret.key --prehash SHA2-256 --message image > image.sig
sed -n 3p public.key | xxd -r -p | xxd -i > public_key.h
cc examples/verify_image.c -I . -I prefix/include prefix/lib/libslh_verify.a -o verify_image
./verify_image image image.sig
"""


def commands():
    section = (HERE / "README.md").read_text().split("\n## Sign and verify\n")[1].split("\n## ")[0]
    lines = [it[4:] for it in section.splitlines() if it.startswith("    ")]
    assert len(lines) == 6, lines
    return "\n".join(["set -e", 'cd "$(dirname "$0")"', *lines, FURTHER])


def has_signed(copy, done, at):
    said = f"valid\ninstalled in {at}/prefix: the release {VERSION}\nvalid\nvalid\n"
    assert (done.output.decode(), done.errors.decode()) == (said, "")
    assert (copy.path / "README.md.sig").stat().st_size


def test_commands_of_readme_and_library(copy):
    need("cc", "openssl", "xxd")
    (copy.path / "try.sh").write_text(commands())
    has_signed(copy, copy.run("bash", "try.sh"), copy.path)


@slow
def test_commands_in_a_root_without_the_kit(copy, in_another_root):
    need("cc", "openssl", "xxd")
    has_signed(copy, in_another_root(commands()), "/copy")


# ---- damaged releases


@slow
@pytest.mark.parametrize("how", ["damaged", "missing"])
@pytest.mark.parametrize("level", ["x86-64", *LEVELS])
def test_program_is_not_run(changed, level, how):
    """Nor another one beside it."""
    changed.harm(f"{level}/slh", how)
    changed.refuses(f"slh: dist/{level}/slh is {how}", *PARAMS)


@pytest.mark.parametrize("file, text", [("BUILD", "sources 0\n"), ("SHA256SUMS", "")], ids=["BUILD", "SHA256SUMS"])
def test_damaged_list_is_not_believed(changed, file, text):
    (changed.dist / file).write_text((changed.dist / file).read_text() + text if text else "")
    changed.refuses("slh: dist/BUILD is damaged", *PARAMS)


OF_LIBRARY = [
    "x86-64/libslh.a", "x86-64/libslh.so.1", "x86-64-v2/libslh_verify.a", "x86-64-v2/libslh.a", "x86-64-v3/libslh.a",
    "x86-64-v4/libslh.a", "include/slh.h"]
OF_LIBRARY_ALONE = [
    "share/cmake/slh-config.cmake", "share/cmake/slh-config-version.cmake.in", "share/man/man3/slh.3"]
OF_INSTALLATION = [
    "x86-64/slh", "x86-64-v2/slh", "x86-64-v3/slh", "x86-64-v4/slh", "share/man/man1/slh.1",
    "share/bash-completion/completions/slh", "share/zsh/site-functions/_slh", "BUILD"]


@slow
@pytest.mark.parametrize("file", [*OF_LIBRARY, *OF_LIBRARY_ALONE])
def test_harmed_library_is_not_installed(changed, file):
    for how in ("damaged", "missing"):
        changed.take_release().harm(file, how)
        changed.refuses(f"library.sh: dist/{file} is {how}", "tools/library.sh", "prefix")
        assert not (changed.path / "prefix").exists()
    changed.refuses(f"library.sh: dist/{file} is missing", "tools/library.sh", "--dist", "dist", "prefix")
    assert not (changed.path / "prefix").exists()


@slow
@pytest.mark.parametrize("file", [*OF_LIBRARY, *OF_INSTALLATION])
@pytest.mark.parametrize("how", ["damaged", "missing"])
def test_harmed_release_is_not_installed(changed, file, how):
    changed.harm(file, how)
    said = f".sh: dist/{file} is damaged" if how == "damaged" else ".sh: there is nothing to install"
    changed.refuses(said, "tools/install.sh", "prefix")
    assert not (changed.path / "prefix").exists()


@pytest.mark.parametrize("words", [[], ["--prefix"]], ids=["none", "an option"])
def test_words_of_the_installation(changed, words):
    changed.refuses("usage:", "tools/install.sh", *words)


TEXTS = ["man/man1/slh.1", "man/man3/slh.3", "bash-completion/completions/slh", "zsh/site-functions/_slh"]
SOURCES_OF_TEXTS = [
    "bindings/cmake/slh-config.cmake", "bindings/cmake/slh-config-version.cmake.in", "bindings/debian/slh.3",
    "bindings/debian/from_help.py", "docs/FORMATS.md"]


def same(one, other):
    return one.read_bytes() == other.read_bytes()


def test_only_files_that_are_listed_are_installed(copy):
    for file in SOURCES_OF_TEXTS:
        copy.append(file, "changed")
    assert copy.run("tools/install.sh", "prefix").errors == b""
    prefix, share = copy.path / "prefix", copy.release / "share"
    for file in (it for it in prefix.rglob("*") if it.is_file()):
        assert b"changed" not in file.read_bytes().splitlines(), file
    assert same(prefix / "lib/cmake/slh/slh-config.cmake", share / "cmake/slh-config.cmake")
    assert all(same(prefix / "share" / it, share / it) for it in TEXTS)


@slow
@pytest.mark.parametrize("path", [
    "../outside.a", "aarch64/../../outside.a", "aarch64/..", "aarch64/../aarch64/libslh.a", "/outside.a",
    "./aarch64/libslh.a", "aarch64/lib slh.a", "aarch64//libslh.a"])
def test_strange_path_is_refused(changed, path):
    """A listed path that leaves dist/, or is no plain path, is refused before anything is run or installed."""
    said = "dist/SHA256SUMS is damaged: it has a line that names no file there"
    outside = changed.path / "outside.a"
    outside.write_bytes((changed.dist / "aarch64/libslh.a").read_bytes())
    path = str(outside) if path.startswith("/") else path
    changed.append("dist/SHA256SUMS", f"{hashlib.sha256(outside.read_bytes()).hexdigest()}  {path}")
    for words in (["--target", "aarch64"], ["--dist", "dist", "--target", "aarch64"], []):
        changed.refuses(f"library.sh: {said}", "tools/library.sh", *words, "prefix")
    changed.refuses(f"install.sh: {said}", "tools/install.sh", "prefix")
    changed.refuses(f"slh: {said}", *PARAMS)
    assert not (changed.path / "prefix").exists()


@pytest.mark.parametrize("name", ["include", "rust", "share", "mips"])
def test_no_other_folder_is_a_target(changed, name):
    changed.refuses(f"library.sh: no target {name}", "tools/library.sh", "--target", name, "prefix")


@slow
@pytest.mark.parametrize("file", ["BUILD", "SHA256SUMS", "the program"])
def test_fifo_is_not_waited_for(changed, file):
    path = changed.dist / (f"{BEST}/slh" if file == "the program" else file)
    path.unlink()
    os.mkfifo(path)
    changed.refuses("slh: ", *PARAMS)
    if file != "the program":
        changed.refuses("library.sh: ", "tools/library.sh", "prefix")
    changed.refuses(".sh: ", "tools/install.sh", "prefix")
    assert not (changed.path / "prefix").exists()


@pytest.mark.parametrize("target, installed, file", [
    ("aarch64", "lib/libslh.a", "libslh.a"), ("wasm64", "lib/slh.wasm", "slh.wasm"),
    ("wasm32", "lib/slh.wasm", "slh.wasm"), ("thumbv6m", "lib/libslh_verify_128.a", "libslh_verify_128.a"),
    ("portable", "src/slh.c", "slh.c")])
def test_library_for_another_machine_is_installed(changed, target, installed, file):
    assert changed.run("tools/library.sh", "--target", target, f"for_{target}").status == 0
    assert same(changed.path / f"for_{target}" / installed, changed.release / target / file)


# ---- which program ./slh runs


def test_other_sources_are_told(copy):
    """Without rt the release is run and installed. With rt it is not."""
    copy.append("crates/slh_core/src/lib.rt", "// changed")
    done = copy.run(*PARAMS)
    assert len(done.output.splitlines()) == 6
    assert re.search("slh: .* the sources differ from it", done.errors.decode())
    done = copy.run("tools/library.sh", "prefix")
    assert re.search("library.sh: .* the sources differ from it", done.errors.decode())
    assert (copy.path / "prefix/lib/libslh.a").is_file()
    done, called = copy.run_with_kit(*PARAMS)
    assert done.status and done.output == b"" and called
    done, called = copy.run_with_kit("tools/library.sh", "other")
    assert done.status and called and not (copy.path / "other").exists()


def test_release_is_run_beside_rt(copy):
    done, called = copy.run_with_kit(*PARAMS)
    assert lists_sets(done) and not called


def test_program_is_built_if_that_is_asked_for(changed):
    done, called = changed.run_with_kit(*PARAMS, SLH_BUILD="1")
    assert (done.status, done.output, called) == (2, b"", True)
    done, called = changed.run_with_kit("tools/library.sh", "prefix", SLH_BUILD="1")
    assert done.status and called and not (changed.path / "prefix").exists()


def test_program_is_built_if_that_of_the_release_is_damaged(changed):
    changed.harm("x86-64-v2/slh", "damaged")
    done, called = changed.run_with_kit(*PARAMS)
    assert done.status and done.output == b"" and called
    assert b"dist/x86-64-v2/slh is damaged" in done.errors


# In place of tools/program.sh: notes its level, and writes a program that prints SLH_CPU and its words.
BUILDER = """#!/bin/sh
echo "$1" >>"$HOME/built"
mkdir -p "${2%/*}" && printf '#!/bin/sh\\necho "$SLH_CPU" "$@"\\n' >"$2" && chmod +x "$2"
"""


class Built:
    """./slh in a copy with stand-ins of rt and tools/program.sh, which build at once."""

    def __init__(self, copy):
        self.copy, self.kit = copy, script(copy.work / "kit/rt", "#!/bin/sh\nexit 0\n").parent
        script(copy.path / "tools/program.sh", BUILDER)

    def built_by(self, level, **variables):
        """The levels that a run has built. It has to run the program of LEVEL with its words."""
        note = self.copy.work / "built"
        note.unlink(missing_ok=True)
        done = self.copy.run(*PARAMS, path=f"{self.kit}:{WITHOUT_KIT}", **variables)
        assert (done.status, done.output.decode()) == (0, f"{level} params\n"), done
        return note.read_text().split() if note.exists() else []


@slow
def test_program_is_built_once(copy):
    """Of other sources than the release's; for each level that is asked for; and again if a source is newer."""
    built = Built(copy)
    assert built.built_by("x86-64-v2") == ["x86-64", "x86-64-v2"]
    assert built.built_by("x86-64-v2") == built.built_by("x86-64-v2", SLH_BUILD="1", SLH_CPU="") == []
    assert built.built_by("x86-64-v3", SLH_CPU="x86-64-v3") == ["x86-64", "x86-64-v3"]
    assert built.built_by("x86-64-v3", SLH_CPU="x86-64-v3") == built.built_by("x86-64-v2") == []
    for file in ("crates/slh_params/src/lib.rt", "c/exports/sha256_x86.c", "tools/program.sh", "crates.txt"):
        future = time.time() + 2
        os.utime(copy.path / file, (future, future))
        assert built.built_by("x86-64-v2") == ["x86-64", "x86-64-v2"], file
        os.utime(copy.path / file, (1, 1))


def test_links_are_followed(changed):
    """./slh is found through symbolic links to it and to its folder, from any folder."""
    for name, to in [("folder", changed.path), ("first", "folder/slh"), ("second", "first")]:
        (changed.work / name).unlink(missing_ok=True)
        (changed.work / name).symlink_to(to)
    assert lists_sets(changed.run("bash", "-c", 'cd / && "$0" params', changed.work / "second"))
    words = 'cd "$0" && PATH=.:$PATH && second params'
    assert lists_sets(changed.run("bash", "-c", words, changed.work))


def test_missing_script_has_status_2(copy):
    (copy.path / "tools/released.sh").unlink()
    copy.refuses("released.sh", *PARAMS)


@pytest.mark.parametrize("level", LEVELS)
def test_program_that_may_not_be_run_has_status_2(changed, level):
    need_level(level)
    (changed.dist / level / "slh").chmod(0o644)
    changed.refuses(f"{level}/slh", *PARAMS, SLH_CPU=level)


def test_change_of_a_test_is_no_change_of_the_sources(copy):
    copy.append("crates/slh_tests/src/lib.rt", "// changed")
    assert lists_sets(copy.run(*PARAMS))


@pytest.mark.parametrize("variables", [{}, {"SLH_BUILD": "1"}], ids=["release", "build"])
def test_unknown_level_is_refused_by_the_script(changed, variables):
    done, called = changed.run_with_kit(*PARAMS, SLH_CPU="v4", **variables)
    assert (done.status, done.output, called) == (2, b"", False)
    assert done.errors == b"slh: SLH_CPU is x86-64-v2, x86-64-v3 or x86-64-v4\n"


def test_level_is_chosen_by_slh_cpu(changed):
    """Of a release whose programs print where they are, by the starter of that release."""
    for level in LEVELS:
        (changed.dist / level / "slh").write_text('#!/bin/sh\nprintf "%s\\n" "$0"\n')
    changed.list_anew()
    for level in HERE_ARE:
        assert changed.run(*PARAMS, SLH_CPU=level).output.decode() == f"{changed.dist}/x86-64/../{level}/slh\n"
    assert changed.run(*PARAMS).output.decode() == f"{changed.dist}/x86-64/../{BEST}/slh\n"


# ---- changed sources, and the time


def says_other(copy):
    done = copy.run(*PARAMS)
    return len(done.output.splitlines()) == 6 and b"the sources differ" in done.errors


def change_unseen(path, text=b""):
    """Changes a letter or digit of a file, that at the text or in its middle, and nothing that `ls -l` shows."""
    before = path.stat()
    data = bytearray(path.read_bytes())
    at = data.index(text) if text else len(data) // 2
    at += re.search(rb"[0-9A-Za-z]", data[at:]).start()
    with open(path, "r+b") as file:
        file.seek(at)
        file.write(b"1" if data[at:at + 1] == b"0" else b"0")
    os.utime(path, ns=(before.st_atime_ns, before.st_mtime_ns))


@slow
@pytest.mark.parametrize("file", [
    "HANDLES", "VERSION", "crates.txt", "c/include/slh.h", "c/starter.c", "tools/kit.py", "tools/program.sh",
    "tools/targets.py", "tools/symbols.sh", "crates/slh/src/main.rt", "crates/slh_params/specs/Lib.antt",
    "crates/slh_params/proofs/Bounds.antt"])
def test_changed_source_is_seen(copy_of_module, file):
    """Though its length and time are as they were."""
    copy, path = copy_of_module.take_release(), copy_of_module.path / file
    was = path.read_bytes()
    try:
        assert lists_sets(copy.run(*PARAMS))
        change_unseen(path)
        assert says_other(copy)
    finally:
        path.write_bytes(was)
    assert lists_sets(copy.run(*PARAMS))


@slow
def test_new_or_missing_source_is_seen(copy):
    more = copy.path / "crates" / "slh/src/more.rt"
    more.write_text("\n")
    assert says_other(copy)
    more.unlink()
    assert lists_sets(copy.run(*PARAMS))
    (copy.path / "crates/slh/src/main.rt").unlink()
    assert says_other(copy)


@slow
@pytest.mark.parametrize("file", ["the program", "BUILD", "SHA256SUMS"])
def test_damage_is_seen(changed, file):
    """Of the program, of the list of hashes, and of the file that says of which sources it is."""
    named = "BUILD" if file == "BUILD" else f"{BEST}/slh"
    text = b""
    if file == "SHA256SUMS":
        text = hashlib.sha256((changed.dist / named).read_bytes()).hexdigest().encode()
    change_unseen(changed.dist / (named if file == "the program" else file), text)
    changed.refuses(f"dist/{named} is damaged", *PARAMS)


@slow
def test_start_takes_little(changed):
    """./slh looks at the hashes of some 1,300 sources at each start. The least of many runs, in processor seconds."""
    def seconds():
        before = os.times()
        assert lists_sets(changed.run(*PARAMS))
        after = os.times()
        return after.children_user + after.children_system - before.children_user - before.children_system

    assert min(seconds() for _ in range(20)) <= 0.2


# ---- the installed program


def best_number():
    return int(BEST[-1])


@pytest.fixture
def installed_release(changed):
    """The prefix of an installation."""
    prefix = changed.path / "pre fix"
    done = changed.run("tools/install.sh", prefix)
    assert (done.output.decode(), done.errors) == (f"installed in {prefix}: the release {VERSION}\n", b"")
    yield prefix
    succeed("rm", "-rf", prefix)


@slow
def test_files_are_installed(installed_release, release):
    assert same(installed_release / "lib/libslh.a", release / "x86-64/libslh.a")
    assert all(same(installed_release / "lib/slh" / it / "slh", release / it / "slh") for it in LEVELS)
    assert same(installed_release / "bin/slh", release / "x86-64/slh")
    for it in TEXTS:
        if "man3" not in it:
            assert b"sign" in (installed_release / "share" / it).read_bytes()


@slow
def test_program_is_found_from_any_folder(installed_release, changed):
    """Through links, by PATH, after it was moved, and under a path with a space."""
    moved, linked, folder = changed.path / "moved #here", changed.work / "linked", changed.path / "folder"
    for it in (linked, folder):
        it.unlink(missing_ok=True)
    installed_release.rename(moved)
    linked.symlink_to(moved / "bin/slh")
    folder.symlink_to("moved #here")
    for it in (moved / "bin/slh", linked, folder / "bin/slh"):
        done = changed.run(it, "vectors", "--file", "tests/vectors/smoke-128f.json")
        assert done.output.splitlines()[-1] == b"passed 6 failed 0"
    assert lists_sets(changed.run("slh", "params", path=f"{folder / 'bin'}:{WITHOUT_KIT}"))
    assert lists_sets(changed.run("bash", "-c", "cd folder/bin && exec -a other ./slh params"))
    succeed("rm", "-rf", moved)


@pytest.fixture
def stand_ins(installed_release, changed):
    """An installation whose builds are scripts. They print their level, the variable IT and their words, and end with
    status 3."""
    for level in LEVELS:
        script(installed_release / f"lib/slh/{level}/slh", f'#!/bin/sh\necho {level[-2:]} "$IT" "$@"\nexit 3\n')
    return StandIns(changed, installed_release / "bin/slh")


class StandIns:
    def __init__(self, copy, program):
        self.copy, self.program = copy, program

    def run_build(self, number, *before, **variables):
        """The installed program runs the build for a level, with its words and variables as they are. A command may
        be before it."""
        done = self.copy.run(*before, self.program, "a  b", "", "c", IT="an  it", **variables)
        assert (done.status, done.output.decode()) == (3, f"v{number} an  it a  b  c\n"), done

    def refuse_processor(self, *before, said="this processor is not of the level x86-64-v2", **variables):
        errors = self.copy.refuses(f"slh: {said}\n", *before, self.program, "params", **variables)
        assert len([it for it in errors.splitlines() if not it.startswith("qemu-x86_64: warning: ")]) == 1

    def judge_level(self, number, *before):
        """The processor is of the level `number`, or below all if that is None: it runs that build, or the one that
        SLH_CPU names of those that it can run."""
        self.run_build(number, *before) if number else self.refuse_processor(*before)
        for asked in (2, 3, 4):
            named = {"SLH_CPU": f"x86-64-v{asked}"}
            if number and asked <= number:
                self.run_build(asked, *before, **named)
            elif number:
                said = f"this processor is not of the level x86-64-v{asked}: unset SLH_CPU"
                self.refuse_processor(*before, said=said, **named)
            else:
                self.refuse_processor(*before, **named)


def test_installed_program_runs_the_build_for_the_processor(stand_ins):
    stand_ins.judge_level(best_number())
    stand_ins.run_build(best_number(), SLH_CPU="")


@pytest.mark.parametrize("name", ["x86-64-v1", "x86-64-v5", "x86-64-v", "x86-64-v22", "x86-64_v2", "v2", "X86-64-v2", " "])
def test_unknown_level_is_refused(stand_ins, name):
    stand_ins.refuse_processor(said="SLH_CPU is x86-64-v2, x86-64-v3 or x86-64-v4", SLH_CPU=name)


def test_variables_of_similar_names_choose_no_level(stand_ins):
    stand_ins.run_build(best_number(), SLH_CPU_="x86-64-v2", SLH_CP="U=x86-64-v2", XSLH_CPU="x86-64-v2", slh_cpu="v1")


EMULATED = {"Nehalem": 2, "Haswell": 3, "core2duo": None,
            **{f"Haswell,-{it}": 2 for it in "avx avx2 bmi1 bmi2 f16c fma abm movbe xsave".split()}}


@slow
@pytest.mark.emulator
@pytest.mark.parametrize("processor_name, number", EMULATED.items(), ids=EMULATED)
def test_build_for_an_emulated_processor(stand_ins, processor_name, number):
    need("qemu-x86_64")
    before = ("qemu-x86_64", "-cpu", processor_name)
    stand_ins.judge_level(number, *before)


@slow
@pytest.mark.parametrize("place, number", enumerate([
    2, 3, 4, 3, 2, 2, 4, None, None, 2, 3, 3, 3, 3, 3]))
def test_build_for_each_processor_of_a_table(stand_ins, place, number):
    """It is compiled for each processor of tests/processors.h. No program hashes all of SHA-256 by SHA instructions."""
    need("cc")
    stand_ins.copy.path.joinpath("chooser").unlink(missing_ok=True)
    succeed("cc", "-std=c11", *STRICT, "-O2", "-ffreestanding", "-fno-stack-protector", "-nostdlib", "-static",
            f"-DPROCESSOR={place}", "c/starter.c", "c/exports/chosen.c", "tests/forced_level.c", "-o",
            stand_ins.program.resolve(), cwd=stand_ins.copy.path)
    stand_ins.judge_level(number)


@slow
@pytest.mark.parametrize("words", [["rm"], ["chmod", "-x"], ["cp", "/dev/null"]], ids=" ".join)
def test_build_that_cant_be_run_has_status_2(stand_ins, words):
    build = f"lib/slh/{BEST}/slh"
    succeed(*words, stand_ins.program.parent.parent / build)
    path = f"{stand_ins.program.resolve().parent}/../{BEST}/slh"
    said = stand_ins.copy.refuses(f"slh: {path} can't be run", stand_ins.program, "params")
    assert len(said.splitlines()) == 1


@slow
def test_installed_program_needs_proc(stand_ins, can_unshare):
    """It finds its own place there."""
    words = 'mount -t tmpfs none /proc && exec "$@"'
    said = stand_ins.copy.refuses("slh: /proc/self/exe can't be read", "unshare", "-rm", "bash", "-c", words, "it",
                                  stand_ins.program, "params")
    assert len(said.splitlines()) == 1


def milliseconds(*words):
    before = time.perf_counter()
    subprocess.run(words, stdout=subprocess.DEVNULL, check=True)
    return 1000 * (time.perf_counter() - before)


@slow
def test_installed_program_starts_soon(installed_release):
    """The least of many runs by turns, since this machine may be busy."""
    build = installed_release / f"lib/slh/{BEST}/slh"
    runs = [(milliseconds(installed_release / "bin/slh", "params"), milliseconds(build, "params")) for _ in range(200)]
    through, direct = map(min, zip(*runs))
    assert through <= 10 and through - direct <= 2


# ---- packages


@slow
def test_packages_of_a_tarball_have_a_date(copy):
    """That of SOURCE_DATE_EPOCH, else that of CHANGELOG.md: there is no .git."""
    need("dpkg-deb", "dpkg-shlibdeps", "strip")
    os.utime(copy.path / "CHANGELOG.md", (1600000000, 1600000000))
    for second, variables in [(1500000000, {"SOURCE_DATE_EPOCH": "1500000000"}), (1600000000, {})]:
        done = copy.run("tools/debian.sh", "debs", **variables)
        assert done.status == 0, done
        package, = (copy.path / "debs").glob("libslh-dev_*.deb")
        files = tarfile.open(fileobj=io.BytesIO(succeed("dpkg-deb", "--fsys-tarfile", package)))
        assert {it.mtime for it in files} == {second}
