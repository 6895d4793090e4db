"""Builds the library for C from source, by cargo and stock rustc without the kit (tools/library.sh --from-source), and
tests it as it is installed, for x86-64-v3 or, if it is drawn, for x86-64-v2:

- It passes each test of tests/vectors (library_vectors.py), and the tests of the library that need nothing of the kit.
- Key generation, signing and verifying of 128f take at most 1.1 of the instructions of tests/instructions.txt.
- What stands in the way of a build is named.

The crates are Debian's, and no network is used. `pytest --all` also does so in a new Debian 13, by the lines of the
page: this takes 2 GB of the folder for temporary files, and downloads 200 MB the first time.
"""
import os
import pathlib
import platform
import re
import shutil
import sys

import pytest

import library_vectors
from packages import text_of
from support import HERE, TESTS, best_level, block_of, callgrind, need, passed_by, run, succeed

LEAST_RUSTC = 1, 85
MOST_INSTRUCTIONS = 1.1
PAGE = "tools/plain_rust/README.md"
SOURCES = ["bindings", "c", "crates", "crates.txt", "docs", "examples", "tests", "tools", "CHANGELOG.md",
           "CMakeLists.txt", "LICENSE-APACHE", "LICENSE-MIT", "README.md", "SECURITY.md", "VERSION"]
CRATES = ["sha2", "arrayvec", "rand_core", "thiserror", "getrandom", "zeroize"]
SKIPPED = "the library was built from source (tools/plain_rust/README.md tells what it lacks)"
# For each target of rustc Debian's name of the machine, that of its compiler, and that of qemu.
MACHINES = {"aarch64-unknown-linux-gnu": ("arm64", "aarch64-linux-gnu", "aarch64"),
            "riscv64gc-unknown-linux-gnu": ("riscv64", "riscv64-linux-gnu", "riscv64"),
            "armv7-unknown-linux-gnueabihf": ("armhf", "arm-linux-gnueabihf", "arm"),
            "s390x-unknown-linux-gnu": ("s390x", "s390x-linux-gnu", "s390x")}
# Unpacks rustc's library for the machine $0. The packages that Debian installs with it are for programs there. A list of
# packages that the mirror lacks for the machine is not needed.
UNPACK = """
version=$(dpkg-query -W -f '${Version}' libstd-rust-dev)
mkdir -p "$0" && cd "$0"
dpkg --add-architecture "$0"
apt-get -q update || true
apt-get -q -o APT::Sandbox::User=root download "libstd-rust-dev:$0=$version"
dpkg --remove-architecture "$0"
dpkg-deb -x libstd-rust-dev_*.deb /
"""
PROGRAM = """#include <slh.h>
#include <stdio.h>
int main(void) {
    size_t pk, sk, sig, n;
    return slh_lengths(SLH_DSA_SHA2_128S, &pk, &sk, &sig, &n) != SLH_DONE || printf("%zu\\n", sig) < 0;
}
"""
# The commands that the scripts use, besides the tools that a test removes or replaces.
TOOLS = ["awk", "bash", "basename", "cat", "cp", "cut", "dirname", "env", "grep", "head", "install", "ld", "ln",
         "mkdir", "mktemp", "python3", "rm", "sed", "sort", "tr", "uname"]


def need_rust():
    """Skips without cargo, rustfmt, rustc 1.85 and Debian's crates."""
    need("cargo", "rustc", "rustfmt", "cc")
    version = re.search(r"(\d+)\.(\d+)", succeed("rustc", "--version").decode())
    if tuple(map(int, version.groups())) < LEAST_RUSTC:
        pytest.skip("rustc is older than 1.85 (Debian 13 has it in the package rustc)")
    for crate in CRATES:
        if not os.path.exists("/usr/share/cargo/registry") or not [
                it for it in os.listdir("/usr/share/cargo/registry") if re.match(rf"{crate}-\d", it)]:
            pytest.skip(f"there is no {crate} (to be had by librust-{crate.replace('_', '-')}-dev)")


def installs(*words, **options):
    """The outcome of the command that builds from source and installs."""
    return run(HERE / "tools/library.sh", "--from-source", *words, timeout=3600, **options)


# ---- the library


def levels():
    """The levels for which the library is built: one of them is drawn. Other machines have none."""
    if platform.machine() != "x86_64":
        return ["default"]
    return ["x86-64-v3", "x86-64-v2"] if best_level() >= 3 else ["x86-64-v2"]


@pytest.fixture(scope="module", params=[
    pytest.param(it, marks=pytest.mark.drawn("the level of plain Rust", "level")) for it in levels()])
def level(request):
    return request.param


@pytest.fixture(scope="module")
def prefix(level, tmp_path_factory):
    need_rust()
    folder = tmp_path_factory.mktemp("source") / "prefix"
    flags = {} if level == "default" else {"RUSTFLAGS": f"-C target-cpu={level}"}
    outcome = installs(folder, env={**os.environ, "CARGO_BUILD_JOBS": "2", **flags})
    assert outcome.status == 0, text_of(outcome)[-4000:]
    return folder


def rows():
    """The tests of tests/vectors, each a case by its file and its number there. Its kind is not in the name, so that
    `-k verify`, which takes seconds elsewhere, builds no library here."""
    for file, number, test in library_vectors.all_tests():
        name = pathlib.Path(file).stem.removeprefix("slh-dsa-sha2-").replace("smoke", "few")
        yield pytest.param(test, id=f"{name} {number}{' faults' * (test['kind'] == 'faults')}")


@pytest.mark.slow
@pytest.mark.parametrize("row", rows())
def test_row(pytestconfig, prefix, monkeypatch, row):
    """Each test of each vector file passes. Sets whose names end in s sign by the first call alone, and with --all by
    jobs and by digests, too: the code for these is that of the other sets."""
    monkeypatch.setattr(library_vectors, "library", library_vectors.loaded(prefix / "lib/libslh.so"))
    monkeypatch.setattr(library_vectors, "is_brief", not pytestconfig.option.all)
    assert library_vectors.passes(row)


@pytest.mark.slow
def test_128f_takes_few_instructions(prefix, level, compiled, tmp_path):
    """Keys, signing and verifying: at most 1.1 of those of libslh."""
    need("valgrind", "cc")
    table = [line.split() for line in (TESTS / "instructions.txt").read_text().splitlines()]
    wanted = {f"{task} {of_set}": int(count) for it, task, of_set, count in table if f"x86-64-{it}" == level}
    if not wanted:
        pytest.skip(f"tests/instructions.txt has no counts for {level} (only for x86-64)")
    program = compiled("instructions", "-std=c11", "-O1", "-I", HERE / "c/include",
                       TESTS / "library_instructions.c", prefix / "lib/libslh.a")
    counted = dict(callgrind(tmp_path, program)[1])
    ratios = {it: counted[it] / wanted[it] for it in ("keygen 128f", "sign 128f", "verify 128f")}
    assert max(ratios.values()) <= MOST_INSTRUCTIONS, ratios


@pytest.mark.slow
@pytest.mark.parametrize("file, few", [("test_library.py", ["-m", "not slow"]), ("test_examples.py", [])])
def test_library_passes_its_tests(pytestconfig, prefix, file, few):
    """Of the library a few of each kind, and with --all all. Those that are skipped need what only the kit's build has.
    The examples link it with programs of C, C++ and Rust, and load it in Python."""
    words = ["--all"] if pytestconfig.option.all else few
    outcome = run(sys.executable, "-m", "pytest", "-q", "-rs", "-p", "no:cacheprovider", f"--prefix={prefix}", *words,
                  HERE / "tests" / file, cwd=HERE, timeout=3600)
    text = text_of(outcome)
    counts = re.search(r"^(\d+) passed, 0 failed, (\d+) skipped\n\Z", text, re.M)
    assert outcome.status == 0 and counts and int(counts[1]) > 10, text[-4000:]
    skips = re.findall(r"^SKIPPED \[(\d+)\] .*?: (.*)$", text, re.M)
    assert sum(int(it) for it, why in skips if why == SKIPPED) >= 1, skips


@pytest.mark.slow
def test_program_runs_with_the_shared_object(prefix, tmp_path):
    """It asks for calls with the version of their symbols, as a program that was linked with the kit's."""
    need("nm")
    (tmp_path / "it.c").write_text(PROGRAM)
    succeed("cc", f"-I{prefix}/include", tmp_path / "it.c", f"-L{prefix}/lib", "-lslh", "-o", tmp_path / "it")
    assert succeed(tmp_path / "it", env={**os.environ, "LD_LIBRARY_PATH": f"{prefix}/lib"}) == b"7856\n"
    major = (HERE / "VERSION").read_text().split(".")[0]
    assert f"U slh_lengths@SLH_{major}\n" in succeed("nm", "-D", tmp_path / "it").decode()


@pytest.mark.slow
def test_package_says_how_it_was_built(prefix):
    need("pkg-config")
    said = succeed("env", f"PKG_CONFIG_PATH={prefix}/lib/pkgconfig", "pkg-config", "--variable=build", "slh").decode()
    assert said == f"built from source by {succeed('rustc', '--version').decode()}"


# ---- a new Debian 13


@pytest.fixture(scope="module")
def debian_13(debian):
    """A Debian 13 with the sources, without dist/ and work of the kit, and with the packages that the page names."""
    made = debian("trixie", "openssl")
    copied = succeed("tar", "-C", HERE, "-c", "--exclude=out", "--exclude=target", *SOURCES)
    succeed("tar", "-C", made.top / "slh", "-x", stdin=copied)
    (made.top / "slh/apt.conf").write_text('APT::Get::Assume-Yes "true";\nAPT::Install-Recommends "false";\n')
    made.succeed("apt-get", "-q", "update")
    runs_block(made, 1)
    return made


def runs_block(root, number):
    """What a block of lines of the page prints there."""
    return root.succeed("env", "DEBIAN_FRONTEND=noninteractive", "APT_CONFIG=/slh/apt.conf", "bash", "-e", "-c",
                        block_of(PAGE, "On Debian 13, without a network", number))


def test_debian_13_has_neither_the_kit_nor_a_release(debian_13):
    debian_13.succeed("sh", "-c", "! command -v rt && [ ! -e dist ]")


def test_debian_13_builds_a_library_with_the_values_of_the_vectors(debian_13):
    debian_13.succeed("tools/library.sh", "--from-source", "/slh/made")
    assert passed_by(debian_13.run("python3", "tests/library_vectors.py", "made/lib/libslh.so", "tests/vectors"))


def test_debian_13_runs_the_program_of_the_page(debian_13):
    """It signs."""
    assert runs_block(debian_13, 2).splitlines()[-1] == b"17088 bytes, valid"


def test_debian_13_builds_the_source_package(debian_13):
    """And lintian finds no error in its packages."""
    debian_13.install("build-essential", "debhelper", "lintian")
    debian_13.succeed("tools/source_package.sh", "/slh/package")
    debian_13.succeed("bash", "-e", "-c", "cd package/slh-*/ && dpkg-buildpackage -us -uc -b")
    debian_13.succeed("bash", "-e", "-c", "cd package && lintian --allow-root --fail-on error -- *.changes")


def cargo_there(root, *words):
    """Runs cargo in the workspace, which is written if it is not there."""
    script = """
    [ -e rust ] || { mkdir -p rust/.cargo && tools/plain_rust.py rust/plain_rust; }
    printf '[source.crates-io]\nreplace-with = "debian"\n[source.debian]\ndirectory = "/usr/share/cargo/registry"\n' \
        >rust/.cargo/config.toml
    cd "rust/plain_rust/$0" && cargo "$@" --offline
    """
    root.succeed("bash", "-e", "-c", script, *words)


def test_debian_13_compiles_the_crate_for_no_system(debian_13):
    """For WebAssembly, without `std`. Nothing runs."""
    debian_13.install("libstd-rust-dev-wasm32")
    cargo_there(debian_13, "slh", "check", "--no-default-features", "--features", "zeroize", "--target",
                "wasm32-unknown-unknown")


def test_debian_13_has_the_traits_of_signature(debian_13):
    """The tests of the crate slh-signature pass over the crate from source."""
    debian_13.install("librust-signature-dev")
    cargo_there(debian_13, "slh-signature", "test")


@pytest.mark.emulator
@pytest.mark.parametrize("target", MACHINES)
def test_debian_13_builds_a_library_for_another_machine(debian_13, target):
    """By Debian's rustc, with its library for that machine, and qemu runs the vectors. On s390x numbers begin with their
    highest byte."""
    machine, compiler, emulator = MACHINES[target]
    debian_13.install(f"gcc-{compiler}", f"libc6-dev-{machine}-cross", "qemu-user")
    debian_13.succeed("bash", "-e", "-c", UNPACK, machine)
    debian_13.succeed("tools/library.sh", "--from-source", "--target", target, f"/slh/{machine}")
    debian_13.succeed(f"{compiler}-gcc", "-std=c99", "-O1", "-static", "-I", f"{machine}/include",
                      "tests/target_calls.c", f"{machine}/lib/libslh.a", "-o", f"{machine}/calls")
    assert passed_by(debian_13.run("python3", "tests/library_vectors.py", "--through",
                                   f"qemu-{emulator} {machine}/calls", "tests/vectors"))


# ---- missing tools and crates


@pytest.fixture
def path(tmp_path):
    """A folder for PATH with the tools that the scripts take, and without cargo and rustc."""
    folder = tmp_path / "path"
    folder.mkdir()
    for tool in TOOLS:
        need(tool)
        (folder / tool).symlink_to(shutil.which(tool))
    return folder


def stub(folder, name, text):
    (folder / name).write_text(f"#!/bin/sh\n{text}\n")
    (folder / name).chmod(0o755)


NEEDED = "1.85 or later is needed (Debian 13 has it in the package {}; elsewhere rustup installs it)"


def is_refused(outcome, words, prefix):
    """The command names what is missing, and installs nothing."""
    assert outcome.status == 2 and words in outcome.errors.decode(), text_of(outcome)[-4000:]
    assert not prefix.exists()
    return True


def test_without_cargo(path, tmp_path):
    outcome = installs(tmp_path / "prefix", env={"PATH": str(path)})
    assert is_refused(outcome, f"there is no cargo: {NEEDED.format('cargo')}", tmp_path / "prefix")


@pytest.mark.parametrize("version", ["1.84.1 (e71f9a9a9 2025-01-27)", "1.63.0"])
@pytest.mark.parametrize("tool", ["cargo", "rustc"])
def test_old_rust(path, tmp_path, tool, version):
    for name in ("cargo", "rustc"):
        stub(path, name, f"echo '{name} {version if name == tool else '1.85.0'}'")
    outcome = installs(tmp_path / "prefix", env={"PATH": str(path)})
    said = f"tools/from_source.sh: {tool} {version.split()[0]} is too old: {NEEDED.format(tool)}\n"
    assert is_refused(outcome, said, tmp_path / "prefix") and outcome.errors.decode() == said


def test_target_without_a_library(tmp_path):
    need_rust()
    outcome = installs("--target", "loongarch64-unknown-linux-gnu", tmp_path / "prefix", env={**os.environ, "CC": "cc"})
    assert is_refused(outcome, "rustc has no library for loongarch64-unknown-linux-gnu", tmp_path / "prefix")


def test_unknown_target(tmp_path):
    need_rust()
    outcome = installs("--target", "pdp11-unknown-linux-gnu", tmp_path / "prefix", env={**os.environ, "CC": "cc"})
    assert is_refused(outcome, "rustc has no library for pdp11-unknown-linux-gnu", tmp_path / "prefix")


def test_crates_that_are_not_found(tmp_path):
    """There is neither Debian's folder nor a network."""
    need_rust()
    env = {**os.environ, "SLH_CRATES": str(tmp_path), "CARGO_HOME": str(tmp_path / "cargo"), "CARGO_NET_OFFLINE": "true"}
    outcome = installs(tmp_path / "prefix", env=env)
    assert is_refused(outcome, f"cargo does not find the crates {' '.join(CRATES)} (Debian: librust-sha2-dev",
                      tmp_path / "prefix")
