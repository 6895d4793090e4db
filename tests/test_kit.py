"""Tests the words of the tools that build by the kit (tools/kit.py, tools/targets.py), without the kit: the names of
targets, the toolchain that rattle is given, and what is refused."""
import os
import sys

import pytest

from copies import script
from support import HERE, Outcome, run

sys.path.append(str(HERE / "tools"))
import kit
import targets


@pytest.fixture
def of_kit(tmp_path):
    """Runs a tool beside a folder that stands in for the kit."""
    script(tmp_path / "kit/bin/rt", "#!/bin/sh\n")
    for it in ("clang", "ld.lld"):
        script(tmp_path / "kit/toolchain/bin" / it, "#!/bin/sh\n")

    def runs(tool, *words):
        return run(HERE / "tools" / tool, *words, env={"PATH": f"{tmp_path / 'kit/bin'}:{os.environ['PATH']}"})

    return runs


def test_names_of_targets():
    """A group is its targets. A release has each target that is made, but for the portable C, and no level alone."""
    assert targets.named("boards") == ["thumbv7em", "thumbv6m", "riscv32imac"]
    assert targets.named("aarch64,boards wasm32") == ["aarch64", *targets.named("boards"), "wasm32"]
    made = {name for name, it in targets.TARGETS.items() if it.makes}
    assert made - {*targets.named("release")} == {"portable", "x86-64-v2", "x86-64-v3", "x86-64-v4"}


def test_each_target_is_one_of_a_table():
    for name, it in targets.TARGETS.items():
        assert {*it.levels, *([it.of] if it.of else []), *([it.small] if it.small else [])} <= {*targets.TARGETS}, name
        assert all((HERE / "c/exports" / file).is_file() for file in it.round), name


@pytest.mark.parametrize("name", ["pdp11", "small-wasm32", "windows-x86-64-v2", "8"])
def test_unknown_target_is_refused(of_kit, tmp_path, name):
    """Also one that is a part of others alone."""
    said = f"tools/targets.py: no target {name}\n".encode()
    assert of_kit("targets.py", f"aarch64,{name}", tmp_path / "made") == Outcome(2, b"", said)
    assert not (tmp_path / "made").exists()


@pytest.mark.parametrize("words", [[], ["aarch64"], ["aarch64", "made", "--loud"], ["toolchain", "made", "pdp11"],
                                   ["toolchain", "made", "aarch64", "8", "large"], ["width", "7", "made"]], ids=" ".join)
def test_unknown_words_are_refused(of_kit, words):
    done = of_kit("targets.py", *words)
    assert (done.status, done.output, done.errors.startswith(b"usage: tools/targets.py TARGET")) == (2, b"", True)


@pytest.mark.parametrize("words, files", [
    (["x86-64-v4"], {"lanes": "3 2", "word": "-march=x86-64-v4", "size": "fast",
                     "rules": "for_single_x86.sed for_pads_x86.sed"}),
    (["wasm64", "1", "small"], {"lanes": "0 0", "word": "-msimd128", "size": "small"}),
    (["aarch64-sha256"], {"lanes": "4 0", "word": "-march=armv8-a+sha2",
                          "rules": "for_sha256_arm.sed for_single_arm.sed for_pads_arm.sed"}),
    (["windows-x86-64-v2"], {"rules": "for_single_x86.sed"}),
    (["x86-64-v2-sha"], {"lanes": "4 1", "word": "-msha"}),
    (["aarch64", "8", "module"], {"lanes": "2 2", "word": "module", "size": "fast", "rules": "for_pads_arm.sed"})], ids=lambda it: " ".join(it))
def test_toolchain_has_what_the_compiler_reads(of_kit, tmp_path, words, files):
    """Its compiler is tools/clang.sh, and all else is the kit's."""
    folder = tmp_path / "made"
    assert of_kit("targets.py", "toolchain", folder, *words) == Outcome(0)
    assert {it: (folder / it).read_text().strip() for it in files} == files
    assert (folder / "bin/clang").resolve() == HERE / "tools/clang.sh"
    assert (folder / "bin/ld.lld").resolve() == (folder / "kit/ld.lld").resolve() == tmp_path / "kit/toolchain/bin/ld.lld"


@pytest.mark.parametrize("tool, words", [("kit.py", ["check", "slh_c"]), ("targets.py", ["aarch64", "made"])])
def test_without_the_kit_nothing_is_built(tool, words):
    if kit.RT != "rt":
        pytest.skip("the Rattle kit is on the path")
    assert run(HERE / "tools" / tool, *words) == Outcome(1, b"", b"rt is not on the path\n")
