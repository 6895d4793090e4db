"""The functions that rules of tools/ exchange for SHA instructions, those of slh_lanes and the compressions of the kit's
`sha2`: what stands in their place computes what the proved ones do, a wrong one is found, and
tools/clang.sh refuses a module that a rule does not know. All is compiled by the kit's clang, and run by qemu. SLH_SEED
draws the words that they get.
"""
import os
import re
import sys

import pytest

import machines
from conftest import STRICT
from machines import counted
from support import HERE, TESTS, need, run, succeed, tool_of

sys.path.append(str(HERE / "tools"))
import targets

pytestmark = [pytest.mark.slow, pytest.mark.emulator]
RULES = {"aarch64": [HERE / "tools" / it for it in ("for_sha256_arm.sed", "for_sha512_arm.sed")],
         "x86-64": [HERE / "tools/for_sha256_x86.sed"]}
SINGLE, LONG_SINGLE = "sha2::block256::compress", "sha2::block512::compress"
OF_X86 = HERE / "c/exports/sha256_x86.c"
OWN = "slh_lanes::instructions::"
TRIES = 1_000_000
ROUNDS, WORDS = "ptr %to, ptr %state, ptr %sums", "ptr %to, ptr %a, ptr %b, ptr %c, ptr %d"
FUNCTIONS = {f"{OWN}{name}": it for name, it in
             {"four_rounds": ROUNDS, "two_rounds": ROUNDS, "next_words": WORDS, "next_pair": WORDS}.items()}
# Wrong rules: what stands in a rule, and what in its place.
WRONG = {"aarch64": [
    ("sha256h(<4 x i32> %abcd, <4 x i32> %efgh", "sha256h(<4 x i32> %efgh, <4 x i32> %abcd"),
    ("sha256h2(<4 x i32> %efgh, <4 x i32> %abcd", "sha256h2(<4 x i32> %abcd, <4 x i32> %efgh"),
    ("sha256su0(<4 x i32> %w0, <4 x i32> %w1)", "sha256su0(<4 x i32> %w0, <4 x i32> %w2)"),
    ("<4 x i32> %half, <4 x i32> %w2, <4 x i32> %w3)", "<4 x i32> %half, <4 x i32> %w3, <4 x i32> %w2)"),
    ("store <4 x i32> %high", "store <4 x i32> %efgh"),
    ("<2 x i64> %sum, <2 x i64> %fg, <2 x i64> %de", "<2 x i64> %sum, <2 x i64> %de, <2 x i64> %fg"),
    ("<2 x i64> %half, <2 x i64> %cd, <2 x i64> %ab", "<2 x i64> %half, <2 x i64> %ab, <2 x i64> %cd"),
    ("<2 x i32> <i32 1, i32 0>", "<2 x i32> <i32 0, i32 1>"),
    ("store <2 x i64> %next.ef", "store <2 x i64> %half"),
    ("sha512su0(<2 x i64> %w0, <2 x i64> %w2)", "sha512su0(<2 x i64> %w0, <2 x i64> %w9)"),
    ("<2 x i64> %half, <2 x i64> %w14, <2 x i64> %w9", "<2 x i64> %half, <2 x i64> %w9, <2 x i64> %w14"),
], "x86-64": [
    ("<4 x i32> <i32 5, i32 4, i32 1, i32 0>", "<4 x i32> <i32 5, i32 4, i32 0, i32 1>"),
    ("<4 x i32> <i32 7, i32 6, i32 3, i32 2>", "<4 x i32> <i32 6, i32 7, i32 3, i32 2>"),
    ("<i32 2, i32 3, i32 poison, i32 poison>", "<i32 3, i32 2, i32 poison, i32 poison>"),
    ("(<4 x i32> %cdgh, <4 x i32> %abef, <4 x i32> %x)", "(<4 x i32> %abef, <4 x i32> %cdgh, <4 x i32> %x)"),
    ("(<4 x i32> %abef, <4 x i32> %c1, <4 x i32> %y)", "(<4 x i32> %abef, <4 x i32> %c1, <4 x i32> %x)"),
    ("<4 x i32> <i32 3, i32 2, i32 7, i32 6>", "<4 x i32> <i32 3, i32 2, i32 6, i32 7>"),
    ("<4 x i32> <i32 1, i32 0, i32 5, i32 4>", "<4 x i32> <i32 0, i32 1, i32 5, i32 4>"),
    ("sha256msg1(<4 x i32> %w0, <4 x i32> %w1)", "sha256msg1(<4 x i32> %w0, <4 x i32> %w2)"),
    ("<4 x i32> <i32 1, i32 2, i32 3, i32 4>", "<4 x i32> <i32 0, i32 1, i32 2, i32 3>"),
    ("add <4 x i32> %half, %seven", "add <4 x i32> %half, %w2"),
    ("sha256msg2(<4 x i32> %most, <4 x i32> %w3)", "sha256msg2(<4 x i32> %most, <4 x i32> %w2)"),
]}

# The same of the files that hash single messages.
SINGLES = {"aarch64": HERE / "c/exports/sha2_arm.c", "x86-64": OF_X86}
WRONG_SINGLES = {"aarch64": [
    ("3, 2, 1, 0, 7, 6, 5, 4,", "0, 1, 2, 3, 7, 6, 5, 4,"),
    ("(bytes)w0, (bytes)w4, U32X4", "(bytes)w4, (bytes)w0, U32X4"),
    ("(bytes)w8, (bytes)w12, U32X4", "(bytes)w12, (bytes)w8, U32X4"),
    ("(bytes)it.abcd, (bytes)it.efgh, (bytes)sums", "(bytes)it.efgh, (bytes)it.abcd, (bytes)sums"),
    ("(bytes)it.efgh, (bytes)it.abcd, (bytes)sums", "(bytes)it.abcd, (bytes)it.efgh, (bytes)sums"),
    ("to[1] += it.efgh", "to[1] = it.efgh"),
    ("0xc67178f2,", "0xc67178f3,"),
    ("(k + 4 * i)", "(k + 4 * i + !i)"),
    ("7, 6, 5, 4, 3, 2, 1, 0, 15,", "6, 7, 5, 4, 3, 2, 1, 0, 15,"),
    ("(x, y, 1, 2)", "(x, y, 0, 3)"),
    ("(bytes)w0, (bytes)w2, U64X2", "(bytes)w2, (bytes)w0, U64X2"),
    ("between(w8, w10)", "between(w10, w8)"),
    ("(sums, sums, 1, 0)", "(sums, sums, 0, 1)"),
    ("(bytes)fg, (bytes)de", "(bytes)de, (bytes)fg"),
    ("(bytes)it.cd, (bytes)it.ab", "(bytes)it.ab, (bytes)it.cd"),
    ("it.cd + half, it.ef}", "half, it.ef}"),
    ("to[3] += it.gh", "to[3] = it.gh"),
    ("0x6c44198c4a475817,", "0x6c44198c4a475816,"),
], "x86-64": [
    ("at[1], 5, 4, 1, 0)", "at[1], 4, 5, 1, 0)"),
    ("at[1], 7, 6, 3, 2)", "at[1], 7, 6, 2, 3)"),
    ("it.cdgh, 3, 2, 7, 6)", "it.cdgh, 3, 2, 6, 7)"),
    ("at[1] += ", "at[1] = "),
    ("3, 2, 1, 0, 7, 6, 5, 4,", "0, 1, 2, 3, 7, 6, 5, 4,"),
    ("(w8, w12, 1, 2, 3, 4)", "(w8, w12, 0, 1, 2, 3)"),
    ("sha256msg1(w0, w4)", "sha256msg1(w4, w0)"),
    (" + seven_before, w12)", " + seven_before, w8)"),
    ("(it.cdgh, it.abef, sums), it.abef}", "(it.abef, it.cdgh, sums), it.abef}"),
    ("(sums, sums, 2, 3, 2, 3)", "(sums, sums, 3, 2, 3, 2)"),
    ("0xc67178f2", "0xc67178f3"),
    ("(k + 4 * i)", "(k + 4 * i + !i)"),
]}


@pytest.fixture(scope="module")
def module(checked, tmp_path_factory):
    """The text of the proved module of slh_c_verify."""
    folder = tmp_path_factory.mktemp("module")
    succeed(HERE / "tools/targets.py", "toolchain", folder / "toolchain", "x86-64", "8", "module")
    words = succeed(HERE / "tools/kit.py", "build", "slh_c_verify", folder / "toolchain").decode().splitlines()
    succeed(*words, "-o", folder / "none.a", cwd=HERE / "crates/slh_c_verify", timeout=3600)
    return (folder / "toolchain/module.ll").read_text()


def clang_of_kit():
    return succeed(HERE / "tools/kit.py", "path", "toolchain/bin/clang").decode().strip()


def by_rules(text, rules):
    """The text of a module after these rules."""
    for it in rules:
        text = succeed("sed", "-E", "-f", it, stdin=text.encode()).decode()
    return text


def functions_below(text, names):
    """The texts of functions of a module, and of those that they call."""
    defined = {it[1]: it[0] for it in re.finditer(r'^define [^\n]*?@"([^"]+)"\(.*?^\}', text, re.M | re.S)}
    found, asked = {}, list(names)
    while asked:
        it = asked.pop()
        if it not in found and it in defined:
            found[it] = defined[it]
            asked += re.findall(r'@"([^"]+)"\(', defined[it])
    return found.values()


def extract(text, prefix, functions):
    """A module of these functions alone, with their parameters, and a function round each whose name has a PREFIX."""
    text = by_rules(text, [HERE / "tools/for_machine.sed"])
    lines = [re.sub(r"^define (internal |private |hidden )*", "define internal ", it)
             for it in functions_below(text, functions)]
    lines += [f'define void @{prefix}_{name.split("::")[-1]}({it}) {{\n  call void @"{name}"({it})\n  ret void\n}}'
              for name, it in functions.items()]
    lines += re.findall(r"^(?:declare .*@llvm|attributes|!|@).*", text, re.M)
    return "\n".join(lines) + "\n"


@pytest.fixture(scope="module")
def compare(module, tmp_path_factory):
    """Compiles the program that compares the proved functions with what rules for a processor make of them:
    compare(PROCESSOR, RULES) is the command."""
    folder, clang = tmp_path_factory.mktemp("compare"), clang_of_kit()

    def compares(processor, rules):
        cc, emulator, words = {
            "aarch64": lambda: (machines.cross_compiler("aarch64", "aarch64-linux-gnu"), [machines.qemu("aarch64")],
                                ["--target=aarch64-unknown-linux-gnu", "-march=armv8-a+sha2+sha3"]),
            "x86-64": lambda: (tool_of("cc"), machines.qemu_with_sha("Denverton"),
                               ["--target=x86_64-unknown-linux-gnu", "-march=x86-64-v2", "-msha"])}[processor]()
        need(cc)
        for prefix, text in (("model", module), ("rule", by_rules(module, rules))):
            (folder / f"{prefix}.ll").write_text(extract(text, prefix, FUNCTIONS))
            succeed(clang, *words, "-O2", "-Wno-override-module", "-c", "-x", "ir", folder / f"{prefix}.ll", "-o",
                    folder / f"{prefix}.o")
        succeed(cc, "-std=c11", *STRICT, "-O1", "-static", TESTS / "sha_instructions.c", folder / "model.o",
                folder / "rule.o", "-o", folder / "program")
        return [*emulator, folder / "program"]

    return compares


def seed():
    return os.environ["SLH_SEED"] if os.environ["SLH_SEED"].isdigit() else "1"


@pytest.mark.parametrize("processor", RULES)
def test_rules_compute_what_is_proved(compare, processor):
    counted(*compare(processor, RULES[processor]), str(TRIES), seed())


@pytest.mark.parametrize("processor, before, after", [(name, *it) for name, found in WRONG.items() for it in found])
def test_wrong_rule_is_found(compare, tmp_path, processor, before, after):
    texts = {it.name: it.read_text() for it in RULES[processor]}
    assert sum(it.count(before) for it in texts.values()) == 1
    for name, text in texts.items():
        (tmp_path / name).write_text(text.replace(before, after))
    done = run(*compare(processor, [tmp_path / it for it in texts]), "1000", "1")
    assert done.status == 1 and not done.output.endswith(b" 0 failed\n")


@pytest.fixture(scope="module")
def compare_blocks(module, tmp_path_factory):
    """Compiles the program that compares blocks by the proved functions with the same by C: compare_blocks(PROCESSOR,
    FILE) is the command."""
    folder, clang = tmp_path_factory.mktemp("blocks"), clang_of_kit()
    for prefix, name in (("model", SINGLE), ("long_model", LONG_SINGLE)):
        (folder / f"{prefix}.ll").write_text(extract(module, prefix, {name: "ptr %to, ptr %block, i64 %len"}))

    def compares(processor, file):
        cc, emulator, target, prefixes = {
            "aarch64": lambda: (machines.cross_compiler("aarch64", "aarch64-linux-gnu"), [machines.qemu("aarch64")],
                                "aarch64-unknown-linux-gnu", ["model", "long_model"]),
            "x86-64": lambda: (tool_of("cc"), machines.qemu_with_sha("EPYC"), "x86_64-unknown-linux-gnu", ["model"]),
        }[processor]()
        need(cc)
        models = [folder / f"{it}.{processor}.o" for it in prefixes]
        for prefix, model in zip(prefixes, models):
            if not model.exists():
                succeed(clang, f"--target={target}", "-O2", "-Wno-override-module", "-c", "-x", "ir",
                        folder / f"{prefix}.ll", "-o", model)
        succeed(clang, f"--target={target}", *targets.AS_EXPORTS, "-fPIC", "-I", ".", "-c", file, "-o",
                folder / "single.o", cwd=HERE / "c/exports")
        succeed(cc, "-std=c11", *STRICT, "-O1", "-static", TESTS / "sha_blocks.c", *models, folder / "single.o",
                "-o", folder / "program")
        return [*emulator, folder / "program"]

    return compares


@pytest.mark.parametrize("processor", SINGLES)
def test_block_by_c_is_what_is_proved(compare_blocks, processor):
    counted(*compare_blocks(processor, SINGLES[processor]), str(TRIES), seed())


@pytest.mark.parametrize("processor, before, after",
                         [(name, *it) for name, found in WRONG_SINGLES.items() for it in found])
def test_wrong_block_by_c_is_found(compare_blocks, tmp_path, processor, before, after):
    text = SINGLES[processor].read_text()
    assert text.count(before) == 1
    (tmp_path / "wrong.c").write_text(text.replace(before, after))
    done = run(*compare_blocks(processor, tmp_path / "wrong.c"), "1000", "1")
    assert done.status == 1 and not done.output.endswith(b" 0 failed\n")


def with_another_name(module, name):
    return module.replace(f'"{name}"', f'"{name}_2"')


def with_other_parameters(module, name):
    return module.replace(f'@"{name}"(ptr noundef %a0', f'@"{name}"(ptr %a0', 1)


@pytest.mark.parametrize("name, target", [
    *((it, "aarch64-sha512") for it in FUNCTIONS), *((it, "x86-64-v2-sha") for it in [*FUNCTIONS][::2]),
    (SINGLE, "x86-64-v3"), (SINGLE, "aarch64-sha256"), (LONG_SINGLE, "aarch64-sha512")])
@pytest.mark.parametrize("change", [with_another_name, with_other_parameters])
def test_module_that_a_rule_does_not_know_is_refused(module, tmp_path, name, target, change):
    """tools/clang.sh compiles nothing then."""
    changed = change(module, name)
    assert changed != module
    succeed(HERE / "tools/targets.py", "toolchain", tmp_path / "made", "x86-64", target, "module")
    (tmp_path / "module.bc").write_text(changed)
    done = run(tmp_path / "made/bin/clang", "--target=x86_64-unknown-linux-gnu", tmp_path / "module.bc", "-o",
               tmp_path / "none.o", cwd=tmp_path)
    assert done.status == 2 and b"tools/clang.sh: the module does not have" in done.errors
    assert not (tmp_path / "none.o").exists()
