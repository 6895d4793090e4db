#!/usr/bin/env python3
"""What a step of a WOTS+ chain takes on x86-64 processors by llvm-mca's model of them, in cycles: in lanes, and by SHA
instructions. It is no measurement.

Usage: tests/benches/x86_model.py LIBSLH.A..     LLVM_MCA names another program than llvm-mca-19

LIBSLH.A is libslh-v2.a, -v3.a or -v4.a; libslh.a, of which the step by SHA instructions is taken; or without the kit
cargo's libslh.a of the crates of tools/plain_rust.py, if RUSTFLAGS has `-C target-cpu=x86-64-v3`. It takes n = 16. The
loop over the steps of a chain has no branch, so the model takes it as the library has it. Two chains side by side, which
the library lacks, are clang's of sha_ni_steps.c. A step needs the value of the one before, and the model sees that. It knows no cache and no memory. For Zen 1 and 2 it has 100 cycles for sha256msg2:
pmulld, with 4 cycles, replaces that. An archive of the kit also has the compression of single messages, by `sha2`.
"""
import os
import pathlib
import re
import subprocess
import sys

ZENS = ["znver1", "znver2", "znver3", "znver4"]
PROCESSORS = ["goldmont", *ZENS, "icelake-server", "alderlake"]
# What a processor of LLVM's has: others are not asked for the code of a level.
LACKING = {"v3": {"goldmont"}, "v4": {*PROCESSORS} - {"znver4", "icelake-server"}}
OF_CHAINS = re.compile(r"slh_lanes::chains::run\b|slh_lanes::chains::run_known")
OF_SHA2 = re.compile(r"sha2::block256::compress$")
BRANCH, JUMP = re.compile(r"(j\w+|call|ret)\b"), re.compile(r"j\w+ +([0-9a-f]+)")
IDLE = re.compile(r"(nop|data16|cs nop|xchg +%ax,%ax|push|pop)")
# A loop over steps has more instructions than this, and nothing else of its function has.
LOOP = 1000
LANES = {"%zmm": ("v4", 16), "%ymm": ("v3", 8), "%xmm": ("v2", 4)}
WORDS = ["-O3", "-S", "-ffreestanding", "-fno-asynchronous-unwind-tables", "-march=x86-64-v2", "-msha", "-o", "-"]


def output(*words, **options):
    return subprocess.run(words, stdout=subprocess.PIPE, text=True, check=True, **options).stdout


def functions(archive):
    """The instructions of each function, with their addresses, and its name. Names may come several times."""
    for part in output("objdump", "-d", "-C", "--no-show-raw-insn", archive).split("\n\n"):
        head = re.match(r"[0-9a-f]+ <(.*)>:\n", part)
        if head:
            lines = re.findall(r"^ +([0-9a-f]+):\t(.*)$", part, re.M)
            yield head[1], [(int(place, 16), re.sub(r"\s*(#.*|<.*>)$", "", text)) for place, text in lines]


def blocks(lines):
    """The instructions between branches and their targets."""
    targets = {int(it[1], 16) for _, text in lines for it in [JUMP.match(text)] if it}
    found = [[]]
    for place, text in lines:
        if place in targets:
            found.append([])
        if BRANCH.match(text):
            found.append([])
        elif not IDLE.match(text):
            found[-1].append(text)
    return [it for it in found if it]


def cycles(processor, code):
    """The cycles of a block that is run again and again."""
    if processor in ("znver1", "znver2"):
        code = [it.replace("sha256msg2", "pmulld") for it in code]
    words = ["-mtriple=x86_64", f"-mcpu={processor}", "-mattr=+sha,+avx512f,+avx512bw,+avx512dq,+avx512vl"]
    said = output(os.environ.get("LLVM_MCA", "llvm-mca-19"), *words, "-iterations=100", input="\n".join(code))
    return int(re.search(r"Total Cycles: +(\d+)", said)[1]) / 100


def report(title, code, messages, level="v2"):
    print(f"{title}: {len(code)} instructions, {messages} at a time; cycles for one:")
    for processor in PROCESSORS:
        if processor not in LACKING.get(level, ()):
            print(f"    {processor}: {cycles(processor, code) / messages:.1f}")


def is_by_sha(code):
    """Whether code has all rounds of a step by SHA instructions: two for each, but for the first four."""
    return sum("sha256rnds2" in it for it in code) == 30


def report_archive(archive):
    """Each n has a loop of its own, which is shortest for 16: its padding has the most words that are constants."""
    found = list(functions(archive))
    by_sha = [it for name, lines in found if OF_CHAINS.search(name) for it in blocks(lines) if is_by_sha(it)]
    if by_sha:
        return report("a step by SHA instructions, as the library has it", min(by_sha, key=len), 1)
    loops = [it for name, lines in found if OF_CHAINS.search(name) for it in blocks(lines) if len(it) > LOOP]
    if len(loops) != 3:
        sys.exit(f"{archive} has {len(loops)} loops over the steps of chains, and not 3")
    block = min(loops, key=len)
    level, lanes = next(LANES[it] for it in LANES if any(it in line for line in block))
    report(f"a step in lanes, {level}", block, lanes, level)
    # The question for SHA instructions; sixteen rounds, a loop of sixteen that has three turns, and sums.
    for parts in [blocks(lines) for name, lines in found if OF_SHA2.search(name)]:
        at = parts.index(max(parts, key=len))
        report(f"a single message, {level}", parts[at - 1] + 3 * parts[at] + parts[at + 1], 1, level)


def report_instructions(chains):
    source = pathlib.Path(__file__).parent / "sha_ni_steps.c"
    text = output("clang", *WORDS, f"-DCHAINS={chains}", source)
    parts = re.split(r"^(\.L\w+):.*$", text, flags=re.M)
    loop = max(parts, key=lambda it: it.count("sha256rnds2"))
    lines = [it.split("#")[0].strip() for it in loop.split("\n")]
    code = [re.sub(r"\.L\w+\(%rip\)", "64(%rip)", it) for it in lines if it and not BRANCH.match(it) and it[0] != "."]
    report(f"a step by SHA instructions, {chains} side by side", code, chains)


def main():
    if len(sys.argv) < 2:
        sys.exit(__doc__.split("\n\n")[1])
    for it in sys.argv[1:]:
        report_archive(it)
    report_instructions(2)


if __name__ == "__main__":
    main()
