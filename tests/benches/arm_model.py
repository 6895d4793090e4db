#!/usr/bin/env python3
"""What a step of a WOTS+ chain takes on 64-bit ARM processors by llvm-mca's model of them, in cycles. It is no measurement.

Usage: tests/benches/arm_model.py LIBSLH.A [LLVM-MCA]     for dist/aarch64/libslh.a, by llvm-mca-19 or another one

The loop over the steps of a chain has no branch, so the model takes it as it stands in the library. Instructions of SHA
take one message, and NEON four. It needs aarch64-linux-gnu-objdump. The model knows no cache and no memory.
"""
import re
import subprocess
import sys

PROCESSORS = ["cortex-a55", "cortex-a72", "neoverse-n1", "neoverse-v1", "neoverse-v2", "apple-m1"]
BRANCH = re.compile(r"(b|bl|br|blr|ret|b\.[a-z]+|cbn?z|tbn?z)$")
OF_CHAINS = re.compile(r"slh_lanes::(chains::run\b|chains::run_known|seeded_lanes::SeededLanes::eight_chains)")
FEATURES = "-mattr=+sha2,+sha3"


def functions(archive):
    """The instructions of each function, with their addresses, by its name. Names may stand several times."""
    said = subprocess.run(["aarch64-linux-gnu-objdump", "-d", "--no-show-raw-insn", archive], stdout=subprocess.PIPE,
                          text=True, check=True).stdout
    for part in re.split(r"\n\n", said):
        head = re.match(r"[0-9a-f]+ <(.*)>:\n", part)
        if head:
            lines = re.findall(r"^ +([0-9a-f]+):\t(.*)$", part, re.M)
            yield head[1], [(int(place, 16), re.sub(r"\s*(//.*|<.*>)$", "", text)) for place, text in lines]


def blocks(lines):
    """The instructions between branches and their targets."""
    targets = {int(it[1], 16) for _, text in lines for it in [re.search(r"(?:^b|[ ,])\S*\s+(?:\S+, )*([0-9a-f]+)$", text)]
               if it and BRANCH.match(text.split()[0])}
    found = []
    for place, text in lines:
        if place in targets and found:
            yield found
            found = []
        if BRANCH.match(text.split()[0]):
            yield found
            found = []
        else:
            found.append(text)
    yield found


def cycles(mca, processor, block):
    """The cycles of a block that is run again and again."""
    text = "\n".join(it for it in block if not it.startswith("adrp"))
    said = subprocess.run([mca, "-mtriple=aarch64", f"-mcpu={processor}", FEATURES, "-iterations=100"],
                          input=text.encode(), stdout=subprocess.PIPE, stderr=subprocess.PIPE, check=True).stdout.decode()
    return int(re.search(r"Total Cycles: +(\d+)", said)[1]) / 100


def main():
    if len(sys.argv) not in (2, 3):
        sys.exit(__doc__.split("\n\n")[1])
    mca = sys.argv[2] if sys.argv[2:] else "llvm-mca-19"
    found = {}
    for name, lines in functions(sys.argv[1]):
        if OF_CHAINS.search(name):
            block = max(blocks(lines), key=len)
            kind = "SHA-256" if any(it.startswith("sha256h") for it in block) else "NEON"
            if len(block) > len(found.get(kind, [])):
                found[kind] = block
    for kind, block in found.items():
        lanes = 1 if kind == "SHA-256" else 4
        print(f"{kind}: {len(block)} instructions, {lanes} at a time; cycles for one:")
        for processor in PROCESSORS:
            print(f"    {processor}: {cycles(mca, processor, block) / lanes:.1f}")


if __name__ == "__main__":
    main()
