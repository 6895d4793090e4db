#!/usr/bin/env python3
"""Counts the instructions of key generation, signing and verifying on emulated 64-bit ARM or RISC-V. They are no times:
an instruction for SHA takes several cycles, and a vector's more than one number's.

Usage: tests/benches/emulated_instructions.py LIBSLH.A INCLUDE [HWCAP]     for a libslh, as dist/aarch64/libslh.a
       tests/benches/emulated_instructions.py --riscv64 LIBSLH.A INCLUDE   for one of RISC-V
       tests/benches/emulated_instructions.py --openssl ROOT               for OpenSSL of a Debian 13 in a folder

HWCAP is what the system answers of the processor: 0 has NEON alone, 0x40 SHA-256's instructions, 0x220040 SHA-512's, too.
ROOT has the packages libssl3t64, libssl-dev, libc6, libzstd1 and zlib1g of Debian 13 for arm64, unpacked by `dpkg-deb
-x`, and a link `lib` to usr/lib.
It needs the machine's qemu 7.2 or later, and gcc, as aarch64-linux-gnu-gcc. The columns are the instructions of a call,
in millions.
"""
import pathlib
import subprocess
import sys
import tempfile

HERE = pathlib.Path(__file__).resolve().parent
SETS = ["128s", "128f", "192s", "192f", "256s", "256f"]
MACHINE = "riscv64" if "--riscv64" in sys.argv else "aarch64"
COMPILER = [f"{MACHINE}-linux-gnu-gcc", "-std=c11", "-O1"]


def run(*words):
    return subprocess.run([str(it) for it in words], stdout=subprocess.PIPE, stderr=subprocess.STDOUT, text=True,
                          check=True).stdout


def counted(*words):
    """The instructions of a program, by the plug-in."""
    said = run(f"qemu-{MACHINE}", *words)
    return int(said.split()[0])


def main():
    if MACHINE == "riscv64":
        sys.argv.remove("--riscv64")
    if len(sys.argv) not in (3, 4):
        sys.exit(__doc__.split("\n\n")[1])
    with tempfile.TemporaryDirectory() as folder:
        work = pathlib.Path(folder)
        run("cc", "-O2", "-shared", "-fPIC", HERE / "count_instructions.c", "-o", work / "count.so")
        if sys.argv[1] == "--openssl":
            root = pathlib.Path(sys.argv[2])
            libraries = root / "usr/lib/aarch64-linux-gnu"
            words = ["-DOPENSSL", "-I", root / "usr/include", "-I", root / "usr/include/aarch64-linux-gnu",
                     libraries / "libcrypto.so.3", "-Wl,--allow-shlib-undefined"]
            before = ["-L", root]
        else:
            words = ["-static", "-I", sys.argv[2], sys.argv[1]]
            words += [f"-DHWCAP={sys.argv[3]}", HERE.parent / "forced_hwcap.c"] if sys.argv[3:] else []
            before = []
        run(*COMPILER, HERE / "emulated_calls.c", "-o", work / "calls", *words)
        print("set   keygen     sign   verify")
        for number, name in enumerate(SETS, 1):
            counts = [counted(*before, "-plugin", work / "count.so", "-d", "plugin", work / "calls", number, steps)
                      for steps in range(4)]
            print(name, *(f"{(after - before_it) / 1e6:8.3f}" for before_it, after in zip(counts, counts[1:])))


if __name__ == "__main__":
    main()
