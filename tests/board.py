#!/usr/bin/env python3
"""Runs the program for a board, examples/board.c, on an emulated Cortex-M4 or Cortex-M0, over an image of
tests/vectors/ that is signed under 128s. Prints its output, the instructions of one verification, and then its size:
`flash: N`, the bytes of code and constants, with the image, the key and the signature.

usage: tests/board.py [--m0] FOLDER FILE [WORD..]     FILE is slh_verify.c or an archive, and FOLDER has its header

The WORDs are more for the compiler. The status is that of the program: 0, or 1 after a trap; 2 if it does not compile,
and 3 if the emulator takes no such processor. Under the emulator each instruction takes a nanosecond.
"""
import json
import pathlib
import re
import subprocess
import sys
import tempfile
import typing

HERE = pathlib.Path(__file__).resolve().parent.parent


class Cortex(typing.NamedTuple):
    """A board: its processor, the emulator's words for it, where its flash begins, its memory, and its timer's MHz."""

    processor: str
    machine: tuple
    flash: str
    memory: str
    megahertz: int


CORTEX = {
    "thumbv7em": Cortex("cortex-m4", ("-M", "mps2-an386"), "0", "4M", 25),
    "thumbv6m": Cortex("cortex-m0plus", ("-M", "netduinoplus2", "-cpu", "cortex-m0"), "0x08000000", "128K", 168)}


class NoProcessor(Exception):
    """The emulator takes no such processor on this board."""


class NotCompiled(Exception):
    """The program does not compile."""


def check_processor(board):
    """Later versions of the emulator run no Cortex-M0 on the only machine that has the memory for it."""
    machine = CORTEX[board].machine
    words = ["qemu-system-arm", *machine, "-display", "none", "-serial", "none", "-monitor", "stdio", "-S"]
    done = subprocess.run(words, input="quit\n", stdout=subprocess.PIPE, stderr=subprocess.STDOUT, text=True)
    if "Invalid CPU" in done.stdout:
        version = subprocess.run(["qemu-system-arm", "--version"], stdout=subprocess.PIPE, text=True).stdout
        raise NoProcessor(f"{version.splitlines()[0]} takes no {machine[-1]} on {machine[1]}")


def linker_script(board, flash="1M", memory=None):
    """The text of examples/board.ld for a board, with flash and memory of these lengths. It has 64K of memory."""
    text = (HERE / "examples/board.ld").read_text()
    text = re.sub(r"ORIGIN = 0, LENGTH = \d+K", f"ORIGIN = {CORTEX[board].flash}, LENGTH = {flash}", text)
    return text.replace("LENGTH = 64K", f"LENGTH = {memory}") if memory else text


def compiler(board):
    """The compiler of a board, and its words for a program without what is not called."""
    return ["arm-none-eabi-gcc", f"-mcpu={CORTEX[board].processor}", "-mthumb", "-Os", "-std=c11",
            "-ffunction-sections", "-fdata-sections", "-nostartfiles", "-Wl,--gc-sections"]


def emulator(board):
    """The command that runs a program for a board, by which the program reads, writes and ends."""
    return ["qemu-system-arm", *CORTEX[board].machine, "-display", "none", "-serial", "none", "-monitor", "none",
            "-semihosting-config", "enable=on,target=native", "-kernel"]


def write_image(folder):
    """Writes what examples/board.c includes. Returns the context as a text of C."""
    wanted = dict(kind="verify", form="SHA2-256", valid=True)
    tests = json.loads((HERE / "tests/vectors/slh-dsa-sha2-128s.json").read_text())
    test = next(it for it in tests if wanted.items() <= it.items())
    for file, name in (("public_key", "pk"), ("image", "message"), ("signature", "signature")):
        (folder / f"{file}.h").write_text(",".join(map(str, bytes.fromhex(test[name]))) + "\n")
    return '"' + "".join(f"\\x{it:02x}" for it in bytes.fromhex(test["context"])) + '"'


def link(board, include, file, words, folder):
    """Links the program for a board. The portable C takes its memory from the program; an archive takes none."""
    (folder / "board.ld").write_text(linker_script(board, "512K" if board == "thumbv7em" else "1M"))
    memory = [] if pathlib.Path(file).suffix == ".a" else [
        "-DSLH_VERIFY_MEMORY=SLH_DSA_SHA2_128S_VERIFY_MEMORY", "-DSLH_VERIFY_MEMORY_AT=memory"]
    how = [*compiler(board), "-Wall", "-Wextra", "-Werror", "-pedantic", "--specs=nano.specs",
           "-T", folder / "board.ld", "-I", folder, "-I", include, f"-DCONTEXT={write_image(folder)}", *memory,
           "-DSLH_VERIFY_128", "-DSLH_TRAP=trapped", *words]
    if subprocess.run([*how, HERE / "examples/board.c", file, "-o", folder / "board.elf"]).returncode:
        raise NotCompiled
    return folder / "board.elf"


def measured(board, include, file, *words):
    """The status of the program for a board, and the text of its output, its instructions and its size."""
    with tempfile.TemporaryDirectory() as folder:
        program = link(board, include, file, words, pathlib.Path(folder))
        check_processor(board)
        counts = ["qemu-system-arm", *CORTEX[board].machine, "-nographic", "-icount", "shift=0",
                  "-semihosting-config", "enable=on,target=native", "-kernel", program]
        # The emulator hands the program's output on to standard error.
        done = subprocess.run(counts, stdin=subprocess.DEVNULL, stdout=subprocess.PIPE, stderr=subprocess.STDOUT,
                              text=True, timeout=600)
        size = subprocess.run(["arm-none-eabi-size", program], stdout=subprocess.PIPE, text=True, check=True).stdout
    ticks = re.search(r"^ticks of one .* (\d+)\n", done.stdout, re.M)
    counted = f"instructions: {int(ticks[1]) * 1000 // CORTEX[board].megahertz}\n" if ticks else ""
    return done.returncode, f"{done.stdout}{counted}flash: {size.splitlines()[1].split()[0]}\n"


def main(words):
    board = "thumbv6m" if words[:1] == ["--m0"] else "thumbv7em"
    words = words[board == "thumbv6m":]
    if len(words) < 2:
        print(__doc__, file=sys.stderr)
        return 2
    try:
        status, text = measured(board, *words)
    except NotCompiled:
        return 2
    except NoProcessor as cause:
        print(cause, file=sys.stderr)
        return 3
    print(text, end="")
    return status


if __name__ == "__main__":
    sys.exit(main(sys.argv[1:]))
