#!/usr/bin/env python3
"""Compares the sizes of files and the bytes of stack and memory that README.md and the pages of docs/ on the library
for C tell with those of libraries, or writes them there.

usage: tools/numbers.py --check|--write TARGET=FOLDER ..

TARGET is one of tools/targets.py, and FOLDER what tools/library.sh has installed for it, or the target's folder of
dist/. The rows for files of lib/ and include/ are those of x86-64, or of x86-64-v2 where that is what is installed.
What needs a target that is not given, or an emulator or processor that is not there, is neither compared nor written,
and that is told. It compiles and runs tests/library_stack.c, by CC or cc, or AARCH64_CC and qemu-aarch64.

A size may be off by 2 %, or by what rounding to KB, 1,000 bytes, takes. Stack is written rounded up to hundreds: a call
may take no more than is written, and at most 2 % or the rounding less, since a thread may be given that. How much less
is compared only with the C library of the pages, glibc 2.36: others take less. The memory of slh_verify.c by sets is
written as the header has it. The last line has the counts.
"""
import os
import pathlib
import re
import shutil
import subprocess
import sys
import tempfile

HERE = pathlib.Path(__file__).resolve().parent.parent
sys.dont_write_bytecode = True
sys.path.append(str(HERE / "tests"))
import board  # noqa: E402

OFF = 0.02
OTHER_LIBC = os.confstr("CS_GNU_LIBC_VERSION") != "glibc 2.36"
LEVELS = {"x86-64-v2": "ssse3", "x86-64-v3": "avx2", "x86-64-v4": "avx512bw"}
CALLS = {"verify_digest": "hash_verify_digest"}
CALL = "slh_verify((uint32_t)c, (void *)v, 32, (void *)v, 1, 0, 0, (void *)v, 17088)"


def hundreds(found):
    """The number rounded up to hundreds."""
    return -(-found // 100) * 100


# A number as it is written, whether what is written is good for what was measured, and what to write of it.
KINDS = {
    "KB": (lambda said, found: said == round(found / 1000) or abs(1000 * said - found) <= OFF * found,
           lambda found: str(round(found / 1000))),
    "bytes": (lambda said, found: abs(said - found) <= OFF * found, lambda found: f"{found:,}"),
    "stack": (lambda said, found: found <= said and (OTHER_LIBC or said <= max((1 + OFF) * found, hundreds(found))),
              lambda found: f"{hundreds(found):,}"),
    "exactly": (lambda said, found: said == found, lambda found: f"{found:,}"),
    "thousands": (lambda said, found: said == round(found, -3) or abs(said - found) <= OFF * found,
                  lambda found: f"{round(found, -3):,}"),
}

NUMBER = r"([\d,]+)"
FILES = r"^\| (`(?:lib|include)/[^|]*)\|[^|\n]*\|([^|\n]*)\|$"
# The files of each target of the table of machines, in its order, as NAME (N KB).
OTHERS = {
    "aarch64": ["libslh.a", "libslh.so.1", "libslh_verify.a"],
    "riscv64": ["libslh.a", "libslh.so.1"],
    "armv7": ["libslh.a", "libslh.so.1"],
    "windows-x86-64": ["libslh.a", "slh.dll"],
    "macos-arm64": ["libslh.a"],
    "macos-x86-64": ["libslh.a"],
    "wasm32": ["slh.wasm"],
    "wasm32-scalar": ["slh.wasm"],
    "wasm64": ["slh.wasm"],
}
IN_README = [(r"\(N KB; N KB\s+for\s+verifying\s+alone\)", ["lib/libslh.a", "lib/libslh_verify.a"])]
SPREAD = r"`slh_keygen`\s+varies\s+by\s+N,\s+`slh_sign`\s+by\s+N,\s+`slh_sign_job`\s+by\s+N"
# The boards with pointers of 32 bits: tests/board.py runs a program for those with a Cortex. Nothing counts RISC-V's
# instructions.
BOARDS = [*board.CORTEX, "riscv32imac"]
LINKERS = {"thumbv7em": ["arm-none-eabi-ld"], "riscv32imac": ["riscv64-linux-gnu-ld", "-m", "elf32lriscv"]}
MEGAHERTZ = 64
RISCV = ["riscv64-linux-gnu-gcc", "-march=rv32imac", "-mabi=ilp32", "-std=c11", "-O2", "-ffreestanding", "-fno-builtin",
         "-nostdlib", "-static", "-DBARE"]
TARGETS = ["x86-64", *LEVELS, *OTHERS, *BOARDS, "portable"]
PORTABLE = ["slh.c", "slh_verify.c"]
BOARD = ["flash", "stack", "memory"]
SETS = ["128s", "128f", "192s", "192f", "256s", "256f"]


def run(*command, **more):
    return subprocess.run([str(it) for it in command], check=True, capture_output=True, text=True, **more).stdout


def compiler(target):
    """The compiler of a target, what runs its programs, and how they are linked so that they run."""
    if target == "aarch64":
        emulator = shutil.which("qemu-aarch64") or shutil.which("qemu-aarch64-static")
        return os.environ.get("AARCH64_CC", "aarch64-linux-gnu-gcc"), [emulator] if emulator else None, ["-static"]
    has_level = LEVELS[target] in pathlib.Path("/proc/cpuinfo").read_text().split()
    return os.environ.get("CC", "cc"), [] if has_level else None, []


def code_of(size, file):
    """The bytes of code and constants of all of a file, as `size` tells them."""
    return sum(int(line.split()[0]) for line in run(size, file).splitlines()[1:])


def stack_of(target, library, work):
    """The most bytes of stack of each call over the six sets, and how much they differ."""
    cc, runs, how = compiler(target)
    if runs is None or not shutil.which(cc):
        return {}
    program = work / "stack"
    run(cc, "-std=c99", *how, "-I", HERE / "c/include", "-o", program, HERE / "tests/library_stack.c", library,
        "-pthread", "-Wl,-z,now", f"-Wl,-rpath,{library.parent}")
    names, *rows = [line.split() for line in run(*runs, program).splitlines()[:-1]]
    columns = zip(*[[int(it) for it in row[1:]] for row in rows])
    return {f"slh_{CALLS.get(name, name)}": (max(it), max(it) - min(it)) for name, it in zip(names[1:], columns)}


def growth(target, library, work):
    """How much a program grows when slh_verify is called, linked without what is not called."""
    sizes = []
    for name, call in (("none", "0"), ("one", CALL)):
        (work / f"{name}.c").write_text(
            f"#include <slh_verify.h>\nint main(int c, char **v) {{ (void)c; (void)v; return (int){call}; }}\n")
        run(compiler(target)[0], "-O2", "-I", HERE / "c/include", work / f"{name}.c", library, "-Wl,--gc-sections",
            "-o", work / name)
        sizes.append(code_of("size", work / name))
    return sizes[1] - sizes[0]


def put_stack(facts, target, library, work):
    for name, (most, spread) in stack_of(target, library, work).items():
        facts[f"{target} stack of {name}"] = most
        facts[f"{target} spread of {name}"] = spread


def libraries(target, lib):
    """The libraries of a folder that run one level alone, by that level's target."""
    is_alone = target in (*LEVELS, "aarch64") and not (lib / "libslh-v2.a").is_file()
    found = {target: lib / "libslh.a"} if is_alone else {}
    for level in LEVELS:
        file = lib / f"libslh-{level[-2:]}.a"
        if file.is_file():
            found[level] = file
    return found


def memory_facts(headers, work):
    """The memory of slh_verify.c for each set, as the macros of the header have it."""
    cc, program = os.environ.get("CC", "cc"), work / "memory"
    if not shutil.which(cc):
        return {}
    says = "".join(f'printf("%lu\\n", (unsigned long)SLH_DSA_SHA2_{it.upper()}_VERIFY_MEMORY);' for it in SETS)
    program.with_suffix(".c").write_text(f"#include <slh_verify.h>\n#include <stdio.h>\nint main(void) {{ {says} }}\n")
    run(cc, "-std=c99", "-I", headers, program.with_suffix(".c"), "-o", program)
    return {f"memory for {name}": int(it) for name, it in zip(SETS, run(program).split(), strict=True)}


def said_on(target, include, file):
    """The output of the program for a board, which has to end with 0."""
    status, said = board.measured(target, include, file)
    if status:
        sys.exit(f"the program for {target} ended with status {status}: {said}")
    return said


def portable_facts(folder, work):
    """The sizes of the portable C, its memory by sets, and what tests/board.py measures on the emulated board."""
    files = {name: next(folder.rglob(name)) for name in PORTABLE}
    facts = {f"portable {name}": file.stat().st_size for name, file in files.items()}
    headers = folder / "include" if (folder / "include").is_dir() else HERE / "c/include"
    facts |= memory_facts(headers, work)
    if all(map(shutil.which, ("arm-none-eabi-gcc", "qemu-system-arm"))):
        said = said_on("thumbv7em", headers, files["slh_verify.c"])
        facts |= {f"board {name}": int(number) for name, number in re.findall(r"^(\w+): (\d+)$", said, re.M)}
    return facts


def stand_ins(archive, work):
    """An object with a function for each name that an archive asks for: ARM's linker has to know that it is one."""
    names = sorted(set(re.findall(r"^ +U (\S+)$", run("arm-none-eabi-nm", archive), re.M)))
    lines = [f".global {it}\n.type {it}, %function\n.thumb_func\n{it}: bx lr\n" for it in names]
    (work / "names.s").write_text("".join([".syntax unified\n.thumb\n", *lines]))
    run("arm-none-eabi-as", work / "names.s", "-o", work / "names.o")
    return work / "names.o"


def kept_for(target, call, archive, work):
    """The bytes that a board's linker keeps of an archive for one call, without what the archive asks for."""
    is_arm, kept = target in board.CORTEX, work / "kept"
    linker, *words = LINKERS["thumbv7em" if is_arm else "riscv32imac"]
    if not shutil.which(linker):
        return None
    words += [f"--just-symbols={stand_ins(archive, work)}" if is_arm else "--unresolved-symbols=ignore-all"]
    run(linker, *words, "--gc-sections", "-e", call, "-u", call, archive, "-o", kept)
    return code_of("size", kept)


def stack_of_cortex(target, archive, work):
    """The line of tests/board_stack.c on an emulated Cortex-M."""
    (work / "stack.ld").write_text(board.linker_script(target, memory=board.CORTEX[target].memory))
    run(*board.compiler(target), "--specs=rdimon.specs", "-Wl,--defsym=end=bss_end", "-T", work / "stack.ld", "-I",
        HERE / "c/include", HERE / "tests/board_stack.c", HERE / "tests/board_calls.c", archive, "-o", work / "stack")
    return run(*board.emulator(target), work / "stack")


def board_facts(target, folder, work):
    """The code of a board's archives, and of the larger one the stack and the instructions under an emulator."""
    files = {name: next(folder.rglob(name)) for name in ("libslh_verify.a", "libslh_verify_128.a")}
    facts = {f"code of {target} {name}": code_of("size", it) for name, it in files.items()}
    said = ""
    kept = kept_for(target, "slh_hash_verify_digest", files["libslh_verify_128.a"], work)
    facts |= {} if kept is None else {f"{target} by digest": kept}
    if target in board.CORTEX and all(map(shutil.which, ("arm-none-eabi-gcc", "qemu-system-arm"))):
        try:
            said = said_on(target, HERE / "c/include", files["libslh_verify.a"])
            said += stack_of_cortex(target, files["libslh_verify.a"], work)
        except board.NoProcessor as cause:
            print(cause)
    elif target not in board.CORTEX and all(map(shutil.which, (RISCV[0], "qemu-riscv32"))):
        run(*RISCV, "-I", HERE / "c/include", HERE / "tests/board_stack.c", files["libslh_verify.a"],
            "-o", work / "bare")
        said = run("qemu-riscv32", work / "bare")
    facts |= {f"{target} {name}": int(number) for name, number in re.findall(r"^(\w+): (\d+)$", said, re.M)}
    if f"{target} instructions" in facts:
        facts[f"{target} ms"] = round(facts[f"{target} instructions"] / MEGAHERTZ / 1000)
    return facts


def facts_of(target, folder, work):
    """What is measured of a target, by name."""
    if target == "portable":
        return portable_facts(folder, work)
    if target in BOARDS:
        return board_facts(target, folder, work)
    lib, facts = folder / "lib" if (folder / "lib").is_dir() else folder, {}
    level = "x86-64-v2" if target == "x86-64" else target  # libslh_verify.a of what is installed is for this level
    for file in sorted(it for it in folder.rglob("*") if it.is_file() and not it.is_symlink()):
        names = [f"{level} {file.name}"] if file.parent in (lib, folder / "bin") else []
        if target in ("x86-64", "x86-64-v2"):
            names.append(str(file.relative_to(folder)))
        for name in names:
            facts[name] = file.stat().st_size
            if file.suffix == ".a" and target not in [*OTHERS][1:]:
                facts[f"code of {name}"] = code_of("size", file)
    if f"{level} libslh_verify.a" in facts and shutil.which(compiler(level)[0]):
        facts[f"{level} growth"] = growth(level, lib / "libslh_verify.a", work)
    if target == "x86-64":
        facts |= {f"growth by {it.name}": growth(level, it, work) for it in lib.glob("libslh*.a")}
    for one, file in libraries(level, lib).items():
        put_stack(facts, one, file, work)
    return facts


def measure(pairs):
    facts = {}
    with tempfile.TemporaryDirectory() as work:
        for target, folder in pairs:
            facts |= facts_of(target, folder, pathlib.Path(work))
    levels = [it for it in LEVELS if f"{it} stack of slh_sign" in facts]
    if {"x86-64-v2", "x86-64-v3"} <= set(levels):
        for name in [it.split(" of ")[1] for it in facts if it.startswith("x86-64-v2 stack of")]:
            facts[f"stack of {name}"] = max(facts[f"{it} stack of {name}"] for it in levels)
            facts[f"spread of {name}"] = max(facts[f"{it} spread of {name}"] for it in levels)
    return facts


class Page:
    """A page whose numbers are compared, or written."""

    def __init__(self, name, facts, is_written):
        self.path, self.name, self.facts, self.is_written = HERE / name, name, facts, is_written
        self.text, self.passed, self.failed, self.spans = self.path.read_text(), 0, 0, []

    def tell(self, what, is_good):
        self.passed, self.failed = self.passed + is_good, self.failed + (not is_good)
        print(f"{self.name}: {what}: {'yes' if is_good else 'no'}")

    def number(self, span, kind, key):
        """Compares the number that stands at a span with a fact."""
        if key not in self.facts:
            print(f"{self.name}: {key}: not measured")
            return
        said, found = int(self.text[slice(*span)].replace(",", "")), self.facts[key]
        is_good, written = KINDS[kind]
        self.spans.append((span, written(found)))
        self.tell(f"{key}: {said:,} {kind}, measured {found:,}", self.is_written or is_good(said, found))

    def row(self, pattern, kinds, keys, is_needed=True):
        """Compares the numbers of a row, each of which stands as N in its pattern."""
        found = re.search(pattern.replace("N", NUMBER), self.text)
        if found is None:
            if is_needed:
                self.tell(f"there is a row for {', '.join(keys)}", False)
            return
        for group, (kind, key) in enumerate(zip(kinds, keys), 1):
            self.number(found.span(group), kind, key)

    def file_rows(self):
        """The rows that begin with files: the size of each, and where one stands alone, maybe that of its code."""
        rows = list(re.finditer(FILES, self.text, re.M))
        self.tell("there are rows for files", bool(rows))
        for row in rows:
            keys = re.findall(r"`((?:lib|include)/[\w./-]*\w)`", row[1])
            cells = list(re.finditer(NUMBER + " KB", row[2]))
            if "of which" in row[2] and len(keys) == 1:
                keys.append(f"code of {keys[0]}")
            if len(keys) != len(cells):
                self.tell(f"each file has a size: {row[1].strip()}", False)
                continue
            for key, cell in zip(keys, cells):
                self.number([row.start(2) + it for it in cell.span(1)], "KB", key)

    def stack_table(self):
        """The table whose head names calls, and which has one row of numbers."""
        table = re.search(r"^\|( `slh_\w+` \|)+\n\|[-|]+\n(\|[^\n]*)\n", self.text, re.M)
        if table is None:
            self.tell("there is a table of stack", False)
            return
        names = re.findall(r"`(slh_\w+)`", table[0].splitlines()[0])
        cells = list(re.finditer(NUMBER, table[2]))
        self.tell("each call of the table of stack has a number", len(names) == len(cells) > 0)
        for name, cell in zip(names, cells):
            self.number([table.start(2) + it for it in cell.span()], "stack", f"stack of {name}")

    def sizes_are_known(self):
        """Each size in KB of this page is one of those that were found."""
        known = [span[1] for span, _ in self.spans]
        others = [it[0] for it in re.finditer(r"[\d,]+ KB", self.text) if it.start() + len(it[0]) - 3 not in known]
        self.tell(f"no size is unknown to {pathlib.Path(__file__).name} ({', '.join(others)})", not others)

    def write(self):
        for (start, end), number in sorted(self.spans, reverse=True, key=lambda it: it[0][0]):
            self.text = self.text[:start] + number + self.text[end:]
        self.path.write_text(self.text)


def library_page(page):
    page.file_rows()


def machines_page(page):
    for target, files in OTHERS.items():
        sizes = "[^|\\n]*".join(rf"`{re.escape(it)}` \(N KB\)" for it in files)
        page.row(rf"\| `{target}` \|[^|\n]*\|[^|\n]*\|[^|\n]*{sizes}", ["KB"] * len(files),
                 [f"{target} {it}" for it in files])
    archives = ["libslh.a", *(f"libslh-{level[-2:]}.a" for level in LEVELS)]
    page.row(r"\| all \| N \| N \| N \| N \|", ["bytes"] * 4, [f"code of lib/{it}" for it in archives])
    page.row(r"\| `slh_verify` alone \| N \| N \| N \| N \|", ["bytes"] * 4, [f"growth by {it}" for it in archives])
    page.stack_table()
    page.row(SPREAD, ["thousands"] * 3, [f"spread of {it}" for it in ("slh_keygen", "slh_sign", "slh_sign_job")])
    page.row(r"`slh\.c` \(N KB\), `slh_verify\.c` \(N KB\)", ["KB"] * 2, [f"portable {it}" for it in PORTABLE])


def devices_page(page):
    for target in (*LEVELS, "aarch64"):
        page.row(rf"\| {target} \| N \| N \| N \| N \|", ["bytes", "bytes", "stack", "stack"],
                 [f"code of {target} libslh_verify.a", f"{target} growth", f"{target} stack of slh_verify",
                  f"{target} stack of slh_hash_verify_digest"], is_needed=target != "x86-64-v4")
    for target in BOARDS:
        page.row(rf"\| `{target}` \|[^|\n]*\| N \| N \| N \| N \|", ["bytes", "bytes", "bytes", "stack"],
                 [f"code of {target} libslh_verify.a", f"code of {target} libslh_verify_128.a", f"{target} by digest",
                  f"{target} stack"])
        page.row(rf"\| `{target}` \|(?:[^|\n]*\|){{5}} N \| N \|", ["bytes"] * 2,
                 [f"{target} instructions", f"{target} ms"], is_needed=target in board.CORTEX)
    head = r"\| 128s \| 128f \| 192s \| 192f \| 256s \| 256f \|\n\|[-|]+\n"
    page.row(head + r"\| N \| N \| N \| N \| N \| N \|", ["exactly"] * 6, [f"memory for {it}" for it in SETS])
    page.row("memory of the calls that was written, of N ", ["exactly"], ["memory for 128s"])
    for name in BOARD:
        page.row(rf"\n\| {name}\b[^|\n]*\| N bytes", ["stack" if name == "stack" else "bytes"], [f"board {name}"])


def readme_page(page):
    for pattern, keys in IN_README:
        page.row(pattern, ["KB"] * len(keys), keys, is_needed=False)
    if "lib/libslh.a" in page.facts:
        page.sizes_are_known()


PAGES = {"docs/LIBRARY.md": library_page, "docs/MACHINES.md": machines_page, "docs/DEVICES.md": devices_page,
         "README.md": readme_page}


def main(how, *pairs):
    pairs = [it.split("=", 1) for it in pairs]
    if how not in ("--check", "--write") or not pairs or any(len(it) != 2 or it[0] not in TARGETS for it in pairs):
        sys.exit(__doc__)
    facts = measure([(target, pathlib.Path(folder).resolve()) for target, folder in pairs])
    passed = failed = 0
    for name, compare in PAGES.items():
        page = Page(name, facts, how == "--write")
        compare(page)
        if how == "--write":
            page.write()
        passed, failed = passed + page.passed, failed + page.failed
    print(f"{passed} passed, {failed} failed")
    return 1 if failed or not passed else 0


if __name__ == "__main__":
    sys.exit(main(*sys.argv[1:]) if len(sys.argv) > 1 else __doc__)
