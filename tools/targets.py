#!/usr/bin/env python3
"""The targets: the table of machines that the library for C is built for, and what builds it for one of them, over the
libraries that `rt ci`, or `rt check` in crates/slh_c, has built: nobody looks whether a source has changed since. Of
crates/slh_c itself what is not proved yet is proved.

usage: tools/targets.py TARGET[,TARGET..] FOLDER [--noise]      writes FOLDER/TARGET/
       tools/targets.py toolchain FOLDER TARGET [LANES [small] [module]]
                                             makes FOLDER a toolchain for rattle: the kit's, with tools/clang.sh as its
                                             clang, for a target, with the lanes of LANES or its own; small code is for
                                             size, and with `module` the module is written and not compiled
       tools/targets.py width LANES FOLDER   makes FOLDER, with a crate slh_width that answers these lanes, proved

--noise is for tests: machines of 32 bits then get another layout (tools/lay_out.py).

  x86-64                            libslh.a and libslh.so.1: Linux on x86-64, with the code for each of the levels of
                                    processors, of which the best that there is runs, and for SHA instructions, which
                                    run by x86-64-v2. And what those levels have:
  x86-64-v2, x86-64-v3, x86-64-v4   libslh.a and libslh_verify.a for processors of this level
  aarch64                           libslh.a, libslh.so.1 and libslh_verify.a: Linux on 64-bit ARM, with code for NEON,
                                    for SHA-256's instructions, and for SHA-512's, of which the best that there is runs
  riscv64, armv7                    libslh.a and libslh.so.1: Linux on 64-bit RISC-V, and on 32-bit ARM with NEON
  windows-x86-64                    libslh.a, slh.dll and slh.lib, which imports it: as x86-64
  macos-arm64, macos-x86-64         libslh.a; the second with x86-64-v2 and -v3
  thumbv7em, thumbv6m, riscv32imac  libslh_verify.a, and libslh_verify_128.a for the sets of 128 bits alone: ELF for
                                    boards with pointers of 32 bits
  boards                            these three
  wasm32, wasm64                    slh.wasm: a WebAssembly module with a memory of this width and vectors of 128 bits
  wasm32-scalar                     the same as wasm32 without vectors
  portable                          slh.c and slh_verify.c: such modules with one lane and no vectors as C, written by
                                    tools/portable.py. The second is of slh_c_verify, compiled for size, with a
                                    32-bit memory, since code for devices is smaller by 32-bit addresses

  release                           all of these but portable

rattle knows no x86-64-v4, and no vectors of WebAssembly: tools/clang.sh has its module compiled for these. And it
writes into the module how many lanes a vector of the target has, which the proved code asks crates/slh_width: what is
proved holds for each answer (crates/slh_lanes/README.md).

libslh.a is the proved object with the C of c/exports/ round it: exports.c says what that does. libslh_verify.a has
the calls of c/include/slh_verify.h alone. For x86-64-v3 and -v4 they are cut out of the proved object. For the
others, where it is for firmware, it is the crate slh_c_verify with one lane, compiled for size. The kit's own
compiler, linker and archiver make all of it, so that no file of this machine is in the result.

For most targets rattle does not build. Their code is the module that it writes for x86-64, or for wasm64, which names
no machine but in its attributes. tools/lay_out.py lays it out for pointers of 32 bits. In the table is what the kit's
compiler is told of the machine.
"""
import os
import pathlib
import re
import subprocess
import sys
import tempfile
import typing

sys.dont_write_bytecode = True
import kit

ROOT = pathlib.Path(__file__).resolve().parent.parent
TOOLS, EXPORTS = ROOT / "tools", ROOT / "c/exports"

LINUX, WASM = "x86_64-unknown-linux-gnu", "wasm64-unknown-unknown"
SHARED = f"libslh.so.{(ROOT / 'VERSION').read_text().split('.')[0]}"


class Target(typing.NamedTuple):
    """A machine that the proved code is compiled for. A Builder makes what a row says, and knows no target."""

    # How many lanes its vectors have, of words of 32 bits and of 64.
    short: str = "One"
    long: str = "One"
    # Its name for LLVM, the bits of its pointers, and how its object files are: elf, coff, macho or wasm.
    triple: str = LINUX
    bits: int = 64
    form: str = "elf"
    # Where rattle builds for it: the words that tell rattle of a processor, and the word of tools/clang.sh.
    rattle: tuple = ()
    word: str = ""
    # The rules of tools/clang.sh for the processor's SHA instructions.
    rules: tuple = ()
    # The rule by which functions begin with a pad for indirect branches, and objects have a note that says so.
    pads: str = ""
    # Where it does not: the target whose module is compiled, the words for the compiler, what each function has
    # besides, and what a number of 32 bits is told that an export returns.
    of: str = ""
    compiler: tuple = ()
    attributes: str = ""
    returns: str = ""
    # What is made: "exports" is libslh.a, "board" a board's archives, "module" slh.wasm, "source" the portable C.
    # `shared` is the shared object beside libslh.a, `verify` of what libslh_verify.a is cut: slh_c, or slh_c_verify.
    makes: str = "exports"
    shared: str = ""
    verify: str = ""
    # The files of the kit that the shared object is linked with.
    beside: tuple = ()
    # What stands round the exports: files of c/exports/, the words for their compiler, and the table of depths, whose
    # name is the target's if none is here.
    round: tuple = ("exports.c",)
    words: tuple = ("-fPIC", "-fno-plt")
    depths: str = ""
    # The targets of which it has all code, and chooses while it runs; the number of one of these for slh_level, and what
    # is behind it in names if another one has the same number.
    levels: tuple = ()
    level: int = 0
    variant: str = ""
    # For the portable C: the target of the module that slh_verify.c is made of.
    small: str = ""


# As rattle has them for x86-64 Linux.
INLINE_PROBES = '"probe-stack"="inline-asm" "stack-probe-size"="3072"'


def options(*words):
    """What clang hands to LLVM."""
    return tuple(it for word in words for it in ("-mllvm", f"-{word}"))


# What the proved code of x86-64 asks of C, by RULES_X86.
SINGLE = ("chosen.c", "processor.c", "sha256_x86.c")
CHOSEN = ("exports.c", *SINGLE, "clear_x86_64.S")
RULES_X86 = ("for_single_x86.sed", "for_sha256_x86.sed")
LEVELS = ("x86-64-v2", "x86-64-v3", "x86-64-v4")
ROUND = dict(round=CHOSEN, words=("-fPIC", "-fno-plt", "-fcf-protection=full"))
LEVEL = Target("Four", "Four", rattle=("--cpu", "x86-64-v2"), verify="slh_c_verify",
               rules=RULES_X86[:1], pads="for_pads_x86.sed", level=2, **ROUND)
# By the model of tests/benches SHA-512 takes more cycles in NEON's lanes than one message at a time.
ARM = Target("Four", "One", "aarch64-unknown-linux-gnu", pads="for_pads_arm.sed",
             words=("-fPIC", "-fno-plt", "-mbranch-protection=pac-ret+bti"))
RULES_ARM = ("for_sha256_arm.sed", "for_single_arm.sed", "for_sha512_arm.sed", "for_single_long_arm.sed")
PADS = ("for_pads_x86.sed", "for_pads_arm.sed")
BOARD = Target(bits=32, of="x86-64", makes="board", round=("board.c",), words=("-fno-pic",))
MODULE = Target("Four", "Four", WASM, form="wasm", makes="module", round=())
MODULE_32 = Target(triple="wasm32-unknown-unknown", bits=32, form="wasm", of="wasm64", makes="module",
                   round=("wasm32.c",), words=())
# Each division is written out: else the code would ask for libgcc's.
NO_DIVISION = options("expand-div-rem-bits=16")
WIDE_DIVISION = options("expand-div-rem-bits=64", "expand-fp-convert-bits=64")
TARGETS = {
    "x86-64": Target(shared=SHARED, beside=("toolchain/lib/libc.so.6",),
                     levels=("x86-64-v2", "x86-64-v2-sha", *LEVELS[1:]), **ROUND),
    "x86-64-v2": LEVEL,
    "x86-64-v2-sha": LEVEL._replace(short="Instructions", word="-msha", rules=RULES_X86, makes="", variant="_sha"),
    "x86-64-v3": LEVEL._replace(level=3, short="Eight", rattle=("--cpu", "x86-64-v3"), verify="slh_c"),
    "x86-64-v4": LEVEL._replace(level=4, short="Sixteen", long="Eight", rattle=("--cpu", "x86-64-v3"),
                                word="-march=x86-64-v4", verify="slh_c"),
    "aarch64": ARM._replace(levels=("aarch64-neon", "aarch64-sha256", "aarch64-sha512"), verify="slh_c_verify",
                            shared=SHARED, round=("exports.c", "chosen_aarch64.c", "sha2_arm.c", "clear_aarch64.S")),
    "aarch64-neon": ARM._replace(makes="", level=2),
    "aarch64-sha256": ARM._replace(short="Instructions", word="-march=armv8-a+sha2", rules=RULES_ARM[:2], makes="",
                                   level=3),
    "aarch64-sha512": ARM._replace(short="Instructions", long="Instructions", word="-march=armv8-a+sha2+sha3",
                                   rules=RULES_ARM, makes="", level=4),
    "riscv64": Target(triple="riscv64-unknown-linux-gnu", of="x86-64", attributes=INLINE_PROBES,
                      returns="signext", compiler=("-march=rv64gc", "-mabi=lp64d", "-O3"), shared=SHARED,
                      round=("exports.c", "clear_riscv64.S")),
    "armv7": Target("Four", "Four", "armv7-unknown-linux-gnueabihf", 32, of="x86-64", shared=SHARED,
                    compiler=("-march=armv7-a", "-mfpu=neon", "-mfloat-abi=hard", "-O3", *NO_DIVISION),
                    round=("exports.c", "clear_armv7.S")),
    "wasm64": MODULE._replace(word="-msimd128"),
    "wasm32": MODULE_32._replace(short="Four", long="Four", compiler=(
        "-mcpu=lime1", "-msimd128", "-O3", *options("inline-threshold=500"), *WIDE_DIVISION)),
    "wasm32-scalar": MODULE_32._replace(compiler=("-mcpu=lime1", "-O3", *WIDE_DIVISION)),
    "portable": MODULE._replace(short="One", long="One", makes="source", small="small-wasm32"),
    "small-wasm32": MODULE_32._replace(compiler=("-mcpu=lime1", "-O3", *WIDE_DIVISION), words=("-DSLH_UNGUARDED",),
                                       makes=""),
    "thumbv7em": BOARD._replace(triple="thumbv7em-none-eabi", round=("board_thumb.S", "board.c"),
                                compiler=("-mcpu=cortex-m4", "-mfloat-abi=soft", "-Os")),
    "thumbv6m": BOARD._replace(triple="thumbv6m-none-eabi", round=("board_thumb.S", "board.c"),
                               compiler=("-mcpu=cortex-m0plus", "-mfloat-abi=soft", "-Os")),
    "riscv32imac": BOARD._replace(triple="riscv32-unknown-none-elf",
                                  compiler=("-march=rv32imac", "-mabi=ilp32", "-Os")),
    # For tests, and for code with one lane, each width has a name, its number.
    "1": Target(makes=""),
    "4": Target("Four", "Four", makes=""),
    "8": Target("Eight", "Eight", makes=""),
    "16": Target("Sixteen", "Eight", makes=""),
}


def on_another(system, levels, at_each, at_all):
    """Adds x86-64 for another SYSTEM: its LEVELS, and the library that chooses one of them."""
    for level in levels:
        row = Target(*TARGETS[level][:2], of="x86-64", compiler=(f"-march={level}", "-O3"), makes="",
                     level=TARGETS[level].level, rules=RULES_X86[:1], **at_each)
        TARGETS[f"{system}-{level}"] = row._replace(depths=f"{row.depths}{level}")
    names = tuple(f"{system}-{it}" for it in levels)
    TARGETS[f"{system}-x86-64"] = Target(levels=names, compiler=("-O3",), **at_each)._replace(**at_all)


# Windows probes each frame of over a page, and unwinds by tables. Of macOS no depth is measured: more is cleared.
on_another("windows", LEVELS, dict(
    triple="x86_64-pc-windows-gnu", form="coff", attributes='uwtable "probe-stack"="slh_probe"', depths="windows-",
    round=("exports.c", *SINGLE, "clear_windows.S", "probe_windows.S"),
    words=("-fasynchronous-unwind-tables",)), dict(shared="slh.dll"))
MAC = dict(form="macho", attributes=INLINE_PROBES, words=("-fPIC", "-DSLH_MORE_DEPTH=2048"))
on_another("macos", LEVELS[:2], dict(
    triple="x86_64-apple-macos11", round=CHOSEN, **MAC), dict())
TARGETS["macos-arm64"] = Target("Instructions", "Instructions", "arm64-apple-macos11", of="x86-64", rules=RULES_ARM,
                                compiler=("-mcpu=apple-m1", "-O3"), depths="aarch64-sha512",
                                round=("exports.c", "sha2_arm.c", "clear_aarch64.S"), **MAC)
# Several targets by one name: those of a release, but for the portable C; a level comes with the library that chooses.
BOARDS = tuple(name for name, it in TARGETS.items() if it.makes == "board")
CHOSEN_LEVELS = {level for it in TARGETS.values() for level in it.levels}
RELEASED = tuple(name for name, it in TARGETS.items() if it.makes not in ("", "source") and name not in CHOSEN_LEVELS)
GROUPS = {"boards": BOARDS, "release": RELEASED}
# The enum Width of crates/slh_width, in its order.
WIDTHS = ["One", "Four", "Eight", "Sixteen", "Instructions"]

# Kinds of the calls of c/exports/calls.h: all of them, and those of calls that take secrets.
ALL_KINDS = "[A-Z]+"
SECRET_KINDS = "SECRET|READS"
# What the files SINGLE share with the proved code and with each other.
OF_SINGLE = ["choice", "choose", "has_sha", "ask_processor", "sha256", "sha512"]
VERIFY_CALLS = ["slh_verify", "slh_hash_verify", "slh_hash_verify_digest", "slh_verify_hardened",
                "slh_hash_verify_digest_hardened", "slh_version"]
# What rattle tells the kit's clang of a module that it compiles (tools/clang.sh sees it), but for the level.
AS_RATTLE = ["-ffunction-sections", "-fdata-sections", "--no-default-config", "-no-canonical-prefixes",
             "-fintegrated-cc1", "-fno-crash-diagnostics", "-Wno-override-module", "-Wno-unused-command-line-argument",
             "-Werror", *options("no-trap-after-noreturn", "trap-unreachable", "disable-machine-licm",
                                 "disable-postra-machine-licm", "sink-common-insts=false")]
# How the C of c/exports/ is compiled. Paths are relative, so that none of this machine is in it.
AS_EXPORTS = ["-std=c11", "-O2", "-ffreestanding", "-nostdinc", "-I", "freestanding", "-I", "../include",
              "-fvisibility=hidden", "-fno-stack-protector", "-ffunction-sections", "-fdata-sections",
              "-fno-asynchronous-unwind-tables", "-Wall", "-Wextra", "-Werror", "-Wno-unused-command-line-argument"]


def refuse(why):
    print(f"tools/targets.py: {why}", file=sys.stderr)
    sys.exit(2)


def run(*words, **options):
    """Runs a command, which has to end with 0. What it prints is for the user."""
    subprocess.run([str(it) for it in words], check=True, **{"stdout": sys.stderr, **options})


def as_llvm(name, *words, **options):
    """Runs a program of LLVM. The kit's clang is all of them, by the name that it is called by."""
    run(name, *words, executable=kit.path("toolchain/bin/clang"), **options)


def output(*words):
    return subprocess.run([str(it) for it in words], stdout=subprocess.PIPE, check=True).stdout


def write(path, lines):
    path.write_text("".join(f"{it}\n" for it in lines))


def objects(folder):
    return sorted(folder.glob("*.o"))


def names_of(kinds):
    """The names of the calls of these KINDS of c/exports/calls.h, without slh_."""
    return re.findall(rf"^(?:{kinds})\(([a-z_]*),$", (EXPORTS / "calls.h").read_text(), re.M) if kinds else []


# ---- toolchains for rattle


def make_toolchain(folder, target, lanes="", *flags):
    """Makes a folder of links to the kit's toolchain, in which tools/clang.sh is the compiler, `kit` has the kit's own
    commands, where that script finds the kit's clang, and `lanes`, `word`, `size` and `rules` what it changes."""
    folder, of_kit = pathlib.Path(folder), pathlib.Path(kit.KIT, "toolchain")
    (folder / "bin").mkdir(parents=True)
    links = {"lib": of_kit / "lib", "kit": of_kit / "bin", "bin/clang": TOOLS / "clang.sh",
             **{it: TOOLS / it for it in ("for_size.sed", *PADS, *RULES_X86, *RULES_ARM)}}
    links |= {f"bin/{it.name}": it for it in (of_kit / "bin").iterdir() if it.name != "clang"}
    for name, place in links.items():
        (folder / name).symlink_to(place)
    numbers = [str(WIDTHS.index(it)) for it in TARGETS[lanes or target][:2]]
    write(folder / "lanes", [" ".join(numbers)])
    write(folder / "word", ["module" if "module" in flags else TARGETS[target].word])
    write(folder / "size", ["small" if "small" in flags else "fast"])
    write(folder / "rules", [" ".join((*TARGETS[lanes or target].rules, TARGETS[target].pads)).strip()])


def build_width(lanes, folder):
    """Makes FOLDER, with slh_width that answers these lanes. It is proved as any crate, in a second."""
    text = (ROOT / "crates/slh_width/src/lib.rt").read_text()
    for name, width in zip(("short", "long"), TARGETS[lanes]):
        text = text.replace(f"{name}: Width::Eight,", f"{name}: Width::{width},")
    (folder / "src").mkdir(parents=True)
    (folder / "src/lib.rt").write_text(text)
    run(kit.RATTLE, "build", *kit.words("slh_width"), "-o", folder / "slh_width.rlib", cwd=folder)


# ---- libraries


class Builder:
    """Builds targets into a folder, by files in a folder of its own. A `row` is that of the target that is built."""

    def __init__(self, folder, work, noise):
        self.folder, self.work, self.noise = folder, work, noise

    def make(self, target):
        {"exports": self.make_exports, "board": self.make_board, "module": self.make_module,
         "source": self.make_source}[TARGETS[target].makes](target)

    # ---- proved code

    def proved_archive(self, crate, target, lanes, file, *flags):
        """Has rattle compile the proved exports of a crate for a target to an archive, with the lanes of LANES, by the
        words of a toolchain, whose folder it returns."""
        toolchain, row = self.work / "-".join(["toolchain", crate, target, lanes, *flags]), TARGETS[target]
        make_toolchain(toolchain, target, lanes, *flags)
        (ROOT / "crates" / crate / "out/incremental").mkdir(parents=True, exist_ok=True)
        run(*kit.build(crate, toolchain), "--incremental", "out/incremental", "--jobs", len(os.sched_getaffinity(0)),
            "--target", row.triple, *row.rattle, "-o", file, cwd=ROOT / "crates" / crate)
        return toolchain

    def proved_module(self, crate, of, lanes, file, *flags):
        """Writes the module of a crate that rattle compiles for the target OF. rattle runs once for all lanes."""
        kept = self.work / "-".join(["module", crate, of, *flags])
        if not (kept / "module.bc").exists():
            toolchain = self.proved_archive(crate, of, lanes, self.work / "module.a", *flags, "module")
            kept.mkdir()
            (toolchain / "module.bc").rename(kept / "module.bc")
        else:
            toolchain = kept / lanes
            if not toolchain.exists():
                make_toolchain(toolchain, of, lanes, *flags, "module")
            run(toolchain / "bin/clang", f"--target={TARGETS[of].triple}", kept / "module.bc", "-o",
                self.work / "none.o", stderr=subprocess.DEVNULL)
        (toolchain / "module.ll").rename(file)

    def lay_out(self, row, module, out):
        """Lays a module out for a target. What it has of the machine that rattle made it for is left out."""
        if row.bits == 32:
            how = ["--noise"] if self.noise else ["--lengths"] if row.makes == "module" else []
            run(TOOLS / "lay_out.py", *how, module, f"{out}.laid")
            text = pathlib.Path(f"{out}.laid").read_bytes()
        else:
            text = output("sed", "-E", "-f", TOOLS / "for_machine.sed", module)
        attributes, returns = row.attributes.encode(), row.returns.encode()
        text = re.sub(rb"^attributes #[0-9]+ = \{", lambda it: it[0] + b" " + attributes, text, flags=re.M)
        text = re.sub(rb"^(define (?:noundef )?)(i32 @slh_)", lambda it: it[1] + returns + b" " + it[2], text,
                      flags=re.M)
        out.write_bytes(text)

    def compile_module(self, row, module, file):
        """Compiles a module in its layout to an object."""
        as_llvm("clang", f"--target={row.triple}", *row.words, *row.compiler, *AS_RATTLE, "-c", "-x", "ir", module,
                "-o", file)

    def proved_object(self, crate, target, lanes, file, kinds, *flags):
        """Makes the proved object of a crate for a target. Where rattle does not compile it, exports of these kinds are
        hidden: other names stand for them."""
        row = TARGETS[target]
        if not row.of:
            self.proved_archive(crate, target, lanes, f"{file}.a", *flags)
            parts = pathlib.Path(f"{file}.parts")
            parts.mkdir()
            run(kit.path("toolchain/bin/llvm-ar"), "x", f"{file}.a", cwd=parts)
            (parts / f"{crate}.o").rename(file)
            return
        module = pathlib.Path(f"{file}.laid.ll")
        self.proved_module(crate, row.of, lanes, pathlib.Path(f"{file}.ll"), *flags)
        self.lay_out(row, f"{file}.ll", module)
        text = module.read_bytes()
        for name in names_of(kinds):
            text = re.sub(rb"^define (.*@slh_%b\()" % name.encode(), rb"define hidden \1", text, flags=re.M)
        module.write_bytes(text)
        self.compile_module(row, module, file)

    # ---- the C round it

    def compile(self, row, file, folder, *words):
        """Compiles a file of c/exports/ to an object of a folder, which it returns."""
        as_llvm("clang", f"--target={row.triple}", *AS_EXPORTS, *row.compiler, *row.words, *words, "-c", file, "-o",
                folder / f"{file}.o", cwd=EXPORTS)
        return folder / f"{file}.o"

    def rename_in(self, row, file, name, kinds, suffix, folder):
        """Writes a proved object to FOLDER/NAME.o. Its exports of these kinds get names that end in SUFFIX, and so does
        what the proved code asks of C. Adds the names to FOLDER/hidden."""
        mark = "_" if row.form == "macho" else ""
        names = {f"{mark}slh_{it}": f"{mark}slh_{it}_{suffix}" for it in names_of(kinds)}
        names |= {f"{mark}{it}": f"{mark}slh_{it}" for it in ("memcpy", "memmove", "memset")}
        write(folder / "names", [f"{old} {new}" for old, new in names.items()])
        as_llvm("llvm-objcopy", f"--redefine-syms={folder / 'names'}", file, folder / f"{name}.o")
        with open(folder / "hidden", "a") as hidden:
            hidden.writelines(f"{it}\n" for it in names.values())

    def put_exports_round(self, target, parts, *words):
        """Makes libslh.a of the proved objects in a folder and the C round them, which is compiled with these words.
        What has another name for this, and what the files of c/exports/ share, nobody else sees. Where the kit's linker
        joins no objects of the form, the archive has each: the names are hidden, but for Windows."""
        row = TARGETS[target]
        for file in row.round:
            self.compile(row, file, parts, *words)
        if row.form == "elf":
            with open(parts / "hidden", "a") as hidden:
                hidden.writelines(f"slh_{it}\n" for it in ("clear", *OF_SINGLE))
            self.join(parts / "joined", *objects(parts))
            for it in objects(parts):
                it.unlink()
            as_llvm("llvm-objcopy", f"--localize-symbols={parts / 'hidden'}", parts / "joined", parts / "slh_c.o")
        self.archive(f"{target}/libslh.a", *objects(parts))
        if row.shared:
            {"elf": self.share_elf, "coff": self.share_coff}[row.form](target)

    def join(self, file, *words):
        run(kit.path("toolchain/bin/ld.lld"), "-r", "-o", file, *words)

    def archive(self, name, *files):
        """Makes an archive of the folder anew, of these objects."""
        (self.folder / name).parent.mkdir(parents=True, exist_ok=True)
        (self.folder / name).unlink(missing_ok=True)
        run(kit.path("toolchain/bin/llvm-ar"), "rcsD", self.folder / name, *files)

    def share_elf(self, target):
        """Makes the shared object of libslh.a. docs/LIBRARY.md, "Versions", says when the number behind .so rises."""
        row, symbols = TARGETS[target], self.work / "symbols"
        symbols.write_bytes(output(TOOLS / "symbols.sh"))
        run(kit.path("toolchain/bin/ld.lld"), "-shared", "-soname", row.shared, "--version-script", symbols,
            "--no-undefined-version", "--build-id=sha1", "-z", "noexecstack", "-z", "relro", "-z", "now", "-o",
            self.folder / target / row.shared, "--whole-archive", self.folder / target / "libslh.a",
            "--no-whole-archive", *(kit.path(it) for it in row.beside))

    def share_coff(self, target):
        """The same for Windows, with the library that imports it. What the code asks of C is in each Windows."""
        row, out, made = TARGETS[target], self.work / f"{target}-shared", self.folder / target
        out.mkdir()
        write(out / "c.def", ["LIBRARY msvcrt.dll", "EXPORTS", "memcpy", "memmove", "memset"])
        as_llvm("llvm-dlltool", "-m", "i386:x86-64", "-d", out / "c.def", "-l", out / "c.lib")
        (out / "slh.def").write_bytes(b"EXPORTS\n" + output(TOOLS / "symbols.sh", "--calls"))
        as_llvm("lld-link", "/nologo", "/dll", "/noentry", "/nodefaultlib", "/machine:x64", "/Brepro", "/opt:ref",
                f"/def:{out / 'slh.def'}", f"/out:{made / row.shared}",
                f"/implib:{made / row.shared.removesuffix('.dll')}.lib", f"/wholearchive:{made / 'libslh.a'}",
                out / "c.lib")

    def make_exports(self, target):
        """Makes libslh.a of a target, and what the table has beside it."""
        row, parts = TARGETS[target], self.work / f"{target}-exports"
        parts.mkdir()
        if row.levels:
            self.put_exports_round(target, parts, *self.levels_of(row, parts))
            return self.cut_verify(target) if row.verify else None
        # A call with a number of the machine's width stands round its export where the proved code has another.
        kinds = SECRET_KINDS if row.bits == 64 else ALL_KINDS
        self.proved_object("slh_c", target, target, self.work / f"{target}.o", kinds)
        self.rename_in(row, self.work / f"{target}.o", target, kinds, "proved", parts)
        self.put_exports_round(target, parts, f'-DSLH_DEPTHS="depths/{row.depths or target}.h"')
        return self.cut_verify(target) if row.verify else None

    def levels_of(self, row, parts):
        """Makes what the levels of a target have of their own, and puts their proved objects into a folder: the words
        for the C round them."""
        defines = []
        for level in row.levels:
            number, variant = TARGETS[level].level, TARGETS[level].variant
            if TARGETS[level].makes:
                self.make_exports(level)
            if not (self.work / f"{level}.o").exists():
                self.proved_object("slh_c", level, level, self.work / f"{level}.o", ALL_KINDS)
            self.rename_in(row, self.work / f"{level}.o", level, ALL_KINDS, f"v{number}{variant}", parts)
            macro = f"SLH_DEPTHS_V{number}{variant.upper()}"
            defines.append(f'-D{macro}="depths/{TARGETS[level].depths or level}.h"')
        return ["-DSLH_ALL_LEVELS", f"-DSLH_HIGHEST={number}", *defines]

    def cut_verify(self, target):
        """Makes libslh_verify.a of a target whose proved object is there. The linker keeps what its calls reach, and so
        drops the other calls. These calls are weak: a program that is linked with libslh.a, too, takes them from there,
        in whatever order it names the two."""
        row, file, cut = TARGETS[target], self.work / f"{target}.o", self.work / "slh_verify.o"
        parts = self.work / f"{target}-verify"
        parts.mkdir()
        if row.verify == "slh_c":
            beside = [self.compile(row, it, parts) for it in SINGLE if it in row.round]
        else:
            file, beside = self.work / f"{target}-firmware.o", []
            self.proved_object(row.verify, target, "1", file, "", "small")
        run(kit.path("toolchain/bin/ld.lld"), "-r", "--gc-sections", "--discard-all",
            *(f"--undefined={it}" for it in VERIFY_CALLS), "-o", cut, file, *beside)
        as_llvm("llvm-objcopy", *(f"--localize-symbol=slh_{it}" for it in OF_SINGLE), "--weaken", cut)
        self.archive(f"{target}/libslh_verify.a", cut)

    # ---- WebAssembly and C

    def make_module(self, target):
        """Makes a WebAssembly module."""
        (self.folder / target).mkdir(parents=True, exist_ok=True)
        file = self.folder / target / "slh.wasm"
        if TARGETS[target].of:
            self.link_laid_module("slh_c", target, file)
        else:
            self.link_module("slh_c", target, file)

    def link_laid_module(self, crate, target, file, *flags):
        """Links the proved exports of a crate for a target that rattle does not build, as the kit links such a module,
        with the C of c/exports/ in place of its own. The stack has 1 MB, and what leaves it traps."""
        row, parts = TARGETS[target], self.work / f"{crate}-{target}"
        parts.mkdir(exist_ok=True)
        self.proved_object(crate, target, target, parts / "proved.o", "", *flags)
        for it in row.round:
            self.compile(row, it, parts)
        as_llvm("wasm-ld", "--no-entry", "--stack-first", "-z", "stack-size=1048576", "--gc-sections",
                "--export=__heap_base", "-o", file, *objects(parts))

    def link_module(self, crate, target, file):
        """Links the proved exports of a crate for a target that rattle builds."""
        self.proved_archive(crate, target, target, self.work / f"{crate}.a")
        run(kit.path("bin/rattle-link"), "--target", TARGETS[target].triple, "--toolchain", kit.path("toolchain"), "-o",
            file, self.work / f"{crate}.a")

    def make_source(self, target):
        """Makes the portable C."""
        self.link_module("slh_c", target, self.work / "slh.wasm")
        self.link_laid_module("slh_c_verify", TARGETS[target].small, self.work / "slh_verify.wasm", "small")
        run(TOOLS / "portable.py", self.work / "slh.wasm", self.work / "slh_verify.wasm", self.folder / target)

    # ---- boards

    def make_board(self, target):
        """Makes the libraries of a board."""
        row = TARGETS[target]
        made = {it: self.work / f"{target}.{it}.ll" for it in ("no_hook", "all_sets", "short_sets")}
        self.proved_module("slh_c_verify", row.of, "1", self.work / f"{target}.ll", "small")
        self.lay_out(row, self.work / f"{target}.ll", made["no_hook"])
        made["all_sets"].write_bytes(output("sed", "-E", "-f", TOOLS / "for_hook.sed", made["no_hook"]))
        if sum(b"@slh_between_layers()" in it for it in made["all_sets"].read_bytes().splitlines()) != 2:
            refuse("the module has not the one function that for_hook.sed names")
        made["short_sets"].write_bytes(output("sed", "-E", "-f", TOOLS / "for_128.sed", made["all_sets"]))
        self.board_archive(target, "libslh_verify.a", made["all_sets"])
        self.board_archive(target, "libslh_verify_128.a", made["short_sets"], "-DSLH_VERIFY_128")

    def board_archive(self, target, name, module, *words):
        """Makes an archive of a board: a module in its layout, and c/exports/board.c round it, which is compiled with
        these words."""
        row, parts = TARGETS[target], self.work / f"{target}-{name}"
        parts.mkdir()
        self.compile_module(row, module, parts / "proved")
        write(parts / "names", [f"{it} {it}_proved" for it in VERIFY_CALLS])
        as_llvm("llvm-objcopy", f"--redefine-syms={parts / 'names'}", parts / "proved", parts / "proved.o")
        # The linker takes the attributes of the first object.
        self.join(parts / "joined", *[self.compile(row, it, parts, *words) for it in row.round], parts / "proved.o")
        as_llvm("llvm-objcopy", *(f"--localize-symbol={it}_proved" for it in VERIFY_CALLS), parts / "joined",
                parts / "slh_verify.o")
        self.archive(f"{target}/{name}", parts / "slh_verify.o")


# ---- the command


def named(words):
    """The targets of a list of names, of which some stand for several."""
    made = {name for name, it in TARGETS.items() if it.makes}
    found = []
    for it in words.replace(",", " ").split():
        found += [it] if it in made else GROUPS.get(it) or refuse(f"no target {it}")
    return found


def build(targets, folder, noise):
    """Builds the library for targets into a folder."""
    folder.mkdir(parents=True, exist_ok=True)
    with tempfile.TemporaryDirectory() as work:
        builder = Builder(folder.resolve(), pathlib.Path(work), noise)
        for it in targets:
            builder.make(it)


def main():
    verb, *words = sys.argv[1:] or [""]
    kit.need_kit()
    if verb == "toolchain" and len(words) > 1 and {*words[1:3]} <= {*TARGETS} and {*words[3:]} <= {"small", "module"}:
        return make_toolchain(*words)
    if verb == "width" and len(words) == 2 and words[0] in TARGETS:
        return build_width(words[0], pathlib.Path(words[1]).resolve())
    if len(words) == 1 or words[1:] == ["--noise"]:
        return build(named(verb), pathlib.Path(words[0]), len(words) == 2)
    print(__doc__.split("\n\n")[1], file=sys.stderr)
    sys.exit(2)


if __name__ == "__main__":
    try:
        main()
    except subprocess.CalledProcessError as error:
        sys.exit(f"tools/targets.py: {error.cmd[0]} ended with status {error.returncode}")
