"""Runs the boot loader of examples/boot.c on emulated boards: its two slots decide which image runs, and it prints its
reasons. The images are made, packed and signed here, by the program of the release.
"""
import hashlib
import secrets
import shutil
import struct
import subprocess
import typing

import pytest

import board as boards
import machines
from conftest import STRICT
from support import HERE, TESTS, need, run, succeed

SET = "SLH-DSA-SHA2-128s"
SLOT = 32768
BOARDS = [*boards.CORTEX, "riscv32imac"]
PACK = HERE / "examples/boot_pack.py"
ZEROS = bytes(7856)

NO_IMAGE, NOT_SIGNED, TOO_OLD = "boot: no image", "boot: not signed", "boot: too old"
RUNS = {it: f"image {it} runs" for it in ("1.2.0", "1.3.0")}
# The files in both slots, and the lines of the loader.
CASES = {
    "signed": ("a120", "empty", [RUNS["1.2.0"]]),
    "flipped bit": ("a120-damaged", "empty", [NOT_SIGNED, NO_IMAGE]),
    "older": ("a110", "empty", [TOO_OLD, NO_IMAGE]),
    "newer is damaged": ("a120", "b130-damaged", [NOT_SIGNED, RUNS["1.2.0"]]),
}
# Of these SLH_SEED draws one.
OTHER_CASES = {
    "second slot": ("empty", "b130", [RUNS["1.3.0"]]),
    "newer of two": ("a120", "b130", [RUNS["1.3.0"]]),
    "damaged signature": ("a120-resigned", "empty", [NOT_SIGNED, NO_IMAGE]),
    "older with a newer header": ("a110-newer", "empty", [NOT_SIGNED, NO_IMAGE]),
    "signed by another key": ("a120-other", "empty", [NOT_SIGNED, NO_IMAGE]),
    "header of more than the slot": ("a120-long", "empty", [NO_IMAGE]),
    "trailer of more than the slot": ("a120-trailer", "empty", [NO_IMAGE]),
    "empty slots": ("empty", "empty", [NO_IMAGE]),
}
# The compiler for RISC-V has a C library of 64 bits alone.
STRING_H = """\
#include <stddef.h>
void *memcpy(void *, const void *, size_t), *memmove(void *, const void *, size_t);
void *memset(void *, int, size_t);
"""
IMAGE_LD = """\
SECTIONS { . = START; .all : { KEEP(*(.vectors)) *(.text*) *(.rodata*) }
    /DISCARD/ : { *(.ARM.exidx*) *(.note*) *(.eh_frame*) } }
"""


class Board(typing.NamedTuple):
    """A board: its compiler's triple and words, the files of the loader and of an image, its slots' places, and the
    command that runs the loader."""

    name: str
    triple: str
    words: list
    loader: list
    image: list
    slots: tuple
    runs: list


def riscv(folder):
    (folder / "string.h").write_text(STRING_H)
    words = ["-O2", "-march=rv32imac", "-mabi=ilp32", "-ffreestanding", "-fno-builtin", "-nostdlib", "-static",
             "-Wno-unused-function"]
    file = TESTS / "boot_riscv.c"
    return Board("riscv32imac", "riscv64-linux-gnu", words, [file], [file, "-DIMAGE"], (0x400000, 0x500000),
                 [machines.qemu("riscv32")])


def cortex(name, folder):
    row, script = boards.CORTEX[name], folder / "loader.ld"
    script.write_text(boards.linker_script(name))
    words = [f"-mcpu={row.processor}", "-mthumb", "-nostartfiles", "--specs=nano.specs"]
    slots = tuple(int(row.flash, 16) + it for it in (0x40000, 0x60000))
    runs = ["qemu-system-arm", *row.machine, "-nographic", "-semihosting-config", "enable=on,target=native", "-kernel"]
    return Board(name, "arm-none-eabi", words, [HERE / "examples/boot_cortex_m.c", "-T", script],
                 [HERE / "examples/boot_image.c"], slots, runs)


@pytest.fixture(scope="module")
def signer(pytestconfig):
    """The program `slh` of the release."""
    found = machines.programs_here(pytestconfig)
    if not found:
        pytest.skip("the release has no program for this processor (it takes x86-64-v2)")
    return found[0]


class Keys(typing.NamedTuple):
    """A folder with two keys, `own` that the loader has compiled in, and `other`, and the program that signs."""

    folder: typing.Any
    program: str

    def sign(self, key, file):
        return succeed(self.program, "sign", "--key", self.folder / f"{key}.key", "--prehash", "SHA2-256", "--random",
                       secrets.token_hex(16), "--message", file)


@pytest.fixture(scope="module")
def keys(signer, tmp_path_factory):
    folder = tmp_path_factory.mktemp("keys")
    for name in ("own", "other"):
        key = succeed(signer, "keygen", "--set", SET, stdin=secrets.token_hex(48).encode())
        (folder / f"{name}.key").write_bytes(key)
        (folder / f"{name}.pub").write_bytes(succeed(signer, "public", "--key", folder / f"{name}.key"))
    public = bytes.fromhex((folder / "own.pub").read_text().split()[3])
    (folder / "public_key.h").write_text(machines.as_numbers(public))
    return Keys(folder, signer)


# ---- images


def with_bytes(data, at, some):
    """Data in which the bytes from a place on are others."""
    changed = data[:at] + some + data[at + len(some):]
    assert changed != data and len(changed) == len(data)
    return changed


class Maker:
    """Makes images for a board in a folder, and runs its loader over them."""

    def __init__(self, board, keys, archive, folder):
        self.board, self.keys, self.archive, self.folder = board, keys, archive, folder
        need(f"{board.triple}-gcc", f"{board.triple}-objcopy")
        self.cc = [f"{board.triple}-gcc", "-std=c11", *STRICT, "-Os", "-ffunction-sections", "-fdata-sections", "-I",
                   keys.folder, "-I", folder, "-I", HERE / "examples", "-I", HERE / "c/include", *board.words]

    def image(self, version, slot, key="own"):
        """An image of a version for a slot, signed by a key and filled up to the slot's size, and where the image ends
        before its trailer."""
        it = self.folder
        (it / "image.ld").write_text(IMAGE_LD.replace("START", str(self.board.slots[slot] + 32)))
        succeed(*self.cc, f'-DVERSION_TEXT="{version}"', *self.board.image, "-nostdlib", "-Wl,--build-id=none", "-T",
                it / "image.ld", "-o", it / "image.elf")
        succeed(f"{self.board.triple}-objcopy", "-O", "binary", it / "image.elf", it / "image")
        succeed(PACK, "header", version, it / "image", it / "signed")
        (it / "signature").write_bytes(self.keys.sign(key, it / "signed"))
        succeed(PACK, "trailer", it / "signed", self.keys.folder / f"{key}.pub", it / "signature", it / "packed")
        return (it / "packed").read_bytes().ljust(SLOT, b"\xff"), (it / "signed").stat().st_size

    def make_all(self):
        """Writes each image that a case names."""
        a120, end = self.image("1.2.0", 0)
        a110, b130 = self.image("1.1.0", 0)[0], self.image("1.3.0", 1)[0]
        made = {"empty": SLOT * b"\xff", "a120": a120, "a110": a110, "b130": b130,
                "a120-other": self.image("1.2.0", 0, "other")[0],
                "a120-damaged": with_bytes(a120, end - 1, b"\x5a"), "b130-damaged": with_bytes(b130, end - 1, b"\x5a"),
                "a120-resigned": with_bytes(a120, end + 5000, bytes(range(1, 6))),
                "a110-newer": with_bytes(a110, 20, b"\1\x09"), "a120-long": with_bytes(a120, 12, b"\xf0\xff\xff\xff"),
                "a120-trailer": with_bytes(a120, end + 2, b"\xff\xff")}
        for name, data in made.items():
            (self.folder / name).write_bytes(data)

    def boot(self, a, b):
        """The lines of a loader with two files in its slots."""
        text = "".join(f'.section .slot_{it}, "ax"\n.globl slot_{it}\nslot_{it}: .incbin "{self.folder / file}"\n'
                       for it, file in zip("ab", (a, b)))
        (self.folder / "slots.S").write_text(text)
        places = ",".join(f"--section-start=.slot_{it}={at:#x}" for it, at in zip("ab", self.board.slots))
        succeed(*self.cc, "-Wl,--gc-sections,--undefined=slot_a,--build-id=none", f"-Wl,{places}", *self.board.loader,
                HERE / "examples/boot.c", self.folder / "slots.S", self.archive, "-lgcc", "-o",
                self.folder / "loader.elf")
        done = run(*self.board.runs, self.folder / "loader.elf", stderr=subprocess.STDOUT)
        return done.output.decode().splitlines()


@pytest.fixture(scope="module")
def makers():
    return {}


@pytest.fixture
def emulated(pytestconfig, makers, install, keys, tmp_path_factory, board):
    """The maker of a board, with its images."""
    if board not in makers:
        if board != "riscv32imac":
            need("arm-none-eabi-gcc", "qemu-system-arm")
            try:
                boards.check_processor(board)
            except boards.NoProcessor as cause:
                pytest.skip(f"{cause} (Debian 12's package qemu-system-arm does)")
        archive = machines.for_target(pytestconfig, install, board) / "lib/libslh_verify_128.a"
        folder = tmp_path_factory.mktemp(board)
        maker = Maker(riscv(folder) if board == "riscv32imac" else cortex(board, folder), keys, archive, folder)
        maker.make_all()
        makers[board] = maker
    return makers[board]


@pytest.mark.slow
@pytest.mark.parametrize("board", BOARDS)
@pytest.mark.parametrize("case", [*CASES, *(
    pytest.param(it, marks=pytest.mark.drawn("the case of the boot loader", "case")) for it in OTHER_CASES)])
def test_loader(emulated, board, case):
    a, b, lines = (CASES | OTHER_CASES)[case]
    assert emulated.boot(a, b) == lines


# ---- packing


@pytest.fixture
def parts(tmp_path):
    """A folder with files that are packed, and two that a failed command leaves: `nothing`, and a secret key."""
    (tmp_path / "nothing").touch()
    (tmp_path / "zeros").write_bytes(ZEROS)
    (tmp_path / "public").write_text(f"slh-dsa-public 2\n{SET}\n{1:064d}\n")
    (tmp_path / "secret").write_text((tmp_path / "public").read_text().replace("public", "secret"))
    succeed(PACK, "header", "1.2.0", tmp_path / "zeros", tmp_path / "headed")
    return tmp_path


@pytest.mark.parametrize("words", [
    "header 1.2.0 nothing", "trailer zeros public zeros", "trailer nothing public zeros",
    "trailer headed public nothing", "trailer headed public headed", "trailer headed nothing zeros",
    "trailer headed secret zeros"])
def test_part_is_not_packed(parts, words):
    """A failed command leaves an empty file. An image without a header is not packed either."""
    assert run(PACK, *words.split(), "out", cwd=parts).status != 0
    assert not (parts / "out").exists()


def test_packed_image_is_read_by_the_rules_of_imgtool(parts):
    """It has the magic numbers of MCUboot, and tags of the SHA-256 of header and image and of the public key. imgtool
    itself reads it if it is installed."""
    succeed(PACK, "trailer", "headed", "public", "zeros", "out", cwd=parts)
    image = (parts / "out").read_bytes()
    magic, _, header_size, protected, size = struct.unpack_from("<IIHHI", image)
    assert (magic, protected) == (0x96F3B83D, 0)
    at = header_size + size
    magic, total = struct.unpack_from("<HH", image, at)
    assert magic == 0x6907
    tags, signed, end, at = {}, image[:at], at + total, at + 4
    while at < end:
        tag, length = struct.unpack_from("<HH", image, at)
        tags[tag], at = image[at + 4:at + 4 + length], at + 4 + length
    assert at == end and tags.keys() == {0x10, 0x01, 0xA0}
    assert tags[0x10] == hashlib.sha256(signed).digest()
    assert tags[0x01] == hashlib.sha256(bytes.fromhex((parts / "public").read_text().split()[3])).digest()
    if shutil.which("imgtool"):
        succeed("imgtool", "verify", "out", cwd=parts)
