#!/usr/bin/env python3
"""Disturbs the end of a verification on an emulated processor, one instruction at a time, and looks what a boot loader
makes of it.

usage: tests/glitches.py [--few] MACHINE CALL PROGRAM [SEED]      MACHINE is cortex-m4, cortex-m0 or riscv32,
                                                                  CALL is plain or hardened

PROGRAM is tests/glitched.c over a library of the machine, linked for address 0x10000 and above. It runs in Unicorn, of
which Python needs the module. First an image is verified whose signature is valid, so that all which that leaves in
memory is there. Then one of these is given:

- a signature that has a flipped bit in its last layer;
- without --few also a valid signature and a byte behind it: there no register is cleared and no bit of one flipped.

From the end of the last hash to the decision, each instruction is disturbed in turn: it is skipped, or before it one
register is cleared or a flag flipped; without --few, also one register filled with ones, or one of its bits flipped.
Stack pointer and program counter are left alone, since a wrong one may go anywhere, also behind the decision. Without
--few, faults are also drawn from the whole hardened call.

The call is turned if the program boots then. `plain` has to be turned by some, so that a test which finds nothing
fails, and `hardened` by none. With machine code that was edited so that one comparison gives both halves of the
verdict, 14 faults turned `hardened` on a Cortex-M4, of those with --few. The draws follow from SEED, which is printed.
The last line has the counts.
"""
import hashlib
import json
import pathlib
import random
import struct
import subprocess
import sys

import unicorn
from unicorn import arm_const, riscv_const

from counts import HERE, count, end_counts

PAGE, RAM_PAGES = 0x1000, 32
# The steps that are disturbed, those after a fault, and the microseconds of a whole verification after one.
MOST_STEPS, MOST_AFTER, MOST_TIME = 4000, 20000, 20_000_000
# The faults that are drawn from a whole call, and the instructions from the begin of a hash to about that of the next.
DRAWS, MOST_BETWEEN = 200, 3700
# The bytes of the stack that a call writes.
KEPT = 20 * 1024
VARIABLES = ["pk", "digest", "context", "signature", "context_len", "signature_len", "came"]


class Machine:
    """A processor with a program in its memory, and a stack. What it does not define is Unicorn's."""

    def __init__(self, name, file):
        self.is_arm = name != "riscv32"
        if self.is_arm:
            self.emulator = unicorn.Uc(unicorn.UC_ARCH_ARM, unicorn.UC_MODE_THUMB | unicorn.UC_MODE_MCLASS)
            self.ctl_set_cpu_model(getattr(arm_const, f"UC_CPU_ARM_{name.upper().replace('-', '_')}"))
            self.pc, self.sp, self.link = (getattr(arm_const, f"UC_ARM_REG_{it}") for it in ("PC", "SP", "LR"))
            self.registers = [getattr(arm_const, f"UC_ARM_REG_R{it}") for it in range(13)] + [self.link]
        else:
            self.emulator = unicorn.Uc(unicorn.UC_ARCH_RISCV, unicorn.UC_MODE_RISCV32)
            self.pc, self.sp, self.link = (getattr(riscv_const, f"UC_RISCV_REG_{it}") for it in ("PC", "X2", "X1"))
            self.registers = [getattr(riscv_const, f"UC_RISCV_REG_X{it}") for it in range(1, 32) if it != 2]
        self.symbols = {}
        for line in subprocess.run(["nm", "-S", file], capture_output=True, text=True, check=True).stdout.splitlines():
            words = line.split()
            if len(words) == 4:
                self.symbols[words[3]] = int(words[0], 16), int(words[1], 16)
        self.load(pathlib.Path(file).read_bytes())
        self.ends = {self.symbols[it][0] & ~1: it for it in ("booted", "refused")}
        self.end, self.counts = None, False
        for at in self.ends:
            self.hook_add(unicorn.UC_HOOK_CODE, self.stop_at, begin=at, end=at)

    def __getattr__(self, name):
        return getattr(self.emulator, name)

    def forget(self):
        """Forgets what was translated. In Unicorn 2.1 the call for that fails by a check of its own."""
        try:
            self.emulator.ctl_flush_tb()
        except AssertionError:
            self.emulator.ctl_remove_cache(self.low, self.high)

    def stop_at(self, _uc, at, _size, _data):
        self.end = self.ends.get(at)
        self.emu_stop()

    def load(self, elf):
        """Maps the segments of a program, and a stack above them."""
        offset, size, number = struct.unpack_from("<I", elf, 28)[0], *struct.unpack_from("<HH", elf, 42)
        parts = [struct.unpack_from("<8I", elf, offset + it * size) for it in range(number)]
        parts = [it for it in parts if it[0] == 1]
        self.low = min(it[2] for it in parts) // PAGE * PAGE
        self.high = (max(it[2] + it[5] for it in parts) // PAGE + 1 + RAM_PAGES) * PAGE
        self.mem_map(self.low, self.high - self.low)
        for _kind, at, place, _physical, in_file, _in_memory, _flags, _align in parts:
            self.mem_write(place, elf[at : at + in_file])
        # What a wrong pointer may write to, and so has to be put back: the variables, and the stack. Code is in flash.
        variables = [self.symbols[it] for it in VARIABLES]
        first, past = min(at for at, _ in variables), max(at + size for at, size in variables)
        self.written = [(first, past - first), (self.high - KEPT, KEPT)]
        self.mem_protect(self.low, first // PAGE * PAGE - self.low, unicorn.UC_PROT_READ | unicorn.UC_PROT_EXEC)

    def write(self, name, data):
        self.mem_write(self.symbols[name][0], data)

    def begin(self, name):
        """Sets the registers so that the program goes on at a function."""
        self.end = None
        self.reg_write(self.sp, self.high - 64)
        self.reg_write(self.link, 0)
        self.place = self.symbols[name][0] & ~1

    def at(self):
        return self.reg_read(self.pc) & ~1

    def go(self, steps=0, limit=0):
        """Goes on until an end, or so many steps, or microseconds. An error of the processor is an end, too. What was
        translated for runs that count steps is not good for others."""
        if (steps > 0) != self.counts:
            self.counts = steps > 0
            self.forget()
        try:
            self.emu_start(self.place | self.is_arm, self.high, timeout=limit, count=steps)
        except unicorn.UcError:
            self.end = "stopped"
        self.place = self.at()

    def keep(self):
        return self.context_save(), self.place, [(at, bytes(self.mem_read(at, size))) for at, size in self.written]

    def put_back(self, kept):
        self.context_restore(kept[0])
        self.place, self.end = kept[1], None
        for at, data in kept[2]:
            self.mem_write(at, data)


def to_hash(machine, name, number):
    """Runs a function to the begin of one of its hashes, counted from 1, or to its end. How many it came to."""
    place = next(at for it, (at, _size) in machine.symbols.items() if "block256" in it and "compress" in it) & ~1
    made = 0

    def entered(_uc, _at, _size, _data):
        nonlocal made
        made += 1
        if made == number:
            machine.emu_stop()

    hook = machine.hook_add(unicorn.UC_HOOK_CODE, entered, begin=place, end=place)
    machine.forget()
    machine.begin(name)
    machine.go()
    machine.hook_del(hook)
    machine.forget()
    return made


def to_last_hash(machine, name):
    """Runs a function to the end of its last hash, or leaves it at its begin if it makes none. How many it made."""
    kept = machine.keep()
    hashes = to_hash(machine, name, None)
    machine.put_back(kept)
    machine.begin(name)
    if hashes:
        to_hash(machine, name, hashes)
        back = machine.reg_read(machine.link) & ~1
        while machine.end is None and machine.at() != back:
            machine.go(1)
    return hashes


def faults(machine, few, goes_on):
    """What is done to a register: its number, and what becomes of its value."""
    for register in [] if goes_on else machine.registers:
        yield register, lambda value: 0
        if few:
            continue
        yield register, lambda value: 0xFFFFFFFF
        for bit in range(32):
            yield register, lambda value, bit=bit: value ^ 1 << bit
    if machine.is_arm:
        for bit in range(28, 32):
            yield arm_const.UC_ARM_REG_XPSR, lambda value, bit=bit: value ^ 1 << bit


def size_at(machine):
    first = struct.unpack("<H", machine.mem_read(machine.place, 2))[0]
    return 4 if (first >> 11 in (0x1D, 0x1E, 0x1F) if machine.is_arm else first & 3 == 3) else 2


def skip(machine):
    """Goes over an instruction: there is one in its place that does nothing."""
    at, size = machine.place, size_at(machine)
    nothing = {(True, 2): b"\x00\xbf", (True, 4): b"\xaf\xf3\x00\x80", (False, 2): b"\x01\0", (False, 4): b"\x13\0\0\0"}
    is_two = machine.name == "cortex-m0" and size == 4
    if is_two:
        nothing[True, 4] = b"\x00\xbf\x00\xbf"
    before = bytes(machine.mem_read(at, size))
    machine.mem_write(at, nothing[machine.is_arm, size])
    machine.ctl_remove_cache(at, at + size)
    machine.go(1 + is_two)
    machine.mem_write(at, before)
    machine.ctl_remove_cache(at, at + size)


def disturb(machine, few, goes_on=False):
    """Disturbs each instruction from here on to the end. Where it GOES_ON, a whole verification may follow. How many
    instructions were disturbed, in how many ways, and which of these booted: the number and the address of the
    instruction, and what was done."""
    steps, tried, turned = 0, 0, []

    def judge(what):
        nonlocal tried
        tried += 1
        if machine.end is None:
            machine.go(MOST_AFTER)
        if machine.end is None and goes_on:
            machine.go(limit=MOST_TIME)
        if machine.end == "booted":
            turned.append((steps, hex(kept[1]), what))
        machine.put_back(kept)

    kept = machine.keep()
    while steps < MOST_STEPS:
        machine.put_back(kept)
        skip(machine)
        judge("skipped")
        for register, change in faults(machine, few, goes_on):
            before = machine.reg_read(register)
            machine.reg_write(register, change(before) & 0xFFFFFFFF)
            judge(f"register {register}: {before:08x} is {change(before) & 0xFFFFFFFF:08x}")
        machine.go(1)
        steps += 1
        if machine.end is not None:
            break
        kept = machine.keep()
    return steps, tried, turned


def disturb_anywhere(machine, name, hashes, draws):
    """Disturbs one instruction that is drawn from a whole call, so many times. How many of the calls booted."""
    booted, begun, all_faults = 0, machine.keep(), list(faults(machine, False, False))
    for _ in range(draws):
        to_hash(machine, name, random.randrange(1, hashes + 1))
        machine.go(random.randrange(1, MOST_BETWEEN))
        register, change = random.choice(all_faults)
        if machine.end is None and random.randrange(4) == 0:
            skip(machine)
        elif machine.end is None:
            machine.reg_write(register, change(machine.reg_read(register)) & 0xFFFFFFFF)
        if machine.end is None:
            machine.go(limit=MOST_TIME)
        booted += machine.end == "booted"
        machine.put_back(begun)
    return booted


def given():
    """The arguments of a valid call, of vectors/."""
    wanted = dict(kind="verify", form="SHA2-256", valid=True)
    tests = json.loads((HERE / "tests/vectors/slh-dsa-sha2-128s.json").read_text())
    test = next(it for it in tests if wanted.items() <= it.items())
    return {"pk": bytes.fromhex(test["pk"]), "digest": hashlib.sha256(bytes.fromhex(test["message"])).digest(),
            "context": bytes.fromhex(test["context"]), "signature": bytes.fromhex(test["signature"])}


def hand_over(machine, arguments):
    for name in ("pk", "digest", "context", "signature"):
        machine.write(name, arguments[name])
    for name in ("context", "signature"):
        machine.write(f"{name}_len", struct.pack("<I", len(arguments[name])))


def cases(few):
    """The arguments of calls that are disturbed, by what is wrong with them."""
    valid = given()
    damaged = valid["signature"][:-1] + bytes([valid["signature"][-1] ^ 1])
    found = {"a flipped bit": {**valid, "signature": damaged}}
    if not few:
        found["a byte behind"] = {**valid, "signature": valid["signature"] + b"\0"}
    return found


def try_case(machine, call, arguments, few, about):
    """Disturbs a call with these arguments, and counts whether as many were turned as have to be."""
    hand_over(machine, arguments)
    begun = machine.keep()
    machine.begin(call)
    machine.go()
    end = machine.end
    machine.put_back(begun)
    hashes = to_last_hash(machine, call)
    steps, tried, turned = disturb(machine, few, hashes == 0)
    well = end == "refused" and steps > 50 and bool(turned) == (call == "plain")
    print(f"{about}: {len(turned)} of {tried} boot; {steps} instructions after {hashes} hashes")
    for it in turned[:20]:
        print("  ", it)
    count("passed" if well else "failed")
    if hashes and call == "hardened" and not few:
        machine.put_back(begun)
        booted = disturb_anywhere(machine, call, hashes, DRAWS)
        print(f"{about}: {booted} of {DRAWS} boot, of faults drawn from the whole call")
        count("failed" if booted else "passed")


def main(words):
    few = words[:1] == ["--few"]
    name, call, file, *seed = words[few:]
    seed = int(seed[0]) if seed else random.randrange(1 << 30)
    random.seed(seed)
    print(f"{name}: the draws are of seed {seed}")
    machine = Machine(name, file)
    machine.name = name
    hand_over(machine, given())
    machine.begin(call)
    machine.go()
    is_valid = machine.end == "booted"
    count("passed" if is_valid else "failed", f"{name}, {call}: a valid signature: {machine.end}")
    for case, arguments in cases(few).items():
        try_case(machine, call, arguments, few, f"{name}, {call}, {case}")
    end_counts()


if __name__ == "__main__":
    main(sys.argv[1:])
