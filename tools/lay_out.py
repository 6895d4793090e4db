#!/usr/bin/env python3
"""Lays a proved module out for a machine whose pointers have 32 bits.

usage: tools/lay_out.py [--lengths | --noise] MODULE OUT      both are LLVM's text; MODULE is what the kit compiles

The proofs are about 64-bit addresses: the module has each pointer in a slot of 8 bytes, and finds the parts of a value
by their 64-bit places. Both stay. A pointer of 32 bits fills the first half of its slot, and nothing reads the other
half. These instructions are written anew:

    alloca ptr                    a slot of 8 bytes
    load { A, B }                 the parts are loaded one by one, at their 64-bit places
    ptrtoaddr ptr to i64          ptrtoint, which widens: an address is compared, and never made of a number
    memset, memcpy, memmove       the number of bytes is narrowed to 32 bits
    target, target-cpu, probes    left out: the compiler is told its machine

With --lengths an exported function first looks at its numbers of 64 bits, which are lengths, and traps if one has more
than 32. Without it the C round the function takes no longer ones.

The script knows each instruction that it lets through, by its whole line. It refuses any other line, so that no
pointer is stored, loaded, returned or made of a number in a way that was not looked at. It also refuses a function
that reads or writes a part of a pointer's slot as a number, as far as the function itself shows it.

tests/test_lay_out.py tries each rule, and tests/test_boards.py runs all vectors with noise in the unused half of each
slot (--noise).
"""
import re
import sys

V = r"%[\w.$-]+"
INTEGER = r"i(?:1|8|16|32|64|128)"
NUMBER = rf"(?:{INTEGER}|<\d+ x {INTEGER}>)"
# A constant, or a value that was computed.
OPERAND = rf"(?:{V}|-?\d+|true|false|zeroinitializer|splat \({INTEGER} -?\d+\)|<(?:{INTEGER} -?\d+(?:, )?)+>)"
GLOBAL = r'@(?:"[^"]+"|[\w.$-]+)'
POINTER = rf"(?:{V}|{GLOBAL})"
PAIR = rf"\{{ (?:{INTEGER}|ptr), (?:{INTEGER}|ptr) \}}"
RESULT = rf"(?:noundef |zeroext |signext )*(?:void|{NUMBER}|ptr|{PAIR})"
WORDS = r"(?:noundef |zeroext |signext )*"
ARGUMENT = rf"(?:{NUMBER} {WORDS}{OPERAND}|ptr {WORDS}{POINTER})"
PARAMETER = rf"(?:{NUMBER}|ptr) {WORDS}{V}"
SEVERAL = "(?:{0}(?:, {0})*)?"
KNOWN = r"(?:, !(?:noundef|range) !\d+)*"
ALIGNED = rf", align \d+{KNOWN}"
# Calls of LLVM, and of the kit's code round exports for WebAssembly: none takes a pointer or a number of bytes.
OF_NUMBERS = "cttz|ctlz|ctpop|bswap|bitreverse|fshl|fshr|umin|umax|smin|smax|uadd\\.sat|usub\\.sat"
PLAIN_CALLS = rf"@__rattle_(?:enter|leave|trap)|@llvm\.(?:trap|frameaddress\.p0)|@llvm\.(?:{OF_NUMBERS})\.\w+"

# Lines that mean the same with pointers of 32 bits.
KEPT = [
    rf"{V} = (?:add|sub|mul|udiv|urem|and|or|xor|shl|lshr|ashr)(?: nuw| nsw| exact| disjoint)* "
    rf"{NUMBER} {OPERAND}, {OPERAND}",
    rf"{V} = (?:zext|sext|trunc)(?: nneg| nuw| nsw)* {NUMBER} {OPERAND} to {NUMBER}",
    rf"{V} = icmp (?:samesign )?\w+ {NUMBER} {OPERAND}, {OPERAND}",
    rf"{V} = icmp (?:eq|ne) ptr {POINTER}, (?:{POINTER}|null)",
    rf"{V} = select {NUMBER} {OPERAND}, {NUMBER} {OPERAND}, {NUMBER} {OPERAND}",
    rf"{V} = select i1 {OPERAND}, ptr {POINTER}, ptr {POINTER}",
    rf"{V} = extractelement {NUMBER} {OPERAND}, {INTEGER} {OPERAND}",
    rf"{V} = insertelement {NUMBER} (?:{OPERAND}|poison), {INTEGER} {OPERAND}, {INTEGER} {OPERAND}",
    rf"{V} = shufflevector {NUMBER} {OPERAND}, {NUMBER} (?:{OPERAND}|poison), {NUMBER} {OPERAND}",
    rf"{V} = bitcast <16 x i1> {OPERAND} to i16",
    rf"{V} = extractvalue {PAIR} {V}, [01]",
    rf"{V} = alloca (?:{NUMBER}|\[\d+ x i8\]), align \d+",
    rf"{V} = getelementptr (?:inbounds |nuw |nusw )*i8, ptr {POINTER}, i64 (?:{V}|\d+)",
    rf"{V} = load (?:{NUMBER}|ptr), ptr {POINTER}{ALIGNED}",
    rf"store {NUMBER} {OPERAND}, ptr {POINTER}, align \d+",
    rf"store ptr {POINTER}, ptr {POINTER}, align 8",
    rf"br label {V}", rf"br i1 {OPERAND}, label {V}, label {V}",
    rf"switch {INTEGER} {OPERAND}, label {V} \[",
    rf"{INTEGER} -?\d+, label {V}",
    r"\]",
    rf"ret (?:void|{NUMBER} {OPERAND}|ptr {POINTER}|{PAIR} {V})",
    r"unreachable",
    rf"(?:{V} = )?call {RESULT} (?!@llvm\.mem){GLOBAL}\({SEVERAL.format(ARGUMENT)}\)(?: #\d+)?",
]
KEPT = re.compile("|".join(f"(?:{it})" for it in KEPT))
LABEL = re.compile(r"[\w.$-]+:(?: +; .*)?")

MEMORY = re.compile(rf"(call void @llvm\.mem(?:set\.p0|cpy\.p0\.p0|move\.p0\.p0))\.i64"
                    rf"\((ptr {POINTER}, (?:i8 {OPERAND}|ptr {POINTER})), i64 (\d+|{V})(, i1 false\))")
DEFINE = re.compile(rf"(define (?:internal )?{RESULT} {GLOBAL}\({SEVERAL.format(PARAMETER)}\)) "
                    rf"(#\d+(?: \w+)*|[a-z ]+) \{{")
CALLED = re.compile(rf"(?:{V} = )?call {RESULT} ({GLOBAL})\(")
# What a module has besides functions.
HEAD = re.compile(rf"{GLOBAL} = (?:private |internal )?unnamed_addr constant \[\d+ x i8\] "
                  r"(?:zeroinitializer|c\".*\"), align \d+"
                  r"|![\w.]+ = .*|attributes #\d+ = \{ (?:.* )?\}|declare .*|; .*|")
LEFT_OUT = re.compile(r"source_filename = .*|target (?:datalayout|triple) = .*|declare void @llvm\.mem\w+\.p0.*")
ABOUT_MACHINE = re.compile(r' "(?:probe-stack|stack-probe-size|target-cpu|target-features|frame-pointer)"="[^"]*"')


class Refused(Exception):
    """A line that the script does not know."""


def bytes_of(kind):
    """The bytes that a part takes in the layout for 64 bits, which is its alignment, too."""
    return 8 if kind == "ptr" else int(kind[1:]) // 8


class Layout:
    """The functions of a module, line by line; NOISE fills the unused half of each slot that is written."""

    def __init__(self, noise):
        self.noise, self.count = noise, 0

    def name(self):
        self.count += 1
        return f"%narrow.{self.count}"

    def slot(self, it):
        return [f"{it[1]} = alloca [8 x i8], align 8"]

    def pair(self, it):
        value, first, second, at = it[1], it[2], it[3], it[4]
        a, place, b, begun = (self.name() for _ in range(4))
        kind, offset = f"{{ {first}, {second} }}", max(bytes_of(first), bytes_of(second))
        return [f"{a} = load {first}, ptr {at}, align {bytes_of(first)}",
                f"{place} = getelementptr i8, ptr {at}, i64 {offset}",
                f"{b} = load {second}, ptr {place}, align {bytes_of(second)}",
                f"{begun} = insertvalue {kind} poison, {first} {a}, 0",
                f"{value} = insertvalue {kind} {begun}, {second} {b}, 1"]

    def address(self, it):
        return [f"{it[1]} = ptrtoint ptr {it[2]} to i64"]

    def bytes(self, it):
        head, arguments, size, tail = it[1], it[2], it[3], it[4]
        if size.isdigit():
            if int(size) >= 1 << 31:
                raise Refused(it[0])
            return [f"{head}.i32({arguments}, i32 {size}{tail}"]
        narrow = self.name()
        return [f"{narrow} = trunc i64 {size} to i32", f"{head}.i32({arguments}, i32 {narrow}{tail}"]

    def noisy(self, it):
        """Writes all 8 bytes of a slot: the pointer, and bits that no pointer has."""
        wide, whole = self.name(), self.name()
        return [f"{wide} = ptrtoint ptr {it[1]} to i64", f"{whole} = or i64 {wide}, {0x5A5AA5A5 << 32}",
                f"store i64 {whole}, ptr {it[2]}, align 8"]

    def lengths(self, define):
        """The begin of an exported function that traps if a number of 64 bits has more than 32."""
        found = re.findall(rf"i64 {WORDS}({V})", define)
        if not found:
            return []
        sums = [found[0]] + [self.name() for _ in found[1:]]
        lines = [f"{new} = or i64 {old}, {it}" for old, new, it in zip(sums, sums[1:], found[1:])]
        fits = self.name()
        return lines + [f"{fits} = icmp ult i64 {sums[-1]}, {1 << 32}", f"br i1 {fits}, label %fits, label %too.long",
                        "too.long:", "call void @llvm.trap()", "unreachable", "fits:"]

    def line(self, text):
        """A line as it is for 32 bits: one or several."""
        rules = [(rf"({V}) = alloca ptr, align 8", self.slot),
                 (rf"({V}) = load \{{ ({INTEGER}|ptr), ({INTEGER}|ptr) \}}, ptr ({POINTER}), align \d+{KNOWN}",
                  self.pair), (rf"({V}) = ptrtoaddr ptr ({POINTER}) to i64", self.address), (MEMORY, self.bytes)]
        rules += [(rf"store ptr ({POINTER}), ptr ({POINTER}), align 8", self.noisy)] if self.noise else []
        for shape, rule in rules:
            found = re.fullmatch(shape, text)
            if found:
                return rule(found)
        if not KEPT.fullmatch(text):
            raise Refused(text)
        return [text]


ACCESS = re.compile(rf"{V} = load ({NUMBER}|ptr), ptr ({POINTER})|"
                    rf"store ({NUMBER}|ptr) {OPERAND[:-1]}|{GLOBAL}), ptr ({POINTER})")
STEP = re.compile(rf"({V}) = getelementptr (?:inbounds |nuw |nusw )*i8, ptr ({POINTER}), i64 (\d+)")


def width(kind):
    lanes, bits = re.fullmatch(r"(?:<(\d+) x )?i(\d+)>?", kind).groups()
    return int(lanes or 1) * max(int(bits), 8) // 8


def look_at_slots(lines):
    """Refuses a function in which a slot of a pointer is also read or written as a number."""
    places, slots, numbers = {}, {}, {}
    for text in lines:
        step, access = STEP.match(text), ACCESS.match(text)
        if step:
            base, offset = places.get(step[2], (step[2], 0))
            places[step[1]] = (base, offset + int(step[3]))
        if access:
            kind, at = access[1] or access[3], access[2] or access[4]
            base, offset = places.get(at, (at, 0))
            if kind == "ptr":
                slots.setdefault(base, {})[offset] = text
            else:
                numbers.setdefault(base, []).append((offset, offset + width(kind), text))
    for base, of_base in slots.items():
        for start in of_base:
            for first, last, text in numbers.get(base, []):
                if first < start + 8 and last > start:
                    raise Refused(f"{of_base[start]} and {text}")


def look_at_calls(text):
    """Refuses a call of a function that the module does not define, but for those of LLVM that are known."""
    defined = set(re.findall(rf"^define [^@\n]*({GLOBAL})\(", text, re.M))
    for line in re.findall(r"^ .*\bcall .*", text, re.M):
        it = CALLED.match(line.strip())
        if not it or not (it[1] in defined or MEMORY.fullmatch(line.strip()) or re.fullmatch(PLAIN_CALLS, it[1])):
            raise Refused(line.strip())


def lay_out(text, noise=False, lengths=False):
    """The module for 32 bits. `Refused` has the first line that the script does not know."""
    look_at_calls(text)
    out, body, layout, first = [], None, Layout(noise), []
    for line in text.split("\n"):
        if body is not None and line == "}":
            look_at_slots(body)
            out.append(line)
            body = None
        elif body is not None:
            bare = line.strip()
            lines = [bare, *first] if not bare or LABEL.fullmatch(bare) else layout.line(bare)
            first = []
            body += [bare] if noise and bare.startswith("store ptr ") else lines
            out += [it if LABEL.fullmatch(it) or not it else f"  {it}" for it in lines]
        elif line.startswith("define "):
            if not DEFINE.fullmatch(line):
                raise Refused(line)
            out.append(line)
            first = layout.lengths(line) if lengths and not line.startswith("define internal ") else []
            body = []
        elif not LEFT_OUT.fullmatch(line):
            if not HEAD.fullmatch(line):
                raise Refused(line)
            out.append(ABOUT_MACHINE.sub("", line).replace("{ }", '{ "empty" }'))
    return "\n".join(out)


def main(arguments):
    flags = [it for it in arguments if it in ("--lengths", "--noise")]
    if arguments[: len(flags)] != flags or len(arguments) != 2 + len(flags):
        sys.exit(__doc__.split("\n\n")[1])
    with open(arguments[-2]) as file:
        text = file.read()
    try:
        text = lay_out(text, "--noise" in flags, "--lengths" in flags)
    except Refused as line:
        sys.exit(f"tools/lay_out.py: not known: {line}")
    with open(arguments[-1], "w") as file:
        file.write(text)


if __name__ == "__main__":
    main(sys.argv[1:])
