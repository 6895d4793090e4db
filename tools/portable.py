#!/usr/bin/env python3
"""Writes the library for C as portable C: two files, each of which any C11 compiler takes beside the headers.

usage: tools/portable.py MODULE SMALL FOLDER      writes FOLDER/slh.c of MODULE and FOLDER/slh_verify.c of SMALL
       tools/portable.py wasm2c                   where the program wasm2c is

MODULE is the proved code as a WebAssembly module with a 64-bit memory and without vectors, as tools/targets.py makes it.
SMALL has the calls that verify alone, compiled for size, and a 32-bit memory. wasm2c 1.0.36 of WABT writes them as C
(WASM2C names another command). Of what it writes the functions alone are taken, under shorter names, and of those just
what the calls of the file reach, and the constants. All else is in c/portable/, and is ours: what the functions do to
memory (machine.h), how the calls hand their arguments over (parts.h, calls.c, verify_calls.c), and where the memory is
from (taken_memory.c, fixed_memory.c).

STACK_BYTES in the files is what the deepest path of calls takes of the module's stack: each function takes a constant
number of bytes of it, none calls itself but those of NESTED, and no call goes through a pointer. The files lay the
arguments behind the constants, so the module may have nothing there. All this is looked at here. If it is not so, or if
a function does what machine.h does not have, nothing is written.
"""
import os
import pathlib
import re
import shutil
import subprocess
import sys
import tempfile

ROOT = pathlib.Path(__file__).resolve().parent.parent
PARTS = ROOT / "c/portable"
WASM2C = os.environ.get("WASM2C", "wasm2c-1.0.36")
PROVED = "/* ---- The proved code, as wasm2c writes it. ---- */\n\n"
VERIFY_CALLS = ["hash_verify", "hash_verify_digest", "hash_verify_digest_hardened", "verify", "verify_hardened",
                "version"]
# What calls.c makes of other calls.
OF_OTHERS = {"verify_many"}
FILES = {
    "slh.c": ["head.c", "machine.h", "taken_memory.c", "parts.h", "verify_calls.c", "calls.c",
              "../exports/refusal_text.c"],
    "slh_verify.c": ["verify_head.c", "machine.h", "fixed_memory.c", "parts.h", "verify_calls.c"],
}
# The functions that call themselves, and how many calls of each are open at once at most. A FORS tree has the height a,
# which is at most 14 in the six sets. A node of it is made from sixteen nodes of a height of at most a - 4. Each call
# within is for one less.
NESTED = {"slh_few_fors_tree_ForsPlace_sixteen_nodes": 11}
# The functions that compare what is secret, and look at all bytes before they decide. A compiler that inlines one for
# a known number of bytes can make branches of it. And those that compare twice, which a compiler could do once.
COMPARISONS = {"slh_core_comparing_are_same", "slh_core_hardened_passes", "slh_core_hardened_passes_again"}
DEFINITION = re.compile(r"^(u32|u64|void) (w2c_slh_\w+)\(w2c_slh\* instance([^{;]*)\) \{\n(.*?)^\}\n", re.M | re.S)
# The functions for the blocks of SHA-512, which the sets whose n is 16 never reach.
LONG_BLOCKS = re.compile(r"\bsha2_block512_\w+")
LONG_FUNCTION = re.compile(rf"^(static \w+ {LONG_BLOCKS.pattern}\(([^)]*)\) {{\n)(.*?)^}}\n", re.M | re.S)
# What wasm2c names otherwise than these files, in this order.
NAMES = [
    (r"\bmemory_copy\(&instance->w2c_memory, &instance->w2c_memory, ", "memory_copy(m, "),
    (r"&instance->w2c_memory\b", "m"),
    (r"\binstance->w2c_0x5F_stack_pointer\b", "STACK_POINTER(m)"),
    (r"\binstance->w2c_in_call\b", "IN_CALL(m)"),
    (r"\binstance\b", "m"),
    (r"\bvar_([ijlpB]\d+)\b", r"\1"),
    (r"^ *FUNC_(PRO|EPI)LOGUE;\n", ""),
]
# The words in a body that stand before a parenthesis and are no calls, and the operations of machine.h.
OPERATIONS = re.findall(r"(?:#define|INLINE \w+) (\w+)\(", (PARTS / "machine.h").read_text())
OPERATIONS = {*OPERATIONS, "if", "switch", "return"}


def refuse(why):
    sys.exit(f"tools/portable.py: {why}")


def translated(module):
    """What wasm2c writes of a module."""
    said = subprocess.run([WASM2C, "--version"], stdout=subprocess.PIPE, text=True, check=True).stdout.strip()
    if said != "1.0.36":
        refuse(f"{WASM2C} is {said}, and not 1.0.36")
    with tempfile.TemporaryDirectory() as folder:
        file = f"{folder}/slh.c"
        subprocess.run([WASM2C, "--enable-memory64", "-n", "slh", str(module), "-o", file], check=True)
        return pathlib.Path(file).read_text()


def plain(name):
    """The name of a function without what wasm2c and the toolchain put round it: module_NAME for the call NAME."""
    name = re.sub(r"0x([0-9A-F]{2})", lambda it: chr(int(it[1], 16)), name.removeprefix("w2c_slh_"))
    if name.startswith("slh_") and name.endswith("_0"):
        return "module_" + name[len("slh_") : -len("_0")]
    words = [it for it in re.split(r"\W+", name) if it]
    return "_".join(word for at, word in enumerate(words) if words[at - 1 : at] != [word]).strip("_")


def functions(text):
    """The functions, by the names that wasm2c gives them: what each returns, its parameters and its body."""
    found = {it[2]: (it[1], it[3], it[4]) for it in DEFINITION.finditer(text)}
    exported = set(re.findall(r"^/\* export: '.*' \*/\n\w+\*? (\w+)\(", text, re.M))
    return {name: it for name, it in found.items() if name not in exported}


def renamed(found):
    """The functions by plain names, in bodies, too."""
    plains = {name: plain(name) for name in found}
    if len(set(plains.values())) != len(plains):
        refuse(f"functions share a name: {sorted(plains.values())}")
    result = {}
    for name, (kind, parameters, body) in found.items():
        body = re.sub(r"\bw2c_slh_\w+", lambda it: plains.get(it[0], it[0]), body)
        for old, new in NAMES:
            body = re.sub(old, new, body, flags=re.M)
        parameters = re.sub(r"\bvar_(p\d+)\b", r"\1", "base m" + " ".join(parameters.split()))
        unused = [it for it in re.findall(r"\w+(?=,|$)", parameters) if not re.search(rf"\b{it}\b", body)]
        result[plains[name]] = (kind, parameters, "".join(f"  (void){it};\n" for it in unused) + body)
    return result


def called(found, name):
    """The functions that a function calls. It does nothing that machine.h does not have."""
    words = set(re.findall(r"\b([A-Za-z_]\w*) ?\(", found[name][2]))
    other = words - set(found) - OPERATIONS
    if other or re.search(r"\b(f32|f64|v128|w2c_\w+|CALL_INDIRECT)\b", found[name][2]):
        refuse(f"{name} does what machine.h does not have: {', '.join(sorted(other))}")
    return words & set(found)


def reached(found, names):
    """The functions that these reach, in the order in which they stand."""
    wanted, left = set(), list(names)
    while left:
        name = left.pop()
        if name not in wanted:
            wanted.add(name)
            left += called(found, name)
    return {name: it for name, it in found.items() if name in wanted}


# What a function does to the stack pointer: takes a number of bytes at its begin, gives them back; or reads it at its
# begin, and writes what it was. A function that calls none may use bytes below it, and write nothing to it. Or it looks
# alone whether there is stack left.
TAKES = re.compile(r"([ij]\d+) = STACK_POINTER\(m\); ([ij]\d+) = (\d+)u(?:ll)?; \1 -= \2; l\d+ = \1; "
                   r"STACK_POINTER\(m\) = \1;")
GIVES = re.compile(r"([ij]\d+) = l\d+; ([ij]\d+) = (\d+)u(?:ll)?; \1 \+= \2; STACK_POINTER\(m\) = \1;")
USES = re.compile(r"([ij]\d+) = STACK_POINTER\(m\); ([ij]\d+) = (\d+)u(?:ll)?; \1 -= \2; l\d+ = \1; (?!STACK_POINTER)")
READS = re.compile(r"([ij]\d+) = STACK_POINTER\(m\); (l\d+) = \1;")
LOOKS = re.compile(r"([ij]\d+) = STACK_POINTER\(m\); (?:l\d+ = \1; )?([ij]\d+) = \d+u(?:ll)?; i\d+ = "
                   r"(?:\1 < \2|\(u64\)\(\(s64\)\1 < \(s64\)\2\)); if ")
LOOP = re.compile(r"\b(?:var_)?L\d+:")
KEEPS = re.compile(r"([ij]\d+) = (l\d+); STACK_POINTER\(m\) = \1;")


def is_unchanged(local, body):
    """Whether a local has what was read into it until it is written to the stack pointer: its two assignments before
    are its begin and that. Where the function has a loop, there is none behind, either."""
    assigned = [it.start() for it in re.finditer(rf"\b{local} = ", body)]
    written = max(it.start() for it in KEEPS.finditer(body) if it[2] == local)
    return sum(it < written for it in assigned) == 2 and (len(assigned) == 2 or not LOOP.search(body))


def is_only_kept(local, body):
    """Whether what was read into a local is used for nothing but to be written back, until the local has another value:
    so no place below the stack pointer is made of it."""
    begun = READS.search(body).end()
    other = re.search(rf"\b{local} = ", body[begun:])
    rest = KEEPS.sub("", body[begun : begun + other.start()] if other else body[begun:])
    return not re.search(rf"\b{local}\b", rest)


def frame(name, body):
    """The bytes of the module's stack that a function takes for itself."""
    body = " ".join(body.split())
    takes, uses, gives, reads, keeps, looks = [it.findall(body) for it in (TAKES, USES, GIVES, READS, KEEPS, LOOKS)]
    bytes_of = {int(it[2]) for it in takes + uses + gives}
    is_plain = len(takes) == 1 if gives else not takes
    is_plain &= not keeps or (not takes and {it[1] for it in keeps} == {it[1] for it in reads})
    is_plain &= all(is_unchanged(it[1], body) for it in reads if keeps)
    is_plain &= all(is_only_kept(it[1], body) for it in reads)
    is_plain &= body.count("STACK_POINTER") == body.count("STACK_POINTER(m) = ") + len(takes + uses + looks)
    is_plain &= body.count("= STACK_POINTER(m);") <= 1 and len(bytes_of) <= 1
    if not is_plain or body.count("STACK_POINTER(m) = ") != len(takes + gives + keeps):
        refuse(f"what {name} takes of the stack is not to be seen")
    return max(bytes_of, default=0)


def depths(found):
    """The bytes of the module's stack that each function takes with all that it calls."""
    known, under_way = {}, set()

    def depth(name):
        if name in under_way:
            refuse(f"{name} calls itself through others")
        if name not in known:
            under_way.add(name)
            below, times = called(found, name), 1
            if name in below:
                times = NESTED.get(name) or refuse(f"{name} calls itself")
            own = times * frame(name, found[name][2])
            known[name] = own + max(map(depth, below - {name}), default=0)
            under_way.remove(name)
        return known[name]

    return {name: depth(name) for name in found}


def number(pattern, text, kind=int):
    found = re.findall(pattern, text)
    return kind(found[0]) if len(found) == 1 else refuse(f"not once in what wasm2c writes: {pattern}")


def stack_top(text):
    """Where the stack begins, which goes down, and the constants behind it."""
    top = number(r"instance->w2c_0x5F_stack_pointer = (\d+)u(?:ll)?;", text)
    if number(r"LOAD_DATA\(instance->w2c_memory, (\d+)u(?:ll)?, ", text) != top:
        refuse("the constants do not begin where the stack does")
    return top


def address_bits(text):
    """The bits of an address."""
    return 64 if number(r"instance->w2c_0x5F_stack_pointer = \d+(u(?:ll)?);", text, str) == "ull" else 32


def constants(text):
    """The bytes of the constants."""
    found = re.findall(r"^static const u8 data_segment_data_\w+\[\] = \{\n(.*?)^\};", text, re.M | re.S)
    numbers = [int(it, 16) for it in re.findall(r"0x[0-9a-f]{2}", "".join(found))]
    if len(found) != 1 or len(numbers) != number(r"LOAD_DATA\(instance->w2c_memory, \d+u(?:ll)?, \w+, (\d+)\)", text):
        refuse("the constants are not one block of the bytes that the module says")
    return numbers


def look_behind(text, found, top, size):
    """Refuses a module that has more than the constants, as variables: the files lay the arguments there."""
    behind = top + (size + 15) // 16 * 16
    if number(r"instance->w2c_0x5F_heap_base = (\d+)u(?:ll)?;", text) != behind:
        refuse("the module has more behind its stack than the constants")
    for name, (_, _, body) in found.items():
        if any(top + size <= int(it) < behind for it in re.findall(r"\b(\d+)u(?:ll)?\b", body)):
            refuse(f"{name} names a place behind the constants")


def array_of(numbers):
    rows = [", ".join(map(str, numbers[at : at + 24])) for at in range(0, len(numbers), 24)]
    return "static const uint8_t constants[CONSTANT_BYTES] = {\n    " + ",\n    ".join(rows) + ",\n};\n"


def version_of(found):
    """The number that slh_version returns."""
    return number(r"= (\d+)u;\n  return ", found["module_version"][2])


def prototype(name, kind, parameters):
    return f"{'NEVER_INLINE ' * (name in COMPARISONS)}static {kind} {name}({parameters})"


def module_as_c(text, calls):
    """The module as C, of it what these calls reach: the numbers and the constants, and the functions."""
    whole = renamed(functions(text))
    found = reached(whole, [f"module_{it}" for it in calls if it != "version"])
    bits, top, size = address_bits(text), stack_top(text), len(constants(text))
    look_behind(text, found, top, size)
    numbers = {"MODULE_VERSION": version_of(whole), "ADDRESS_BITS": bits, "STACK_TOP": f"UINT{bits}_C({top})"}
    numbers["STACK_BYTES"] = (max(depths(found).values()) + 15) // 16 * 16
    numbers["CONSTANT_BYTES"] = size
    declared = "".join(prototype(name, *it[:2]) + ";\n" for name, it in found.items())
    bodies = ["\n" + prototype(name, *it[:2]) + " {\n" + it[2] + "}\n" for name, it in found.items()]
    defined = "".join(f"#define {name} {it}\n" for name, it in numbers.items())
    return defined + array_of(constants(text)), PROVED + declared + "".join(bodies)


def leaving_out(code):
    """The functions, of which those for the blocks of SHA-512 have a body only where SLH_VERIFY_128 is not defined."""

    def choice(it):
        head, parameters, body = it[1], re.findall(r"\w+(?=,|$)", it[2]), it[3]
        unused = "".join(f"  (void){it};\n" for it in parameters + sorted(set(LONG_BLOCKS.findall(body))))
        return f"{head}#ifdef SLH_VERIFY_128\n{unused}  UNREACHABLE;\n#else\n{body}#endif\n}}\n"

    result, times = LONG_FUNCTION.subn(choice, code)
    return result if times > 0 else refuse("there is no function for the blocks of SHA-512")


def source(name):
    return (PARTS / name).read_text()


def head_of(name):
    """The head of a file, with the version and with what both files say."""
    common = "".join(f" * {it}".rstrip() + "\n" for it in (PARTS / "made_of.txt").read_text().splitlines())
    version = (ROOT / "VERSION").read_text().strip()
    return source(name).replace("@VERSION@", version).replace("@COMMON@\n", common)


def file_of(text, parts):
    """A file: its head, the constants, the machine, the functions, and the calls."""
    exports = re.findall(r"^/\* export: 'slh_(\w+)' \*/\nu32 ", text, re.M)
    has_all = "calls.c" in parts
    if has_all and not COMPARISONS <= set(renamed(functions(text))):
        refuse(f"a function is missing: {', '.join(sorted(COMPARISONS))}")
    numbers, code = module_as_c(text, sorted(set(exports) - OF_OTHERS) if has_all else VERIFY_CALLS)
    head, machine, *rest = parts
    code = code if has_all else leaving_out(code)
    return "\n".join([head_of(head), numbers, source(machine), code, *map(source, rest)])


def program():
    """The program wasm2c, behind the script by which tools/setup.sh has it called."""
    command = pathlib.Path(shutil.which(WASM2C) or refuse(f"there is no {WASM2C}")).resolve()
    behind = command.with_name("wasm2c.program")
    return behind if behind.exists() else command


def main():
    if sys.argv[1:] == ["wasm2c"]:
        return print(program())
    if len(sys.argv) != 4:
        sys.exit("usage: tools/portable.py MODULE SMALL FOLDER, or wasm2c")
    folder = pathlib.Path(sys.argv[3])
    folder.mkdir(parents=True, exist_ok=True)
    for module, (name, parts) in zip(sys.argv[1:3], FILES.items(), strict=True):
        (folder / name).write_text(file_of(translated(module), parts))


if __name__ == "__main__":
    main()
