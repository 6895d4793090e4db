"""Tests tools/portable.py over texts as wasm2c writes them: how many bytes of the stack functions take, and functions
and modules that it refuses. It needs neither the kit nor wasm2c.
"""
import re
import sys

import pytest

from support import HERE

sys.path.append(str(HERE / "tools"))
import portable  # noqa: E402

POINTER = "instance->w2c_0x5F_stack_pointer"
# A function takes 48 bytes of the stack and gives them back, uses 64 bytes below it, looks whether there is stack left,
# or keeps what it was, as wasm2c writes it for addresses of 32 bits.
TAKES = f"var_i0 = {POINTER};\nvar_i1 = 48u;\nvar_i0 -= var_i1;\nvar_l1 = var_i0;\n{POINTER} = var_i0;\n"
GIVES = f"var_i0 = var_l1;\nvar_i1 = 48u;\nvar_i0 += var_i1;\n{POINTER} = var_i0;\n"
USES = f"var_i0 = {POINTER};\nvar_i1 = 64u;\nvar_i0 -= var_i1;\nvar_l1 = var_i0;\nvar_i0 = 3u;\n"
LOOKS = f"var_i0 = {POINTER};\nvar_i1 = 16u;\nvar_i0 = var_i0 < var_i1;\nif (var_i0) {{goto var_B0;}}\n"
READS = LOOKS.replace("pointer;\n", "pointer;\nvar_l1 = var_i0;\n")
KEEPS = f"var_i0 = var_l1;\n{POINTER} = var_i0;\n"
BELOW = "var_i0 = var_l1;\nvar_i1 = 64u;\nvar_i0 -= var_i1;\nvar_l2 = var_i0;\n"
CALL = "var_i0 = w2c_slh_leaf(instance, var_i0);\n"
MODULE = f"""\
u32 w2c_slh_slh_version_0(w2c_slh*);

static void init_globals(w2c_slh* instance) {{
  {POINTER} = 1048576u;
  instance->w2c_0x5F_heap_base = 1048608u;
}}

static const u8 data_segment_data_w2c_slh_0x2Erodata[] = {{
  0x01, 0x00, 0x00, 0x00, 0x02, 0x00, 0x00, 0x00, 0x03, 0x00, 0x00, 0x00, 
  0x04, 0x00, 0x00, 0x00, 0x05, 0x00, 0x00, 0x00, 
}};

static void init_memories(w2c_slh* instance) {{
  LOAD_DATA(instance->w2c_memory, 1048576u, data_segment_data_w2c_slh_0x2Erodata, 20);
}}

/* export: 'slh_version' */
u32 w2c_slh_slh_version(w2c_slh* instance) {{
  return w2c_slh_slh_version_0(instance);
}}

/* export: 'slh_verify' */
u32 w2c_slh_slh_verify(w2c_slh* instance, u32 var_p0) {{
  return w2c_slh_slh_verify_0(instance, var_p0);
}}

u32 w2c_slh_slh_version_0(w2c_slh* instance) {{
  u32 var_i0;
  var_i0 = 12000u;
  return var_i0;
}}

u32 w2c_slh_slh_verify_0(w2c_slh* instance, u32 var_p0) {{
OWN}}

u32 w2c_slh_leaf(w2c_slh* instance, u32 var_p0) {{
LEAF}}
"""
# The body of slh_verify, that of the function that it calls, and the bytes of both.
DEPTHS = [
    (CALL, "", 0),
    (TAKES + CALL + GIVES, LOOKS, 48),
    (TAKES + CALL + GIVES, TAKES + GIVES, 96),
    (TAKES + CALL + GIVES, USES, 112),
    (CALL, USES + LOOKS.partition("\n")[2], 64),
    (READS + CALL + KEEPS, LOOKS, 0),
    (READS + "var_i0 = var_l3;\nvar_l1 = var_i0;\nvar_l2 = var_l1;\n", "", 0),
    (LOOKS.replace("var_i0 = var_i0 < var_i1", "var_i0 = (u64)((s64)var_i0 < (s64)var_i1)") + CALL, "", 0),
]
REFUSED_BODIES = [
    (TAKES + CALL, "gives nothing back"),
    (GIVES, "gives what it has not taken"),
    (TAKES + GIVES.replace("48", "32"), "gives another number of bytes"),
    (TAKES + TAKES + GIVES, "takes two times"),
    (READS + BELOW, "makes a place below the stack of what it read"),
    (READS + BELOW + KEEPS, "makes such a place, and writes back"),
    (READS + "var_l1 = var_l2;\n" + KEEPS, "writes another number back"),
    (USES.replace("var_i1 = 64u", "var_i1 = var_p0"), "takes a number that it computes"),
    (f"var_i0 = {POINTER};\nvar_l1 = var_i0;\n", "reads the stack, and does not look whether there is some left"),
    (f"var_l1 = {POINTER};\n", "reads the stack in another way"),
    (f"{POINTER} = var_p0;\n", "writes a number of its own"),
    ("var_i0 = w2c_slh_slh_verify_0(instance, var_i0);\n", "calls itself"),
    ("var_i0 = CALL_INDIRECT(instance->w2c_T0, u32);\n", "calls through a pointer"),
    ("var_i0 = w2c_env_clock(instance);\n", "calls what the module does not define"),
    ("var_i0 = I32_POPCNT(var_i0);\n", "does what machine.h does not have"),
    ("var_i0 = 1048596u;\n", "names the place behind the constants"),
    ("var_i0 = i32_load(&instance->w2c_memory, (u64)(var_i0) + 1048600u);\n", "reads behind the constants"),
]
# What else a module has, in place of what MODULE has.
REFUSED_MODULES = [
    ("heap_base = 1048608u", "heap_base = 1048624u", "variables behind the constants"),
    ("  instance->w2c_0x5F_heap_base = 1048608u;\n", "", "no end"),
    ("  LOAD_DATA(", "  LOAD_DATA(instance->w2c_memory, 1048608u, data_segment_data_d1, 4);\n  LOAD_DATA(",
     "two blocks of constants"),
    ("LOAD_DATA(instance->w2c_memory, 1048576u", "LOAD_DATA(instance->w2c_memory, 1048592u",
     "constants that do not begin at the stack's begin"),
    ("rodata, 20)", "rodata, 24)", "fewer constants than it says"),
    ("12000u", "var_p0", "no number as its version"),
]
LOCALS = "u32 var_l1 = 0, var_l2 = 0, var_l3 = 0;\nu32 var_i0, var_i1;\n"


def module(own, leaf=""):
    return MODULE.replace("OWN", f"{LOCALS}{own}return var_i0;\n").replace("LEAF", f"{LOCALS}{leaf}return var_p0;\n")


def stack_of(text):
    """The bytes of the stack of a module, as the C that is made of it has them."""
    numbers, _ = portable.module_as_c(text, ["verify", "version"])
    return int(re.search(r"^#define STACK_BYTES (\d+)$", numbers, re.M)[1])


def assert_refused(text):
    """A module is refused, with a reason that names the script."""
    with pytest.raises(SystemExit, match=r"^tools/portable\.py: "):
        stack_of(text)


@pytest.mark.parametrize("own, leaf, depth", DEPTHS, ids=range(len(DEPTHS)))
def test_bytes_of_the_stack(own, leaf, depth):
    assert stack_of(module(own, leaf)) == depth


@pytest.mark.parametrize("body", [pytest.param(it, id=name.replace(" ", "-")) for it, name in REFUSED_BODIES])
def test_function_is_refused(body):
    assert_refused(module(body))


@pytest.mark.parametrize("old, new", [
    pytest.param(*it, id=name.replace(" ", "-")) for *it, name in REFUSED_MODULES])
def test_module_is_refused(old, new):
    text = module(CALL)
    assert text.replace(old, new) != text
    assert_refused(text.replace(old, new))
