"""Tests tools/lay_out.py, the layout of a proved module for pointers of 32 bits: each line that it writes anew, lines
that it leaves as they are, and lines, functions and modules that it refuses. It needs no kit.
"""
import re
import sys

import pytest

from support import HERE, succeed

sys.path.append(str(HERE / "tools"))
from lay_out import Layout, Refused, lay_out  # noqa: E402

# A line, and what it is with pointers of 32 bits.
WRITTEN = {
    "%r1 = alloca ptr, align 8": ["%r1 = alloca [8 x i8], align 8"],
    "%r1 = ptrtoaddr ptr %r0 to i64": ["%r1 = ptrtoint ptr %r0 to i64"],
    "%r1 = load { ptr, i64 }, ptr %r0, align 8": [
        "%narrow.1 = load ptr, ptr %r0, align 8", "%narrow.2 = getelementptr i8, ptr %r0, i64 8",
        "%narrow.3 = load i64, ptr %narrow.2, align 8", "%narrow.4 = insertvalue { ptr, i64 } poison, ptr %narrow.1, 0",
        "%r1 = insertvalue { ptr, i64 } %narrow.4, i64 %narrow.3, 1"],
    "%r1 = load { i8, ptr }, ptr %r0, align 8": [
        "%narrow.1 = load i8, ptr %r0, align 1", "%narrow.2 = getelementptr i8, ptr %r0, i64 8",
        "%narrow.3 = load ptr, ptr %narrow.2, align 8", "%narrow.4 = insertvalue { i8, ptr } poison, i8 %narrow.1, 0",
        "%r1 = insertvalue { i8, ptr } %narrow.4, ptr %narrow.3, 1"],
    "%r1 = load { i8, i32 }, ptr %r0, align 4": [
        "%narrow.1 = load i8, ptr %r0, align 1", "%narrow.2 = getelementptr i8, ptr %r0, i64 4",
        "%narrow.3 = load i32, ptr %narrow.2, align 4", "%narrow.4 = insertvalue { i8, i32 } poison, i8 %narrow.1, 0",
        "%r1 = insertvalue { i8, i32 } %narrow.4, i32 %narrow.3, 1"],
    "call void @llvm.memset.p0.i64(ptr %r0, i8 0, i64 24, i1 false)": [
        "call void @llvm.memset.p0.i32(ptr %r0, i8 0, i32 24, i1 false)"],
    "call void @llvm.memmove.p0.p0.i64(ptr %r0, ptr %r1, i64 %r2, i1 false)": [
        "%narrow.1 = trunc i64 %r2 to i32",
        "call void @llvm.memmove.p0.p0.i32(ptr %r0, ptr %r1, i32 %narrow.1, i1 false)"],
}
NOISY = {
    "store ptr %r1, ptr %r0, align 8": [
        "%narrow.1 = ptrtoint ptr %r1 to i64", f"%narrow.2 = or i64 %narrow.1, {0x5A5AA5A5 << 32}",
        "store i64 %narrow.2, ptr %r0, align 8"],
}
KEPT = """\
store ptr %r1, ptr %r0, align 8
store i64 -1, ptr %r0, align 8
store <4 x i32> splat (i32 7), ptr %r0, align 16
%r1 = load ptr, ptr %r0, align 8, !noundef !1
%r1 = getelementptr inbounds nuw i8, ptr %r0, i64 %r2
%r1 = icmp eq ptr %r0, null
%r1 = add nuw i64 %r0, 1
%r1 = trunc i64 %r0 to i32
%r1 = bitcast <16 x i1> %r0 to i16
ret { ptr, i64 } %r1
%r1 = call { ptr, i64 } @"slh_core::keys::it"(ptr %r0, i64 3)
switch i8 %r1, label %a [
call void @llvm.trap()""".splitlines()
# What was not looked at: a number that becomes an address, other widths of slots, other calls.
REFUSED = """\
%r1 = inttoptr i64 %r0 to ptr
%r1 = ptrtoint ptr %r0 to i32
%r1 = ptrtoaddr ptr %r0 to i32
%r1 = alloca ptr, align 4
%r1 = alloca { ptr, i64 }, align 8
%r1 = alloca [2 x ptr], align 8
%r1 = alloca i8, i64 %r0, align 1
store ptr %r1, ptr %r0, align 4
store { ptr, i64 } %r1, ptr %r0, align 8
store ptr null, ptr %r0, align 8
%r1 = load volatile ptr, ptr %r0, align 8
%r1 = load { ptr, i64, i8 }, ptr %r0, align 8
%r1 = load [2 x ptr], ptr %r0, align 8
%r1 = load atomic ptr, ptr %r0 seq_cst, align 8
%r1 = getelementptr ptr, ptr %r0, i64 1
%r1 = getelementptr { i8, ptr }, ptr %r0, i64 0, i32 1
%r1 = getelementptr i8, ptr %r0, i64 -8
%r1 = extractvalue { i8, { ptr, i64 } } %r0, 1
%r1 = phi ptr [ %r0, %a ], [ %r2, %b ]
%r1 = bitcast i64 %r0 to <2 x i32>
%r1 = bitcast <64 x i1> %r0 to ptr
%r1 = insertelement <2 x ptr> poison, ptr %r0, i64 0
%r1 = call i32 %r0(ptr %r2)
%r1 = tail call i32 @f(ptr %r2)
call void @llvm.memset.p0.i64(ptr %r0, i8 0, i64 2147483648, i1 false)
call void @llvm.memset.p0.i64(ptr %r0, i8 0, i64 24, i1 true)
call void asm sideeffect "", ""()
ret { ptr, ptr, i8 } %r1
fence seq_cst
indirectbr ptr %r0, [ label %a ]""".splitlines()
MODULE = """\
target datalayout = "e-m:e"
target triple = "x86_64-unknown-linux-gnu"
@static.0 = private unnamed_addr constant [2 x i8] c"\\00\\01", align 1
define noundef i32 @f(ptr noundef %a0, i64 noundef %a1) #0 {
start:
  %r0 = alloca [16 x i8], align 8
BODY
  ret i32 7
}
declare void @llvm.trap() #1
attributes #0 = { nounwind "probe-stack"="inline-asm" "target-cpu"="x86-64" }
attributes #1 = { "target-cpu"="x86-64" }
"""
# Bodies of a function with a slot for a pointer at 8 of %r0.
SLOT = "  %r1 = getelementptr i8, ptr %r0, i64 8\n  store ptr %a0, ptr %r1, align 8\n"
GOOD_BODIES = [SLOT + "  store i64 %a1, ptr %r0, align 8", SLOT + "  %r2 = load ptr, ptr %r1, align 8",
               SLOT + "  call void @llvm.trap()"]
BAD_BODIES = [
    SLOT + "  %r2 = load i64, ptr %r1, align 8",
    SLOT + "  store i32 1, ptr %r1, align 4",
    SLOT + "  %r2 = getelementptr i8, ptr %r0, i64 12\n  %r3 = load i32, ptr %r2, align 4",
    SLOT + "  %r2 = getelementptr i8, ptr %r0, i64 4\n  %r3 = load i64, ptr %r2, align 4",
    SLOT + "  %r2 = load <4 x i32>, ptr %r0, align 8",
    SLOT + "  %r2 = getelementptr i8, ptr %r1, i64 7\n  %r3 = load i8, ptr %r2, align 1",
    "  %r1 = call i64 @unknown(i64 1)",
    "  %r1 = call ptr @malloc(i64 1)",
]
BAD_HEADS = [
    ('@static.0 = private', '@static.1 = private unnamed_addr constant ptr @static.0, align 8\n@static.0 = private'),
    ('@static.0 = private', '@static.1 = internal global [8 x i8] zeroinitializer, align 8\n@static.0 = private'),
    ('@f(ptr noundef %a0, i64', '@f(ptr byval(i64) %a0, i64'),
    ('define noundef i32', 'define fastcc noundef i32'),
    ('declare void', 'module asm "nop"\ndeclare void'),
    ('declare void', '@g = alias i32, ptr @f\ndeclare void'),
]

# A module that is laid out.
GOOD_MODULE = MODULE.replace("BODY", SLOT)
# What a function that takes two lengths begins with.
TRAP = """start:
  %narrow.1 = or i64 %a1, %a2
  %narrow.2 = icmp ult i64 %narrow.1, 4294967296
  br i1 %narrow.2, label %fits, label %too.long
too.long:
  call void @llvm.trap()
  unreachable
fits:
"""


def name_of(text):
    """A name for the case of a text: its words alone."""
    return re.sub(r"\W+", "-", text).strip("-")[:60]


def last_line(body):
    return name_of(body.splitlines()[-1])


def written(text, noise=False):
    """The lines that a line becomes."""
    return Layout(noise).line(text)


@pytest.mark.parametrize("text", WRITTEN, ids=name_of)
def test_line_is_written_anew(text):
    assert written(text) == WRITTEN[text]


@pytest.mark.parametrize("text", NOISY, ids=name_of)
def test_line_is_written_with_noise(text):
    assert written(text, noise=True) == NOISY[text]


@pytest.mark.parametrize("text", KEPT, ids=name_of)
def test_line_is_left_as_it_is(text):
    assert written(text) == [text]


@pytest.mark.parametrize("text", REFUSED, ids=name_of)
def test_line_is_refused(text):
    with pytest.raises(Refused):
        written(text)


@pytest.mark.parametrize("body", GOOD_BODIES, ids=last_line)
def test_function_is_laid_out(body):
    assert lay_out(MODULE.replace("BODY", body))


@pytest.mark.parametrize("body", BAD_BODIES, ids=last_line)
def test_function_is_refused(body):
    with pytest.raises(Refused):
        lay_out(MODULE.replace("BODY", body))


@pytest.mark.parametrize("old, new", BAD_HEADS, ids=[name_of(new) for _, new in BAD_HEADS])
def test_module_is_refused(old, new):
    text = GOOD_MODULE.replace(old, new)
    assert text != GOOD_MODULE
    with pytest.raises(Refused):
        lay_out(text)


def test_length_of_more_than_32_bits_traps():
    assert TRAP in lay_out(GOOD_MODULE.replace("%a1)", "%a1, i64 noundef %a2)"), lengths=True)


def test_length_of_a_function_that_is_not_exported_does_not():
    internal = GOOD_MODULE.replace("define ", "define internal ")
    assert lay_out(internal, lengths=True) == lay_out(internal)


def names_machine(text):
    return any(it in text for it in ("target", "probe", "x86"))


def test_no_machine_is_named():
    assert names_machine(GOOD_MODULE) and not names_machine(lay_out(GOOD_MODULE))


@pytest.fixture
def wide():
    """The module as it is for pointers of 64 bits."""
    return succeed("sed", "-E", "-f", HERE / "tools/for_machine.sed", stdin=MODULE.encode()).decode()


def test_no_machine_is_named_for_pointers_of_64_bits(wide):
    assert not names_machine(wide)


def test_functions_are_as_they_were_for_pointers_of_64_bits(wide):
    assert "BODY" in wide and wide.count("\n") > MODULE.count("\n") - 4
