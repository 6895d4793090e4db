"""Tests tools/call_tables.py: slh-sys, the package for JavaScript and the portable C repeat the calls of calls.h."""
import shutil

import pytest

from support import HERE, run

RUST, JAVASCRIPT, PORTABLE = "bindings/rust/slh-sys/src/lib.rs", "bindings/javascript/calls.js", "c/portable/calls.c"
WRITTEN = [RUST, JAVASCRIPT, PORTABLE]
# A file, a text in it and another, and what the script says of the change.
CHANGES = {
    "a call that is gone from calls.h": ("c/exports/calls.h", "OPEN(verify_front,", "OPEN(verify_begin,",
                                         "no header declares slh_verify_begin"),
    "a call that calls.h lacks": ("c/include/slh.h", "uint32_t slh_verify_front(", "uint32_t slh_verify_begin(",
                                  "no header declares slh_verify_front"),
    "a new call of a header": ("c/include/slh.h", "uint32_t slh_level(void);",
                               "uint32_t slh_level(void);\n\n/*\n * New.\n */\nSLH_API\nuint32_t slh_new(void);",
                               "calls.h lacks slh_new"),
    "another kind": ("c/exports/calls.h", "SECRET(check,", "OPEN(check,", JAVASCRIPT),
    "another argument": ("c/include/slh.h", "size_t *answer_len);", "size_t *length);", f"{RUST}, {PORTABLE}"),
    "another type": ("c/include/slh.h", "uint32_t *jobs, size_t *answer_len);", "uint32_t *jobs, char *answer_len);",
                     "slh_keygen_jobs"),
    "another declaration of Rust": (RUST, "slh_check(set: u32, sk: *const u8", "slh_check(set: u32, sk: *mut u8", RUST),
    "a call that JavaScript takes for one without secrets": (JAVASCRIPT, '"slh_verify", ', '"slh_verify", "slh_sign", ',
                                                             JAVASCRIPT),
    "parts of the portable C": (PORTABLE, "{READ(sk), WRITE(pk)}", "{READ(sk), READ(pk)}", PORTABLE),
    "no marker": (PORTABLE, "has written the lines up to here", "has written", "does not have both markers"),
}


@pytest.fixture
def copy(tmp_path):
    """A copy of the files that the script reads and writes."""
    for path in ("tools/call_tables.py", "c/exports/calls.h", "c/include/slh.h", "c/include/slh_verify.h",
                 "c/include/slh_internal.h", *WRITTEN):
        (tmp_path / path).parent.mkdir(parents=True, exist_ok=True)
        shutil.copy(HERE / path, tmp_path / path)
    return tmp_path


def edit(copy, path, before, after):
    text = (copy / path).read_text()
    assert text.count(before) == 1
    (copy / path).write_text(text.replace(before, after))


def test_each_file_repeats_the_calls(copy):
    outcome = run(copy / "tools/call_tables.py", "--check")
    assert outcome.status == 0, outcome.errors.decode()


@pytest.mark.parametrize("name", CHANGES)
def test_a_change_is_found(copy, name):
    *change, says = CHANGES[name]
    edit(copy, *change)
    outcome = run(copy / "tools/call_tables.py", "--check")
    assert outcome.status == 1 and says in outcome.errors.decode()


def test_a_new_call_is_written(copy):
    """Its comment of Rust is the header's first sentence. One that was edited stays."""
    edit(copy, "c/exports/calls.h", "OPEN(verify_front,",
         "SECRET(new,\n       (uint32_t set),\n       (set))\nOPEN(verify_front,")
    edit(copy, "c/include/slh.h", "uint32_t slh_level(void);",
         "uint32_t slh_level(void);\n\n/*\n * To try. Returns: SLH_DONE.\n */\nSLH_MUST_USE SLH_API\n"
         "uint32_t slh_new(uint32_t set, const uint8_t *sk, size_t sk_len, uint32_t *kind, uint8_t *out,\n"
         "                 size_t out_len);")
    assert run(copy / "tools/call_tables.py").status == 0
    rust, script, c = ((copy / it).read_text() for it in WRITTEN)
    assert ("    /// To try.\n    #[must_use]\n    pub fn slh_new(set: u32, sk: *const u8, sk_len: usize, "
            "kind: *mut u32, out: *mut u8, out_len: usize) -> u32;\n") in rust
    secret = script.split("const SECRET")[1].split("]")[0]
    assert '"slh_new"' in secret and '"slh_key_read"' in secret
    assert ("    uint8_t numbers[1][8];\n    struct part parts[] = {READ(sk), WORD(0), WRITE(out)};\n"
            "    RUN(new, set, B(0), P(1), B(2));\n    if (result == SLH_DONE) *kind = get32(numbers[0]);\n"
            "    return result;\n") in c
    edit(copy, RUST, "/// To try.\n", "/// Tries it.\n")
    assert run(copy / "tools/call_tables.py", "--check").status == 0
