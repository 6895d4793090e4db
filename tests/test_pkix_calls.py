"""Tests the calls for keys in DER and PEM, slh_der_read, slh_der_write, slh_pem_read and slh_pem_write, of the
installed shared object. Expected bytes are the table of examples/README.md, which test_openssl_keys.py compares with
OpenSSL, and Python's base64. Some come from OpenSSL itself.
"""
import base64
import binascii
import ctypes
import itertools
import random

import pytest

from support import succeed
from test_key_calls import (BAD_LENGTH, BAD_OUTPUT_LENGTH, BY_KIND, BY_SET, DONE, KINDS, N, NOT_A_KEY_FILE,
                            NO_SUCH_KIND, NO_SUCH_SET, PAINT, ROOM, SETS, key_of, library)
from test_openssl_keys import PREFIXES

FORMS = {"der": 150, "pem": 259}
LABELS = {"public": "PUBLIC KEY", "secret": "PRIVATE KEY"}
BY_FORM = pytest.mark.parametrize("form", FORMS)
MUTATED = 82_000
EACH = MUTATED // 24


def prefix_of(name, kind):
    return PREFIXES[name.removeprefix("SLH-DSA-SHA2-")][kind == "public"]


def in_form(form, name, kind, key):
    der = prefix_of(name, kind) + key
    if form == "der":
        return der
    text = base64.b64encode(der).decode()
    lines = [text[at:at + 64] for at in range(0, len(text), 64)]
    ends = f"-----BEGIN {LABELS[kind]}-----", f"-----END {LABELS[kind]}-----"
    return "".join(f"{it}\n" for it in (ends[0], *lines, ends[1])).encode()


def judged(form, file):
    """The set, the kind and the key of a file, if it is exactly one of the twelve forms."""
    for name, kind in itertools.product(SETS, KINDS):
        length = len(in_form(form, name, kind, key_of(name, kind)))
        if len(file) not in ((length,) if form == "der" else (length, length - 1)):
            continue
        try:
            der = base64.b64decode(b"".join(file.splitlines()[1:-1])) if form == "pem" else file
        except binascii.Error:
            continue
        key = der[len(prefix_of(name, kind)):]
        whole = in_form(form, name, kind, key) if len(key) == 2 * N[name] * KINDS[kind] else None
        if file == whole or form == "pem" and file + b"\n" == whole:
            return SETS.index(name) + 1, KINDS[kind], key
    return None


def read(library, form, file, room=ROOM):
    number, kind = ctypes.c_uint32(77), ctypes.c_uint32(77)
    key = (ctypes.c_uint8 * (room + 64))(*[PAINT] * (room + 64))
    call = getattr(library, f"slh_{form}_read")
    result = call(file, ctypes.c_size_t(len(file)), ctypes.byref(number), ctypes.byref(kind), key, ctypes.c_size_t(room))
    assert bytes(key)[room:] == bytes([PAINT] * 64)
    return result, (number.value, kind.value, bytes(key)[:room])


def written(library, form, number, kind, key, room=None):
    room = FORMS[form] if room is None else room
    count, text = ctypes.c_uint32(77), (ctypes.c_uint8 * (room + 64))(*[PAINT] * (room + 64))
    call = getattr(library, f"slh_{form}_write")
    result = call(ctypes.c_uint32(number), ctypes.c_uint32(kind), key, ctypes.c_size_t(len(key)), ctypes.byref(count),
                  text, ctypes.c_size_t(room))
    assert bytes(text)[room:] == bytes([PAINT] * 64)
    return result, count.value, bytes(text)[:room]


def nothing(number, room=ROOM):
    return number, (77, 77, bytes([PAINT] * room))


@BY_FORM
@BY_SET
@BY_KIND
def test_both_ways(library, form, name, kind):
    key, number = key_of(name, kind), SETS.index(name) + 1
    file = in_form(form, name, kind, key)
    room = FORMS[form]
    assert written(library, form, number, KINDS[kind], key) == (DONE, len(file), file + bytes(room - len(file)))
    least = len(file) + (form == "pem")
    assert written(library, form, number, KINDS[kind], key, least)[:2] == (DONE, len(file))
    assert written(library, form, number, KINDS[kind], key, least - 1) == (
        BAD_OUTPUT_LENGTH, 77, bytes([PAINT] * (least - 1)))
    assert read(library, form, file) == (DONE, (number, KINDS[kind], key + bytes(ROOM - len(key))))
    assert read(library, form, file, len(key)) == (DONE, (number, KINDS[kind], key))
    assert read(library, form, file, len(key) - 1) == nothing(BAD_OUTPUT_LENGTH, len(key) - 1)
    if form == "pem":
        assert read(library, form, file[:-1]) == read(library, form, file)


@BY_FORM
def test_refused_writing(library, form):
    key, paint = key_of(SETS[0], "public"), bytes([PAINT] * FORMS[form])
    for number, kind, of, refusal in ((0, 9, key[1:], NO_SUCH_SET), (7, 1, key, NO_SUCH_SET),
                                      (1, 0, key[1:], NO_SUCH_KIND), (1, 3, key, NO_SUCH_KIND),
                                      (1, 1, key[1:], BAD_LENGTH), (1, 2, key, BAD_LENGTH)):
        assert written(library, form, number, kind, of) == (refusal, 77, paint)
    assert written(library, form, 1, 1, key[1:], 3)[0] == BAD_LENGTH


def mutations(file, numbers):
    """Files near this one: a byte changed, left out, doubled or exchanged, a front, more behind, two pieces exchanged."""
    yield from (file[:at] for at in range(len(file)))
    yield from (file + it for it in (b"\n", b"\0", b"\r\n", b" ", file))
    for at in range(len(file)):
        yield file[:at] + file[at + 1:]
        yield file[:at] + file[at:at + 1] + file[at:]
        for value in (*b"\n\r =-A/+0z\0\x7f\xff", file[at] ^ 1, file[at] ^ 128):
            yield file[:at] + bytes([value]) + file[at + 1:]
    while True:
        at, to = sorted(numbers.sample(range(len(file) + 1), 2))
        value = numbers.randrange(256)
        yield numbers.choice([file[:at] + bytes([value]) + file[at + 1:], file[:at] + file[to:], file[to:] + file[:to],
                              file[:at] + bytes([value]) + file[at:], file[:at] + file[at:to][::-1] + file[to:]])


@BY_FORM
@BY_SET
@BY_KIND
def test_mutated_files(library, form, name, kind):
    """Each file is judged as the table and Python's base64 judge it."""
    file = in_form(form, name, kind, key_of(name, kind))
    accepted = 0
    for other in itertools.islice(mutations(file, random.Random(name + kind)), EACH):
        found = judged(form, other)
        accepted += found is not None
        wanted = nothing(NOT_A_KEY_FILE)
        if found:
            number, of_kind, key = found
            wanted = DONE, (number, of_kind, key + bytes(ROOM - len(key)))
        assert read(library, form, other) == wanted, other
    assert accepted


@pytest.mark.parametrize("name", SETS)
def test_keys_of_openssl(library, oracle, tmp_path, name):
    number, n, file = SETS.index(name) + 1, N[name], tmp_path / "key.pem"
    succeed(oracle, "genpkey", "-algorithm", name, "-out", file)
    texts = {("pem", 2): file.read_bytes(), ("der", 2): succeed(oracle, "pkey", "-in", file, "-outform", "DER"),
             ("pem", 1): succeed(oracle, "pkey", "-in", file, "-pubout"),
             ("der", 1): succeed(oracle, "pkey", "-in", file, "-pubout", "-outform", "DER")}
    secret = texts["der", 2][-4 * n:]
    for (form, kind), text in texts.items():
        key = secret if kind == 2 else secret[2 * n:]
        assert read(library, form, text) == (DONE, (number, kind, key + bytes(ROOM - len(key))))
        assert written(library, form, number, kind, key) == (DONE, len(text), text + bytes(FORMS[form] - len(text)))
