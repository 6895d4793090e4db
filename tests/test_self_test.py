"""Tests slh_self_test of the installed shared object: its results, and what it writes. The signatures are those of the
vector files.
"""
import ctypes
import hashlib
import json

import pytest

from support import VECTORS

SETS = [f"SLH-DSA-SHA2-{it}" for it in ("128s", "128f", "192s", "192f", "256s", "256f")]
N = dict(zip(SETS, (16, 16, 24, 24, 32, 32)))
DONE, NO_SUCH_SET, BAD_OUTPUT_LENGTH, SELF_TEST_FAILED = 0, 8, 18, 40
PAINT = 0xA5


@pytest.fixture(scope="module")
def library(lib):
    return ctypes.CDLL(str(lib / "libslh.so"))


def vectors_of(name, kind):
    return [it for it in json.loads((VECTORS / f"{name.lower()}.json").read_text()) if it["kind"] == kind]


def seeds_of(name):
    """The seeds of slh_self_test: 0, 1, 2 and so on."""
    return bytes(range(3 * N[name])).hex()


def known_test(name):
    """The signature of the vector file that slh_self_test makes, of the message abc."""
    found = [it for it in vectors_of(name, "sign") if it["sk"].startswith(seeds_of(name))
             and (it["form"], it["message"], it["context"], it["random"]) == ("pure", b"abc".hex(), "", "")]
    assert len(found) == 1
    return bytes.fromhex(found[0]["signature"])


def known_root(name):
    found = [it for it in vectors_of(name, "keygen") if it["sk"].startswith(seeds_of(name))]
    assert len(found) == 1
    return bytes.fromhex(found[0]["pk"])[N[name]:]


def self_test(library, number, length):
    scratch = (ctypes.c_uint8 * (length + 1))(*[PAINT] * (length + 1))
    result = library.slh_self_test(number, scratch, ctypes.c_size_t(length))
    assert scratch[length] == PAINT
    return result, bytes(scratch)[:length]


@pytest.mark.parametrize("name", SETS)
def test_self_test_makes_the_signature_of_the_vectors(library, name):
    signature = known_test(name)
    assert self_test(library, SETS.index(name) + 1, len(signature)) == (DONE, signature)


def test_self_test_refuses(library):
    for number, length, refusal in [(0, 17088, NO_SUCH_SET), (7, 17088, NO_SUCH_SET), (2, 17087, BAD_OUTPUT_LENGTH),
                                    (2, 17089, BAD_OUTPUT_LENGTH), (2, 0, BAD_OUTPUT_LENGTH)]:
        assert self_test(library, number, length) == (refusal, bytes([PAINT] * length))


@pytest.mark.parametrize("what", ["PK.root", "hash"])
@pytest.mark.parametrize("name", [SETS[1], SETS[3], SETS[5]])
def test_self_test_finds_another_answer(lib, tmp_path, name, what):
    """Another copy of the library, in which a known answer is another one, wherever it is."""
    signature = known_test(name)
    known = hashlib.sha256(signature).digest() if what == "hash" else known_root(name)
    whole = (lib / "libslh.so").read_bytes()
    parts = [known[i:i + 8] for i in range(0, len(known), 8) if known[i:i + 8] in whole]
    if what == "hash" and not parts:
        pytest.skip("the compiler wrote the known hash into instructions")
    assert parts
    for place, part in enumerate(parts):
        copy = tmp_path / f"libslh{place}.so"
        copy.write_bytes(whole.replace(part, bytes([part[0] ^ 1]) + part[1:]))
        result, made = self_test(ctypes.CDLL(str(copy)), SETS.index(name) + 1, len(signature))
        assert (result, made) == (SELF_TEST_FAILED, signature)
