"""Tests examples/cose_sign1.py: what it signs and writes is that of RFC 9052, whose bytes stand here by hand, OpenSSL
verifies the signature in it, and each damaged message is refused."""
import importlib.util
import os

import pytest

from archives import key_file, need_module, vectors
from support import HERE, PYTHON, run, succeed

EXAMPLE = HERE / "examples/cose_sign1.py"
PAYLOAD = b"This is the content."
# The array, "Signature1", the header, no external data, and the payload: as in RFC 9052, appendix C.2.1, with ES256.
SIG_STRUCTURE = bytes.fromhex("846a5369676e61747572653143a101264054") + PAYLOAD
# The same with the header {1: -500}; a message is the tag 18 and the array of header, {}, payload and signature.
HEADER = bytes.fromhex("45a1013901f3")
TO_BE_SIGNED = bytes.fromhex("846a5369676e617475726531") + HEADER + bytes.fromhex("4054") + PAYLOAD
FRONT = bytes.fromhex("d284") + HEADER + bytes.fromhex("a054") + PAYLOAD + bytes.fromhex("5942c0")  # of 17,088 bytes


@pytest.fixture(scope="module")
def cose(python_package, tmp_path_factory):
    """Runs the example, in a folder that has the keys and the file."""
    need_module("cbor2", "python3-cbor2")
    folder = tmp_path_factory.mktemp("cose")
    sk = bytes.fromhex(vectors("128f", kind="sign")[0]["sk"])
    key_file(folder / "secret.key", "secret", "128f", sk), key_file(folder / "public.key", "public", "128f", sk[32:])
    (folder / "FILE").write_bytes(PAYLOAD)
    env = {**os.environ, "PYTHONPATH": str(python_package)}

    def runs(*words):
        return run(PYTHON, EXAMPLE, *words, cwd=folder, env=env)

    runs.folder, runs.env = folder, env
    return runs


@pytest.fixture(scope="module")
def message(cose):
    made = cose("sign", "-500", "secret.key", "FILE")
    assert made.status == 0, made.errors
    return made.output


def test_what_is_signed_is_that_of_the_rfc(cose):
    program = "import cose_sign1, sys; sys.stdout.buffer.write(cose_sign1.to_be_signed(b'\\xa1\\x01\\x26', b'%s'))"
    env = {**cose.env, "PYTHONPATH": f"{cose.env['PYTHONPATH']}:{EXAMPLE.parent}"}
    assert succeed(PYTHON, "-c", program % PAYLOAD.decode(), env=env) == SIG_STRUCTURE


def test_openssl_verifies_the_signature_in_the_message(cose, message, oracle):
    assert message[: len(FRONT)] == FRONT
    (cose.folder / "signed").write_bytes(TO_BE_SIGNED)
    (cose.folder / "sig").write_bytes(message[len(FRONT) :])
    prefix = bytes.fromhex("3030300b0609608648016503040315032100")  # of a key of 128f (RFC 9909)
    key = bytes.fromhex((cose.folder / "public.key").read_text().split()[3])
    (cose.folder / "public.der").write_bytes(prefix + key)
    succeed(oracle, "pkeyutl", "-verify", "-pubin", "-inkey", cose.folder / "public.der", "-keyform", "DER", "-rawin",
            "-in", cose.folder / "signed", "-sigfile", cose.folder / "sig")


def test_message_is_verified(cose, message):
    (cose.folder / "FILE.cose").write_bytes(message)
    done = cose("verify", "-500", "public.key", "FILE.cose")
    assert (done.status, done.output) == (0, PAYLOAD)


CASES = {
    "another payload": (1, lambda it: it.replace(b"content", b"contend")),
    "another signature": (1, lambda it: it[:-1] + bytes([it[-1] ^ 1])),
    "another algorithm": (2, lambda it: it.replace(b"\xf3\xa0", b"\xf4\xa0")),
    "another tag": (2, lambda it: b"\xd1" + it[1:]),
    "a byte behind": (2, lambda it: it + b"\0"),
    "a byte less": (2, lambda it: it[:-1]),
    "no array": (2, lambda it: b"\xd2\x01"),
    "three parts": (2, lambda it: b"\xd2\x83" + it[2:]),
    "no payload": (2, lambda it: it.replace(b"\x54" + PAYLOAD, b"\xf6")),
    "an empty file": (2, lambda it: b""),
    "arrays in arrays": (2, lambda it: b"\xd2\x84" + b"\x81" * 100_000),
    "bytes without end": (2, lambda it: b"\xd2\x84\x5b\0\0\1\0\0\0\0\0"),
    "a fraction of nothing": (2, lambda it: b"\xd2\x84\xd8\x1e\x82\1\0"),
}


@pytest.mark.parametrize("case", CASES)
def test_other_message_is_refused(cose, message, case):
    status, change = CASES[case]
    (cose.folder / "other").write_bytes(change(message))
    done = cose("verify", "-500", "public.key", "other")
    assert (done.status, done.output) == (status, b""), done.errors
    assert done.errors.count(b"\n") == 1 and b"Traceback" not in done.errors


@pytest.mark.parametrize("words", [(), ("sign",), ("seal", "-500", "secret.key", "FILE"),
                                   ("sign", "ES256", "secret.key", "FILE"), ("sign", "-500", "public.key", "FILE"),
                                   ("sign", "-500", "secret.key", "none")])
def test_wrong_words_are_refused(cose, words):
    done = cose(*words)
    assert (done.status, done.output) == (2, b"") and done.errors.count(b"\n") == 1
