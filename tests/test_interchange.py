"""Compares the program `slh` with signatures that other implementations made, one case for each test of a vector file.
The program has no form `internal`, so tests of that form are left out.

- keygen: `slh keygen` of the seeds writes the secret key, `slh public` the public key, `slh upgrade` of their files of
  version 1 writes the same bytes, and `slh check` is consistent;
- sign: `slh sign` writes exactly the bytes of the test, and `slh verify` accepts them; a context of over 255 bytes is
  refused;
- verify: `slh verify` gives the answer of the test.

Of each record of records.json, the keys are made of its seeds, and each signature has the SHA-256 of the record and is
valid. Key files are of version 1 except for these records.
"""
import hashlib
import json
import pathlib

import pytest

from support import Outcome, refused

QUICK = "smoke-128f"
CONSISTENT, VALID, INVALID = Outcome(0, b"consistent\n"), Outcome(0, b"valid\n"), Outcome(1, b"invalid\n")


def vector_tests(folder):
    """The tests of each vector file, each with its name: SET-NUMBER, or smoke-128f-NUMBER."""
    for path in sorted(folder.glob("*.json")):
        tests = [] if path.name == "records.json" else json.loads(path.read_text())
        for number, test in enumerate(tests, 1):
            if test.get("form") != "internal":
                name = f"{path.stem.removeprefix('slh-dsa-sha2-')}-{number}"
                yield test["kind"], pytest.param(test, id=name, marks=() if path.stem == QUICK else pytest.mark.slow)


def record_cases(folder):
    """The parameter records and, of each, its signatures."""
    path = folder / "records.json"
    for record in json.loads(path.read_text()) if path.exists() else []:
        yield "record", pytest.param(record, id=record["label"], marks=pytest.mark.slow)
        for number, test in enumerate(record["signatures"], 1):
            if test["form"] != "internal":
                case = (record, test)
                yield "signature", pytest.param(case, id=f"{record['label']}-{number}", marks=pytest.mark.slow)


def pytest_generate_tests(metafunc):
    folder = pathlib.Path(metafunc.config.option.vectors)
    cases = [*vector_tests(folder), *record_cases(folder)]
    name = next(kind for kind, _ in cases if kind in metafunc.fixturenames)
    metafunc.parametrize(name, [case for kind, case in cases if kind == name])


def key_text(kind, version, label, digits):
    return f"slh-dsa-{kind} {version}\n{label}\n{digits}\n".encode()


@pytest.fixture
def put(tmp_path):
    """Writes a file of the test, and returns its path."""

    def puts(name, data):
        path = tmp_path / name
        path.write_bytes(data)
        return path

    return puts


@pytest.fixture
def key_file(put):
    return lambda kind, test, digits: put(kind, key_text(kind, 1, test["set"], digits))


@pytest.fixture
def verdict(slh, put, key_file):
    """What `slh verify` says of a signature of a test's message under a public key."""

    def verifies(test, digits, signature):
        return slh("verify", "--key", key_file("public", test, digits), "--message",
                   put("message", bytes.fromhex(test["message"])), "--signature", put("signature", signature),
                   *form_words(test))

    return verifies


def form_words(test):
    words = ["--context", test["context"]] if test["context"] else []
    return words + (["--prehash", test["form"]] if test["form"] != "pure" else [])


def random_words(test):
    return ["--random", test["random"]] if test["random"] else []


@pytest.fixture
def makes_keys(slh, put):
    """Makes the keys of seeds, compares them, and leaves their files as `secret` and `public`."""

    def makes(label, seeds, sk, pk):
        secret, public = key_text("secret", 2, label, sk), key_text("public", 2, label, pk)
        assert slh("keygen", "--set", label, stdin=seeds.encode()) == Outcome(0, secret)
        path = put("secret", secret)
        assert slh("public", "--key", path) == Outcome(0, public)
        assert slh("check", "--key", path) == CONSISTENT
        return path, put("public", public)

    return makes


def test_keygen(keygen, slh, makes_keys, key_file):
    makes_keys(keygen["set"], keygen["skSeed"] + keygen["skPrf"] + keygen["pkSeed"], keygen["sk"], keygen["pk"])
    for kind, digits in ("secret", keygen["sk"]), ("public", keygen["pk"]):
        upgraded = slh("upgrade", "--key", key_file(kind, keygen, digits))
        assert upgraded == Outcome(0, key_text(kind, 2, keygen["set"], digits))


def test_sign(sign, slh, put, key_file, verdict):
    signed = slh("sign", "--key", key_file("secret", sign, sign["sk"]), "--message",
                 put("message", bytes.fromhex(sign["message"])), *form_words(sign), *random_words(sign))
    if len(sign["context"]) > 510:
        assert signed == refused("2 ContextTooLong")
        return
    signature = bytes.fromhex(sign["signature"])
    assert signed == Outcome(0, signature)
    assert verdict(sign, sign["sk"][len(sign["sk"]) // 2:], signature) == VALID


def test_verify(verify, verdict):
    answer = verdict(verify, verify["pk"], bytes.fromhex(verify["signature"]))
    assert answer == (VALID if verify["valid"] else INVALID)


def keys_of(record, makes_keys):
    root = record["pk"][len(record["pk"]) // 2:]
    return makes_keys(record["label"], record["seeds"], record["seeds"] + root, record["pk"])


def test_record_keys(record, makes_keys):
    keys_of(record, makes_keys)


def test_record_signature(signature, slh, put, makes_keys):
    record, test = signature
    secret, public = keys_of(record, makes_keys)
    message = ["--message", put("message", bytes.fromhex(test["message"])), *form_words(test)]
    signed = slh("sign", "--key", secret, *message, *random_words(test))
    assert (signed.status, signed.errors, len(signed.output)) == (0, b"", record["sig_len"])
    assert hashlib.sha256(signed.output).hexdigest() == test["signature_sha256"]
    assert slh("verify", "--key", public, "--signature", put("signature", signed.output), *message) == VALID
