"""Tests the example in C that converts keys, by keys of OpenSSL: from PEM and DER and back, and files of another
form."""
import pytest

from conftest import STRICT
from support import HERE, run, succeed

SETS = ["128s", "128f", "192s", "192f", "256s", "256f"]

pytestmark = pytest.mark.slow


@pytest.fixture(scope="module")
def convert_key(compiled, installed):
    """The example, with the sanitizers."""
    sanitized = ["-fsanitize=address,undefined", "-fno-sanitize-recover"]
    return compiled("convert_key", "-std=c99", "-O1", *STRICT, *sanitized, "-I", installed / "include",
                    HERE / "examples/convert_key.c", installed / "lib/libslh.a")


def test_example_is_built(convert_key):
    assert run(convert_key).status == 2


@pytest.fixture
def keys(oracle, tmp_path):
    """Makes a pair of keys by OpenSSL: the folder with secret and public, as PEM and DER."""

    def makes(of_set):
        secret = tmp_path / "secret.pem"
        succeed(oracle, "genpkey", "-algorithm", f"SLH-DSA-SHA2-{of_set}", "-out", secret)
        for name, words in [("secret.der", ["-outform", "DER"]), ("public.pem", ["-pubout"]),
                            ("public.der", ["-pubout", "-outform", "DER"])]:
            succeed(oracle, "pkey", "-in", secret, *words, "-out", tmp_path / name)
        return tmp_path

    return makes


@pytest.mark.parametrize("of_set", SETS)
def test_keys_to_and_from_openssl(convert_key, keys, of_set):
    folder = keys(of_set)
    for kind in "secret", "public":
        file = folder / f"{kind}.key"
        file.write_bytes(succeed(convert_key, folder / f"{kind}.pem"))
        assert file.read_bytes().startswith(f"slh-dsa-{kind} 2\n".encode())
        assert succeed(convert_key, folder / f"{kind}.der") == file.read_bytes()
        assert succeed(convert_key, "--pem", file) == (folder / f"{kind}.pem").read_bytes()
        (folder / "old").write_bytes(file.read_bytes().replace(b" 2", b" 1", 1))
        assert succeed(convert_key, "--pem", folder / "old") == (folder / f"{kind}.pem").read_bytes()
        outcome = run(convert_key, "--pem", folder / f"{kind}.pem")
        assert outcome[:2] == (2, b"") and b"no key file" in outcome.errors
    secret, public = ((folder / f"{it}.key").read_text().splitlines()[2] for it in ("secret", "public"))
    assert secret.endswith(public)


def other_forms(der, pem, encrypted):
    """Each byte of a prefix changed, each third character of PEM changed to one that is no digit, files that are
    longer, shorter or encrypted."""
    others = [encrypted, b"", der[:-1], der + b"\0", pem[:-2], pem + b"\n", pem[1:], 600 * b"a"]
    others.append(pem.replace(b"\n", b"\r\n"))
    others += [der[:at] + bytes([der[at] ^ 0x80]) + der[at + 1 :] for at in range(len(der) - 64)]
    return others + [pem[:at] + b"-" + pem[at + 1 :] for at in range(0, len(pem), 3) if pem[at : at + 1] != b"-"]


def test_other_forms_are_refused(convert_key, keys, oracle):
    """The message has the command that converts."""
    folder = keys("256f")
    succeed(oracle, "pkey", "-in", folder / "secret.pem", "-aes256", "-passout", "pass:word", "-out", folder / "locked")
    others = other_forms(*((folder / it).read_bytes() for it in ("public.der", "secret.pem", "locked")))
    assert len(others) > 20
    for it in others:
        (folder / "other").write_bytes(it)
        outcome = run(convert_key, folder / "other")
        assert outcome[:2] == (2, b"") and b"openssl pkey" in outcome.errors, f"{it[:40]}: {outcome}"
