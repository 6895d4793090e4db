"""Tests of slh.pkix of the installed package, over keys that OpenSSL 3.5 makes and reads, where it is there."""

from __future__ import annotations

import base64
import os
import pathlib
import shutil
import subprocess
import tempfile
import unittest

import slh
from slh import pkix

PATH = os.environ.get("PATH", "") + ":/usr/local/bin"
OPENSSL = os.environ.get("OPENSSL") or shutil.which("openssl-3.5", path=PATH) or "openssl"


def has_sets() -> bool:
    words = [OPENSSL, "list", "-signature-algorithms"]
    try:
        return b"SLH-DSA-SHA2-128f" in subprocess.run(words, stdout=subprocess.PIPE, stderr=subprocess.DEVNULL).stdout
    except OSError:
        return False


def run(*words: str, given: bytes = b"") -> bytes:
    return subprocess.run([OPENSSL, *words], input=given, stdout=subprocess.PIPE, check=True).stdout


def is_refused(test: unittest.TestCase, call, data: bytes, why: str) -> None:
    with test.assertRaises(slh.Refusal) as caught:
        call(data)
    test.assertEqual((caught.exception.number, caught.exception.name), (11, "NotAKeyFile"))
    test.assertIn(why, str(caught.exception))


def wrapped(data: bytes, label: str) -> bytes:
    """PEM by Python's own base64."""
    text = base64.b64encode(data).decode()
    lines = [text[at : at + 64] for at in range(0, len(text), 64)]
    return "\n".join([f"-----BEGIN {label}-----", *lines, f"-----END {label}-----", ""]).encode()


class Forms(unittest.TestCase):
    """Without OpenSSL: the prefixes as the standards have them, and what is refused."""

    def setUp(self) -> None:
        self.secret = slh.SecretKey.keygen("SLH-DSA-SHA2-128f", *(bytes([it]) * 16 for it in (1, 2, 3)))
        self.public = self.secret.public()

    def test_prefixes(self) -> None:
        oid = bytes.fromhex("06096086480165030403")
        for number, n in zip(range(1, 7), (16, 16, 24, 24, 32, 32)):
            algorithm = b"\x30\x0b" + oid + bytes([0x13 + number])
            pk, sk = bytes(range(2 * n)), bytes(range(4 * n))
            public, secret = slh.PublicKey(number, pk), slh.SecretKey(number, sk)
            bits = b"\x03" + bytes([2 * n + 1]) + b"\0" + pk
            der = b"\x30" + bytes([len(algorithm + bits)]) + algorithm + bits
            self.assertEqual(pkix.to_der(public), der)
            self.assertEqual(pkix.to_pem(public), wrapped(der, "PUBLIC KEY"))
            long = b"\x81" if n == 32 else b""
            inside = b"\x02\x01\0" + algorithm + b"\x04" + long + bytes([4 * n]) + sk
            der = b"\x30" + long + bytes([len(inside)]) + inside
            self.assertEqual(pkix.to_der(secret), der)
            self.assertEqual(pkix.to_pem(secret), wrapped(der, "PRIVATE KEY"))
            self.assertEqual(pkix.secret_from_pem(pkix.to_pem(secret)).to_bytes(), sk)
            self.assertEqual(pkix.public_from_pem(pkix.to_pem(public)[:-1]), public)

    def test_each_byte_counts(self) -> None:
        """Each other byte of a prefix is refused, and each shorter or longer file."""
        for der, call in ((pkix.to_der(self.public), pkix.public_from_der), (bytes(pkix.to_der(self.secret)),
                                                                             pkix.secret_from_der)):
            known = {0x14, 0x15}
            for at in range(len(der) - (32 if call is pkix.public_from_der else 64)):
                for bit in range(8):
                    other = der[at] ^ 1 << bit
                    if at + 1 < len(der) and der[at] in known and other in known:
                        continue
                    is_refused(self, call, der[:at] + bytes([other]) + der[at + 1 :], "this converts it: openssl pkey")
            for other in der[:-1], der + b"\0", b"", der[1:]:
                is_refused(self, call, other, "-inform DER -in FILE")

    def test_each_character_counts(self) -> None:
        pem = pkix.to_pem(self.public)
        for at in range(len(pem)):
            for char in b"\n=-\r":
                other = pem[:at] + bytes([char]) + pem[at + 1 :]
                if char != pem[at]:
                    is_refused(self, pkix.public_from_pem, other, "openssl pkey -pubin -in FILE -pubout -out NEW")
        for other in pem[:-2], pem + b"\n", pem.replace(b"\n", b"\r\n"), b"# key\n" + pem, pem[:-27] + b"\n" + pem[-27:]:
            is_refused(self, pkix.public_from_pem, other, "this converts it")

    def test_kinds(self) -> None:
        secret, public = pkix.to_pem(self.secret), pkix.to_pem(self.public)
        is_refused(self, pkix.public_from_pem, secret, "the key is secret, and a public one is asked for")
        is_refused(self, pkix.public_from_der, pkix.to_der(self.secret), "the key is secret")
        is_refused(self, pkix.secret_from_pem, public, "openssl pkey -in FILE -out NEW")
        is_refused(self, pkix.public_from_pem, self.public.dumps(), "not the one form")
        for call in pkix.public_from_der, pkix.public_from_pem, pkix.secret_from_der, pkix.secret_from_pem:
            with self.assertRaises(TypeError):
                call("text")
        for call in pkix.to_der, pkix.to_pem:
            with self.assertRaises(TypeError):
                call(public)

    def test_nothing_is_shown(self) -> None:
        """An error has no part of the key, and an erased key gives none."""
        pem = bytes(pkix.to_pem(self.secret))
        with self.assertRaises(slh.Refusal) as caught:
            pkix.secret_from_pem(pem + b"x")
        self.assertNotIn(pem.split(b"\n")[1][40:60].decode(), str(caught.exception))
        self.assertIsInstance(pkix.to_der(self.secret), bytearray)
        self.assertIsInstance(pkix.to_pem(self.secret), bytearray)
        self.secret.erase()
        for call in pkix.to_der, pkix.to_pem:
            with self.assertRaises(slh.Erased):
                call(self.secret)


@unittest.skipUnless(has_sets(), "there is no OpenSSL 3.5")
class WithOpenSSL(unittest.TestCase):
    def test_both_directions(self) -> None:
        for set in slh.Set:
            with self.subTest(set.label):
                pem = run("genpkey", "-algorithm", set.label)
                secret = pkix.secret_from_pem(pem)
                secret.check()
                self.assertEqual(secret.set, set)
                self.assertEqual(pkix.to_pem(secret), pem)
                self.assertEqual(pkix.to_der(secret), run("pkey", "-outform", "DER", given=pem))
                public_pem = run("pkey", "-pubout", given=pem)
                public = pkix.public_from_pem(public_pem)
                self.assertEqual(public, secret.public())
                self.assertEqual(pkix.to_pem(public), public_pem)
                der = run("pkey", "-pubout", "-outform", "DER", given=pem)
                self.assertEqual(pkix.public_from_der(der), public)
                self.assertEqual(pkix.to_der(public), der)
                made = slh.SecretKey.generate(set)
                found = run("pkey", "-pubout", "-check", given=bytes(pkix.to_pem(made)))
                self.assertIn(pkix.to_pem(made.public()).strip(), found)

    def test_commands_convert(self) -> None:
        """What is refused has a command that makes it one that is read."""
        pem = run("genpkey", "-algorithm", "SLH-DSA-SHA2-128f")
        encrypted = run("pkey", "-aes256", "-passout", "pass:word", given=pem)
        is_refused(self, pkix.secret_from_pem, encrypted, "the key is encrypted")
        with tempfile.TemporaryDirectory() as folder:
            one, other = (pathlib.Path(folder) / it for it in ("FILE", "NEW"))
            one.write_bytes(b"a comment\n" + pem.replace(b"\n", b"\r\n"))
            with self.assertRaises(slh.Refusal) as caught:
                pkix.secret_from_pem(one.read_bytes())
            words = str(caught.exception).rpartition(": ")[2].split()
            subprocess.run([OPENSSL, *words[1:]], cwd=folder, check=True)
            self.assertEqual(pkix.to_pem(pkix.secret_from_pem(other.read_bytes())), pem)
            one.write_bytes(encrypted)
            subprocess.run([OPENSSL, *words[1:], "-passin", "pass:word"], cwd=folder, check=True)
            self.assertEqual(pkix.to_pem(pkix.secret_from_pem(other.read_bytes())), pem)
