"""Many signatures in one call: those that other implementations made, and damaged ones."""

from __future__ import annotations

import json
import pathlib
import unittest

import slh

VECTORS = pathlib.Path(__file__).resolve().parents[3] / "tests/vectors"
COUNTS = (0, 1, 7, 8, 9, 17)
FAST = slh.Set.SLH_DSA_SHA2_128F


def vectors() -> list[tuple[slh.Signed, bool]]:
    """The items of all verify tests of the pure form, of each set, and whether they are valid."""
    found = []
    for path in sorted(VECTORS.glob("slh-dsa-*.json")):
        for test in json.loads(path.read_text()):
            if (test["kind"], test["form"]) == ("verify", "pure") if "form" in test else False:
                pk, message, signature, context = (
                    bytes.fromhex(test[it]) for it in ("pk", "message", "signature", "context")
                )
                found.append((slh.Signed(slh.PublicKey(test["set"], pk), message, signature, context), test["valid"]))
    return found


class Many(unittest.TestCase):
    def expect(self, given: list[tuple[slh.Signed, bool]]) -> None:
        self.assertEqual(slh.verify_many([it for it, _ in given]), [valid for _, valid in given])

    def test_verdicts_are_those_of_other_implementations(self) -> None:
        """In lists of several sets, which begin at each seventh test."""
        tests = vectors()
        self.assertGreater(len(tests), 90)
        self.expect(tests)
        for count in COUNTS:
            for first in range(0, len(tests) - count + 1, 7):
                self.expect(tests[first : first + count])

    def test_one_damaged_item_is_found_at_its_place(self) -> None:
        secret, other = slh.SecretKey.generate(FAST), slh.SecretKey.generate(FAST)
        signature = secret.sign(b"letter")
        damaged = signature[:-1] + bytes([signature[-1] ^ 1])
        good = slh.Signed(secret.public(), b"letter", signature)
        bad = [
            good._replace(public=other.public()),
            good._replace(message=b"letters"),
            good._replace(message=b""),
            good._replace(context=b"context"),
            good._replace(context=bytes(256)),
            good._replace(signature=damaged),
            good._replace(signature=damaged[1:]),
            good._replace(signature=b""),
        ]
        for count, place in ((1, 0), (7, 3), (8, 0), (8, 7), (9, 8), (17, 8), (17, 16)):
            for it in bad:
                self.expect([(it, False) if at == place else (good, True) for at in range(count)])

    def test_bytes_of_other_types_are_taken(self) -> None:
        """And items are taken from any iterable."""
        secret = slh.SecretKey.generate(FAST)
        signature = secret.sign(b"letter")
        item = slh.Signed(secret.public(), bytearray(b"letter"), memoryview(signature), bytearray())
        self.assertEqual(slh.verify_many(iter([item] * 9)), [True] * 9)

    def test_items_of_other_types_are_refused(self) -> None:
        secret = slh.SecretKey.generate(FAST)
        for item in ((secret, b"", b""), (secret.public(), "letter", b""), (secret.public(), b"", None), 7):
            with self.subTest(item=type(item)), self.assertRaises(TypeError):
                slh.verify_many([item])  # type: ignore[list-item]


if __name__ == "__main__":
    unittest.main()
