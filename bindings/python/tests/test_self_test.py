"""Tests `self_test` and `python -m slh self-test`: each set passes, and a library with another answer is noticed."""

from __future__ import annotations

import contextlib
import ctypes
import json
import pathlib
import tempfile
import typing
import unittest
import unittest.mock

import slh
import slh.__main__

VECTORS = pathlib.Path(__file__).resolve().parents[3] / "tests/vectors"
LIBRARY = pathlib.Path(slh.__file__).parent / "libslh.so.1"
FAST = slh.Set.SLH_DSA_SHA2_128F


def known_root(set: slh.Set) -> bytes:
    """PK.root of the key whose seeds are 0, 1, 2 and so on, as another implementation made it."""
    tests = json.loads((VECTORS / f"{set.label.lower()}.json").read_text())
    seeds = bytes(range(3 * set.lengths.n)).hex()
    (pk,) = (it["pk"] for it in tests if it["kind"] == "keygen" and it["sk"].startswith(seeds))
    return bytes.fromhex(pk)[set.lengths.n :]


@contextlib.contextmanager
def another_library() -> typing.Iterator[None]:
    """A copy of the library, which expects another PK.root of 128f, is called in place of the library."""
    data, root = LIBRARY.read_bytes(), known_root(FAST)
    parts = [it for it in (root[:8], root[8:]) if it in data]
    assert parts, "the library does not have the root"
    for it in parts:
        data = data.replace(it, bytes([it[0] ^ 1]) + it[1:])
    with tempfile.TemporaryDirectory() as folder:
        path = pathlib.Path(folder) / LIBRARY.name
        path.write_bytes(data)
        with unittest.mock.patch.object(slh._calls, "library", ctypes.CDLL(str(path))):
            yield


class SelfTest(unittest.TestCase):
    def run_command(self, *words: str) -> tuple[int, bytes]:
        """The status of a command, and what it writes to either stream."""
        written = []

        def write(_: int, text: bytes) -> int:
            written.append(bytes(text))
            return len(text)

        with unittest.mock.patch("os.write", write):
            return slh.__main__.main(["self-test", *words]), b"".join(written)

    def test_each_set_passes(self) -> None:
        for it in slh.Set:
            slh.self_test(it)
        slh.self_test("SLH-DSA-SHA2-128f")

    def test_another_answer_is_noticed(self) -> None:
        """The test of each other set passes."""
        with another_library():
            self.assertRaisesRegex(slh.SelfTestFailed, "not the known one", slh.self_test, FAST)
            for it in set(slh.Set) - {FAST}:
                slh.self_test(it)

    def test_no_set_is_refused(self) -> None:
        for it in 7, "128f":
            with self.assertRaises(slh.Refusal) as caught:
                slh.self_test(it)
            self.assertEqual((caught.exception.number, caught.exception.name), (8, "NoSuchSet"))
        self.assertRaises(TypeError, slh.self_test, 2.0)

    def test_the_command_passes(self) -> None:
        for words in ([], [FAST.label], [FAST.label, "SLH-DSA-SHA2-192f"]):
            self.assertEqual((0, b"passed\n"), self.run_command(*words))

    def test_the_command_tests_each_named_set_or_all(self) -> None:
        for words in ([], [FAST.label], ["SLH-DSA-SHA2-192f", FAST.label]):
            with unittest.mock.patch("slh.self_test") as tested:
                self.run_command(*words)
            self.assertEqual(
                [call.args[0].label for call in tested.mock_calls], words or [it.label for it in slh.Set]
            )

    def test_the_command_names_the_set_that_fails(self) -> None:
        with another_library():
            for words in ([], ["SLH-DSA-SHA2-192f", FAST.label]):
                self.assertEqual((2, b"slh: 40 SelfTestFailed SLH-DSA-SHA2-128f\n"), self.run_command(*words))

    def test_the_command_refuses_other_words(self) -> None:
        self.assertEqual((2, b"slh: 12 UnknownSet\n"), self.run_command(FAST.label, "128f"))
        self.assertEqual((2, b"slh: 31 BadWords\n"), self.run_command("--all"))
        status, text = self.run_command("--help")
        self.assertEqual(0, status)
        self.assertIn(b"python -m slh self-test [SET..]", text)


if __name__ == "__main__":
    unittest.main()
