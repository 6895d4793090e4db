"""Tests of `python -m slh`: the statuses where a standard stream is closed or a thread is refused, and what it keeps.

tests/test_commands.py of the repository runs the program's rows over it.
"""

from __future__ import annotations

import io
import os
import pathlib
import subprocess
import sys
import tempfile
import unittest
import unittest.mock

import slh
import slh.__main__

SEEDS = "".join(f"{it:02x}" for it in range(48))
FAST = "SLH-DSA-SHA2-128f"


@unittest.skipUnless(sys.platform == "linux", "the commands are for Linux")
class Commands(unittest.TestCase):
    def setUp(self) -> None:
        folder = tempfile.TemporaryDirectory()
        self.addCleanup(folder.cleanup)
        self.folder = pathlib.Path(folder.name)
        seeds = bytes.fromhex(SEEDS)
        self.secret = slh.SecretKey.keygen(FAST, seeds[:16], seeds[16:32], seeds[32:])
        self.secret.dump(self.folder / "secret")
        self.secret.public().dump(self.folder / "public")
        (self.folder / "letter").write_bytes(b"letter")
        (self.folder / "signature").write_bytes(self.secret.sign(b"letter"))

    def run_closed(self, closed: int, *words: str) -> tuple[int, bytes, bytes]:
        """Runs a command with one of the standard streams closed: its status, output and errors."""
        done = subprocess.run(
            [sys.executable, "-m", "slh", *words],
            cwd=self.folder,
            capture_output=True,
            preexec_fn=lambda: os.close(closed),
        )
        return done.returncode, done.stdout, done.stderr

    def test_a_closed_stream_is_refused_and_is_no_verdict(self) -> None:
        verify = "verify", "--key", "public", "--message", "letter", "--signature", "signature"
        self.assertEqual((2, b"", b"slh: 32 ReadFailed\n"), self.run_closed(0, "keygen", "--set", FAST))
        self.assertEqual((2, b"", b"slh: 33 WriteFailed\n"), self.run_closed(1, *verify))
        self.assertEqual((2, b"", b""), self.run_closed(2, *verify[:-1], "none"))
        self.assertEqual((0, b"valid\n", b""), self.run_closed(2, *verify))

    def test_a_refused_thread_is_no_verdict(self) -> None:
        words = ["sign", "--workers", "4"]
        words += [f"--{it}={self.folder / name}" for it, name in (("key", "secret"), ("message", "letter"))]
        written = io.BytesIO()
        refusing = unittest.mock.patch("threading.Thread.start", side_effect=RuntimeError("can't start new thread"))
        writing = unittest.mock.patch("slh.__main__._write", side_effect=written.write)
        with refusing, writing:
            self.assertEqual(0, slh.__main__.main(words))
        self.assertEqual(self.secret.sign(b"letter", deterministic=True), written.getvalue())

    def test_signing_is_two_computations_unless_the_words_say_once(self) -> None:
        words = ["sign", f"--key={self.folder / 'secret'}", f"--message={self.folder / 'letter'}"]
        for workers in ("1", "3"):
            for more, wanted in ([], 2), (["--twice"], 2), (["--once"], 1):
                names, call = [], slh._calls.call

                def counting_call(name, *arguments):
                    names.append(name)
                    return call(name, *arguments)

                with unittest.mock.patch.object(slh._calls, "call", counting_call):
                    status, signature = slh.__main__._answer([*words, f"--workers={workers}", *more])
                self.assertEqual((0, self.secret.sign(b"letter", deterministic=True)), (status, signature))
                runs = names.count("slh_sign_job") // 55 + names.count("slh_sign") + 2 * names.count("slh_sign_twice")
                self.assertEqual(wanted, runs, names)
        with unittest.mock.patch("os.write") as write:
            self.assertEqual(2, slh.__main__.main([*words, "--once", "--twice"]))
        write.assert_called_once_with(2, b"slh: 31 BadWords\n")

    def test_seeds_and_the_key_are_cleared(self) -> None:
        """The digits of the seeds are in a bytearray, and the seeds outside Python's objects: both are cleared."""
        texts, memories, decode = [], [], slh.__main__._decoded

        def fill(text: bytearray) -> int:
            texts.append(text)
            text[: len(SEEDS)] = SEEDS.encode()
            return len(SEEDS)

        def decoded(digits: memoryview) -> slh._calls.Memory:
            memories.append(decode(digits))
            return memories[-1]

        keep = unittest.mock.patch("slh.__main__._fill", fill)
        wraps = unittest.mock.patch("slh.__main__._decoded", decoded)
        with keep, wraps, unittest.mock.patch("os.write", lambda _, it: len(it)):
            status, key = slh.__main__._answer(["keygen", "--set", FAST])
            self.assertEqual((0, self.secret.dumps()), (status, key))
            slh.__main__._write(key)
        self.assertEqual([False, False, False], [any(it) for it in (*texts, memories[0].view(), key)])


if __name__ == "__main__":
    unittest.main()
