"""Tests that a Signer signs in forked processes, as pre-fork servers have them: one that a parent has used, one that
threads use at that moment, and in a child of a child. A process that hangs is killed, and the test fails."""

from __future__ import annotations

import contextlib
import multiprocessing
import os
import subprocess
import sys
import threading
import typing
import unittest
import warnings

import slh

FAST = slh.Set.SLH_DSA_SHA2_128F
CHILDREN, SECONDS = 16, 30

#: A child that ends as a program ends, with Python's own work at the end.
ENDS = """
import os, sys, slh
signer, secret = slh.Signer(workers=2), slh.SecretKey.generate("SLH-DSA-SHA2-128f")
signer.sign(secret, b"letter")
child = os.fork()
secret.public().verify(message=b"letter", signature=signer.sign(secret, b"letter"))
if child == 0:
    sys.exit(7)
sys.exit(0 if os.waitstatus_to_exitcode(os.waitpid(child, 0)[1]) == 7 else 1)
"""


@unittest.skipUnless(hasattr(os, "fork"), "this system has no fork")
class Forks(unittest.TestCase):
    @classmethod
    def setUpClass(cls) -> None:
        cls.secret = slh.SecretKey.generate(FAST)
        cls.public = cls.secret.public()

    def setUp(self) -> None:
        # Python warns if a process with threads forks.
        warnings.filterwarnings("ignore", "This process .* is multi-threaded", DeprecationWarning)

    def signs(self, signer: slh.Signer) -> None:
        for _ in range(2):
            self.public.verify(message=b"letter", signature=signer.sign(self.secret, b"letter"))

    def forked(self, count: int, act: typing.Callable[..., None], *given: object) -> list[int | None]:
        """The exit codes of processes that were forked for `act`. One that hangs has a negative code."""
        children = [multiprocessing.get_context("fork").Process(target=act, args=given) for _ in range(count)]
        for it in children:
            it.start()
        for it in children:
            it.join(SECONDS)
            it.kill()
            it.join()
        return [it.exitcode for it in children]

    def test_children_sign_by_a_signer_that_their_parent_has_used(self) -> None:
        for options in {"once": True}, {"verify": True}:
            with slh.Signer(workers=4, **options) as signer:
                self.signs(signer)
                self.assertEqual(self.forked(CHILDREN, self.signs, signer), [0] * CHILDREN)
                self.signs(signer)

    @contextlib.contextmanager
    def busy(self, signer: slh.Signer) -> typing.Iterator[None]:
        """Threads that sign meanwhile."""
        end = threading.Event()

        def work() -> None:
            while not end.is_set():
                signer.sign(self.secret, b"letter")

        threads = [threading.Thread(target=work) for _ in range(3)]
        for it in threads:
            it.start()
        try:
            yield
        finally:
            end.set()
            for it in threads:
                it.join()

    def test_children_sign_while_their_parent_signs(self) -> None:
        with slh.Signer(workers=4) as signer, self.busy(signer):
            self.assertEqual(self.forked(6, self.signs, signer), [0] * 6)

    def test_a_child_of_a_child_signs(self) -> None:
        with slh.Signer(workers=2) as signer:
            self.signs(signer)

            def child() -> None:
                self.signs(signer)
                self.assertEqual(self.forked(2, self.signs, signer), [0, 0])

            self.assertEqual(self.forked(1, child), [0])

    def test_a_signer_that_was_closed_is_closed_in_a_child(self) -> None:
        signer = slh.Signer(workers=2)
        self.signs(signer)
        signer.close()

        def child() -> None:
            self.assertRaises(RuntimeError, signer.sign, self.secret, b"letter")

        child()
        self.assertEqual(self.forked(1, child), [0])

    def test_a_child_closes_its_signer_alone(self) -> None:
        with slh.Signer(workers=2) as signer:
            self.signs(signer)

            def child() -> None:
                self.signs(signer)
                signer.close()
                self.assertRaises(RuntimeError, signer.sign, self.secret, b"letter")

            self.assertEqual(self.forked(2, child), [0, 0])
            self.signs(signer)

    def test_a_child_ends_as_programs_end(self) -> None:
        run = subprocess.run([sys.executable, "-W", "ignore", "-c", ENDS], timeout=SECONDS, capture_output=True)
        self.assertEqual((run.returncode, run.stderr), (0, b""))


if __name__ == "__main__":
    unittest.main()
