"""Tests of slh.jobs of the installed package, over signatures that other implementations made
(tests/vectors/README.md)."""

from __future__ import annotations

import json
import pathlib
import unittest

import slh
import slh.jobs

VECTORS = pathlib.Path(__file__).resolve().parents[3] / "tests/vectors" / "slh-dsa-sha2-128f.json"
FAST = slh.Set.SLH_DSA_SHA2_128F


class Jobs(unittest.TestCase):
    def setUp(self) -> None:
        tests = json.loads(VECTORS.read_text())
        wanted = {"kind": "sign", "form": "pure"}.items()
        test = next(it for it in tests if wanted <= it.items() and it["random"] and it["context"])
        names = "sk", "message", "context", "random", "signature"
        sk, self.message, self.context, self.random, self.wanted = (bytes.fromhex(test[name]) for name in names)
        self.secret = slh.SecretKey(FAST, sk)

    def begun(self, *levels: int) -> tuple[slh.jobs.Jobs, bytes]:
        jobs = slh.jobs.Jobs(FAST, *levels)
        return jobs, jobs.start(self.secret, self.message, self.context, randomizer=self.random)

    def refused(self, name: str, call, *arguments) -> None:
        with self.assertRaises(slh.Refusal) as caught:
            call(*arguments)
        self.assertEqual(name, caught.exception.name)

    def test_jobs_in_any_order_make_the_signature_of_another_implementation(self) -> None:
        for levels in (0, 0), (1, 2):
            jobs, start = self.begun(*levels)
            answers = {job: jobs.answer(self.secret, start, job) for job in reversed(range(jobs.count))}
            made = jobs.join(self.secret, start, (bytes(answers[job]) for job in range(jobs.count)))
            self.assertEqual(self.wanted, made)

    def test_a_randomizer_is_drawn_unless_there_is_none_by_name(self) -> None:
        jobs = slh.jobs.Jobs(FAST)
        self.assertNotEqual(*(jobs.start(self.secret, b"letter") for _ in range(2)))
        self.assertEqual(*(jobs.start(self.secret, b"letter", deterministic=True) for _ in range(2)))

    def test_refusals(self) -> None:
        self.refused("NoSuchSet", slh.jobs.Jobs, 7)
        self.refused("BadCutting", slh.jobs.Jobs, FAST, 4)
        jobs, start = self.begun()
        damaged = bytes([start[0] ^ 1]) + start[1:]
        self.refused("NoSuchJob", jobs.answer, self.secret, start, jobs.count)
        self.refused("BadStart", jobs.answer, self.secret, damaged, 0)
        self.refused("BadStartLength", jobs.answer, self.secret, start[1:], 0)
        answers = [jobs.answer(self.secret, start, job) for job in range(jobs.count)]
        self.refused("BadStart", jobs.join, self.secret, damaged, answers)
        self.refused("BadAnswersLength", jobs.join, self.secret, start, answers[1:])
        self.refused("BadAnswersLength", jobs.join, self.secret, start, [])
        answers[0][0] ^= 1
        self.refused("AnswersDisagree", jobs.join, self.secret, start, answers)
        self.secret.erase()
        self.assertRaises(slh.Erased, jobs.answer, self.secret, start, 0)

    def test_lengths_are_told(self) -> None:
        jobs, start = self.begun()
        other = slh.SecretKey("SLH-DSA-SHA2-192f", bytes(96))
        whole = sum(len(jobs.answer(self.secret, start, job)) for job in range(jobs.count))
        for expected, given, call, arguments in (
            (len(start), len(start) - 1, jobs.answer, (self.secret, start[1:], 0)),
            (64, 96, jobs.answer, (other, start, 0)),
            (64, 96, jobs.start, (other, self.message)),
            (255, 256, jobs.start, (self.secret, self.message, bytes(256))),
            (whole, 5, jobs.join, (self.secret, start, [b"12", b"345"])),
        ):
            with self.assertRaises(slh.Refusal) as caught:
                call(*arguments)
            self.assertEqual((caught.exception.expected, caught.exception.given), (expected, given))

    def test_other_types_and_numbers_are_told(self) -> None:
        jobs, start = self.begun()
        self.assertRaises(TypeError, slh.jobs.Jobs, FAST, "1")
        self.assertRaises(TypeError, slh.jobs.Jobs, FAST, True)
        self.assertRaises(TypeError, jobs.start, self.secret, self.message, deterministic=1)
        self.assertIs(slh.jobs.Jobs("SLH-DSA-SHA2-128f").set, FAST)
        self.assertRaises(OverflowError, slh.jobs.Jobs, FAST, 1 << 32)
        self.assertRaises(OverflowError, jobs.answer, self.secret, start, 1 << 32)
        self.assertRaises(TypeError, jobs.answer, self.secret, list(start), 0)
        self.assertRaises(TypeError, jobs.join, self.secret, start, [1])


if __name__ == "__main__":
    unittest.main()
