"""A signature as jobs for threads, processes or machines of the caller's own (docs/LIBRARY.md of the repository).

    jobs = slh.jobs.Jobs(slh.Set.SLH_DSA_SHA2_256S, xmss=3, fors=0)
    start = jobs.start(secret, message)
    answers = [jobs.answer(secret, start, job) for job in range(jobs.count)]
    signature = jobs.join(secret, start, answers)

With the same randomizer, or with none, the signature is byte for byte the one that `SecretKey.sign` makes. THE ANSWERS
ARE SECRET: who reads one can have the key. They are bytearrays, which the caller clears. What this module makes of them
and of a secret key for a call is cleared when the call returns.
"""

from __future__ import annotations

import ctypes
import typing

from slh import AnySet, SecretKey, _checked_secret, _checked_set, _lengths, _randomizer, _text_lengths
from slh._calls import Bytes, Length, Memory, checked_bytes, checked_number, cleared, discreet, done

__all__ = ["Jobs"]

_BAD_LENGTH = 3
_BAD_ANSWERS_LENGTH = 20
_BAD_START_LENGTH = 27


class Jobs:
    """The jobs of one signature of a set: each XMSS tree is cut into 2^xmss ranges, each FORS tree into 2^fors."""

    def __init__(self, set: AnySet, xmss: int = 0, fors: int = 0) -> None:
        """Raises Refusal: NoSuchSet, BadCutting."""
        count, start, answers = ctypes.c_uint32(), ctypes.c_size_t(), ctypes.c_size_t()
        self.set = _checked_set(set)
        self._cut = self.set, checked_number(xmss), checked_number(fors)
        done("slh_sign_jobs", *self._cut, count, start, answers)
        self.count, self._start_length, self._answers_length = count.value, start.value, answers.value

    def _lengths(self, secret: SecretKey, start: bytes) -> dict[int, Length]:
        """The lengths of a key and of a start, for refusals."""
        expected, given = self.set.lengths.secret_key, secret.set.lengths.secret_key
        key = Length(f"a secret key of {self.set.label}", expected, given)
        return {_BAD_LENGTH: key, _BAD_START_LENGTH: Length("a start", self._start_length, len(start))}

    @discreet
    def start(
        self,
        secret: SecretKey,
        message: Bytes,
        context: Bytes = b"",
        *,
        randomizer: Bytes | None = None,
        deterministic: bool = False,
    ) -> bytes:
        """Begins the signature of a message in the pure form. Raises Refusal: as `SecretKey.sign`."""
        given = [checked_bytes(it) for it in (message, context)]
        opt_rand = _randomizer(self.set, randomizer, deterministic)
        start = ctypes.create_string_buffer(self._start_length)
        lengths = {**self._lengths(_checked_secret(secret), b""), **_text_lengths((), *given)}
        with secret._taken() as taken:
            done("slh_sign_start", self.set, taken, *given, opt_rand, start, lengths=lengths)
        return start.raw

    @discreet
    def answer(self, secret: SecretKey, start: Bytes, job: int) -> bytearray:
        """Does one job, a number below `count`. Raises Refusal: NoSuchJob, BadLength, BadStartLength, BadStart."""
        at, length = ctypes.c_size_t(), ctypes.c_size_t()
        done("slh_answer_place", *self._cut, checked_number(job), at, length)
        begun = checked_bytes(start)
        answer = Memory(length.value)
        lengths = self._lengths(_checked_secret(secret), begun)
        with cleared(answer), secret._taken() as taken:
            done("slh_sign_job", *self._cut, taken, begun, job, answer, lengths=lengths)
            return bytearray(answer.view())

    @discreet
    def join(self, secret: SecretKey, start: Bytes, answers: typing.Iterable[Bytes]) -> bytes:
        """Joins the answers of all jobs, in the order of their numbers, to the signature.

        Raises Refusal: BadAnswersLength, BadLength, BadStartLength, BadStart, AnswersDisagree.
        """
        given = [Memory.copy_of(it) for it in answers]
        begun = checked_bytes(start)
        joined = Memory(sum(it.length for it in given))
        signature = Memory(_lengths(self.set).signature)
        lengths = self._lengths(_checked_secret(secret), begun)
        lengths[_BAD_ANSWERS_LENGTH] = Length("the answers of all jobs", self._answers_length, joined.length)
        with cleared(joined, signature, *given), secret._taken() as taken:
            _join(given, joined)
            done("slh_sign_join", *self._cut, taken, begun, joined, signature, lengths=lengths)
            return signature.to_bytes()


def _join(parts: list[Memory], whole: Memory) -> None:
    """Copies parts into the memory that they fill."""
    end = 0
    for it in parts:
        whole.view()[end : end + it.length] = it.view()
        end += it.length
