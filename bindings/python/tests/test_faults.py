"""Tests that a computation that goes wrong gives Fault and no signature or key, as it is, with `once` and `verify`."""

from __future__ import annotations

import itertools
import threading
import unittest
import unittest.mock
import warnings

import slh

FAST = slh.Set.SLH_DSA_SHA2_128F
FUNCTION, DIGEST = slh.Function.SLH_SHA2_256, bytes(32)
SIGNATURE = FAST.lengths.signature
#: Where a bit is flipped in a signature: in R, in the FORS signature, in the first and in the last layer.
PLACES = (0, 16, 5000, SIGNATURE - 1)


def flipping(place: int, *names: str):
    """Calls that flip a bit of each signature that calls of these names write, and what they wrote into."""
    call, written = slh._calls.call, []

    def flipping_call(name, *arguments):
        result = call(name, *arguments)
        if name in names:
            arguments[-1].view()[place] ^= 4
            written.append(arguments[-1])
        return result

    return unittest.mock.patch.object(slh._calls, "call", flipping_call), written


class Faults(unittest.TestCase):
    @classmethod
    def setUpClass(cls) -> None:
        cls.secret = slh.SecretKey.generate(FAST)
        cls.public = cls.secret.public()

    def forms(self) -> list[tuple]:
        """Each way to sign without workers, and to verify."""
        return [
            ("slh_sign", self.secret.sign, (b"letter", b"letters")),
            ("slh_hash_sign", self.secret.hash_sign, (FUNCTION, b"letter", b"letters")),
            ("slh_hash_sign_digest", self.secret.hash_sign_digest, (FUNCTION, DIGEST, b"letters")),
        ]

    def is_valid(self, form: str, signature: bytes) -> bool:
        named = {"signature": signature, "context": b"letters"}
        try:
            if form == "slh_sign":
                self.public.verify(message=b"letter", **named)
            elif form == "slh_hash_sign":
                self.public.hash_verify(FUNCTION, message=b"letter", **named)
            else:
                self.public.hash_verify_digest(FUNCTION, digest=DIGEST, **named)
        except slh.Invalid:
            return False
        return True

    def test_the_bytes_are_those_without_the_options(self) -> None:
        for form, sign, given in self.forms():
            alone = sign(*given, deterministic=True)
            self.assertTrue(self.is_valid(form, alone))
            for once, verify in itertools.product((False, True), repeat=2):
                self.assertEqual(sign(*given, deterministic=True, once=once, verify=verify), alone)
                made = sign(*given, randomizer=b"r" * 16, once=once, verify=verify)
                self.assertEqual(made, sign(*given, randomizer=b"r" * 16))

    def test_workers_with_the_options_give_the_same_bytes(self) -> None:
        pure = self.secret.sign(b"letter", deterministic=True)
        hashed = self.secret.hash_sign(FUNCTION, b"letter", deterministic=True)
        for once, verify in itertools.product((False, True), repeat=2):
            with slh.Signer(2, once=once, verify=verify) as signer:
                self.assertEqual(signer.sign(self.secret, b"letter", deterministic=True), pure)
                self.assertEqual(signer.hash_sign(self.secret, FUNCTION, b"letter", deterministic=True), hashed)

    def test_a_wrong_signature_is_erased_and_not_returned(self) -> None:
        """One bit of the signature is flipped after it was made. Without `verify` that signature is returned."""
        for (form, sign, given), place, once in itertools.product(self.forms(), PLACES, (False, True)):
            name = form if once else form + "_twice"
            patch, written = flipping(place, name)
            with patch:
                wrong = sign(*given, once=once)
                self.assertRaisesRegex(slh.Fault, "is not valid", sign, *given, once=once, verify=True)
            self.assertFalse(self.is_valid(form, wrong))
            self.assertEqual((len(written), bytes(written[1].view())), (2, bytes(SIGNATURE)))

    def test_a_wrong_signature_of_workers_is_erased_and_not_returned(self) -> None:
        for place, once in itertools.product(PLACES, (False, True)):
            patch, written = flipping(place, "slh_sign_join")
            with patch, slh.Signer(2, once=once) as signer, slh.Signer(2, once=once, verify=True) as careful:
                pure = signer.sign(self.secret, b"letter", b"letters")
                hashed = signer.hash_sign(self.secret, FUNCTION, b"letter", b"letters")
                self.assertRaises(slh.Fault, careful.sign, self.secret, b"letter", b"letters")
                self.assertRaises(slh.Fault, careful.hash_sign, self.secret, FUNCTION, b"letter", b"letters")
            self.assertFalse(self.is_valid("slh_sign", pure) or self.is_valid("slh_hash_sign", hashed))
            self.assertEqual([bytes(it.view()) for it in written[2:]], [bytes(SIGNATURE)] * 2)

    def test_a_key_that_is_not_consistent_signs_nothing_with_verify(self) -> None:
        data = self.secret.to_bytes()
        data[-1] ^= 1
        wrong = slh.SecretKey(FAST, data)
        self.assertEqual(len(wrong.sign(b"letter")), SIGNATURE)
        for once in (False, True):
            self.assertRaises(slh.Fault, wrong.sign, b"letter", once=once, verify=True)

    def test_a_bit_that_flips_during_a_call_is_found(self) -> None:
        """While the library signs for the second time, a thread flips a bit of the first signature, in the scratch."""
        for (form, sign, given), place in itertools.product(self.forms(), PLACES):
            with self.subTest(form=form, place=place):
                disturbed = self.faulty(sign, given, f"{form}_twice", place)
                scratch, signature = disturbed.arguments[-2:]
                self.assertEqual(bytes(scratch.view()), bytes(2 * SIGNATURE))
                self.assertEqual(bytes(signature.view()), bytes(SIGNATURE))
                self.assertFalse(any(disturbed.key.view()))

    def called(self, sign, *given, **named) -> list[str]:
        """The names of the calls that sign, by a call of this package."""
        names, call = [], slh._calls.call

        def counting_call(name, *arguments):
            names.append(name)
            return call(name, *arguments)

        with unittest.mock.patch.object(slh._calls, "call", counting_call):
            sign(*given, **named)
        return [it for it in names if "_sign" in it]

    def test_signing_is_two_computations_unless_the_caller_says_once(self) -> None:
        for form, sign, given in self.forms():
            self.assertEqual(self.called(sign, *given), [form + "_twice"])
            self.assertEqual(self.called(sign, *given, once=True), [form])
        for once, count in (False, 2 * 55), (True, 55):
            with slh.Signer(2, once=once) as signer:
                self.assertEqual(self.called(signer.sign, self.secret, b"letter").count("slh_sign_job"), count)

    def test_the_deprecated_word_asks_for_two_computations(self) -> None:
        for once in (False, True):
            for form, sign, given in self.forms():
                with self.assertWarnsRegex(DeprecationWarning, "leave `twice` out") as caught:
                    names = self.called(sign, *given, once=once, twice=True)
                self.assertEqual((names, caught.filename), ([form + "_twice"], __file__))
            with self.assertWarns(DeprecationWarning) as caught, slh.Signer(2, once=once, twice=True) as signer:
                self.assertEqual(self.called(signer.sign, self.secret, b"letter").count("slh_sign_job"), 2 * 55)
            self.assertEqual(caught.filename, __file__)
        with warnings.catch_warnings():
            warnings.simplefilter("error")
            self.secret.sign(b"letter", once=True)

    def test_a_new_key_with_a_wrong_bit_is_erased_and_not_returned(self) -> None:
        """One bit of SK.seed, PK.seed or PK.root is flipped."""
        for place in (0, 32, 63):
            for make, given in (slh.SecretKey.generate, ()), (slh.SecretKey.keygen, (b"1" * 16, b"2" * 16, b"3" * 16)):
                patch, written = flipping(place, "slh_keygen")
                with patch:
                    self.assertRaisesRegex(slh.Fault, "the key that was made", make, FAST, *given)
                self.assertEqual([bytes(it.view()) for it in written], [bytes(64)])

    def faulty(self, sign, given: tuple, name: str, place: int) -> Disturbed:
        """Signs until the thread has come in time, which it may not do on a busy machine."""
        for _ in range(2000):
            with Disturbed(name, place) as disturbed:
                try:
                    sign(*given)
                except slh.Fault:
                    return disturbed
        self.fail("no flip was found")

    def test_errors_of_wrong_calls_are_those_without_the_options(self) -> None:
        for once, verify in itertools.product((False, True), repeat=2):
            named = {"once": once, "verify": verify}
            for number, call, given in (
                (2, self.secret.sign, (b"letter", bytes(256))),
                (9, self.secret.hash_sign, (7, b"letter")),
                (16, self.secret.hash_sign_digest, (FUNCTION, bytes(31))),
            ):
                with self.assertRaises(slh.Refusal) as caught:
                    call(*given, **named)
                self.assertEqual(caught.exception.number, number)
            erased = slh.SecretKey.generate(FAST)
            erased.erase()
            self.assertRaises(slh.Erased, erased.sign, b"letter", **named)


class Disturbed:
    """Flips a bit of the first of the two signatures in the scratch of a call, once that signature is there."""

    def __init__(self, name: str, place: int) -> None:
        self.name, self.place, self.ended = name, place, threading.Event()
        self.call = slh._calls.call
        self.patch = unittest.mock.patch.object(slh._calls, "call", self.disturbed)

    def disturbed(self, name, *arguments):
        if name != self.name:
            return self.call(name, *arguments)
        self.arguments, self.key = arguments, next(it for it in arguments if isinstance(it, slh._Memory))
        thread = threading.Thread(target=self.flip, args=(arguments[-2].view(),))
        thread.start()
        try:
            return self.call(name, *arguments)
        finally:
            self.ended.set()
            thread.join()

    def flip(self, scratch) -> None:
        while not self.ended.is_set():
            if any(scratch[SIGNATURE - 16 : SIGNATURE]):
                scratch[self.place] ^= 4
                return

    def __enter__(self) -> Disturbed:
        self.patch.start()
        return self

    def __exit__(self, *_) -> None:
        self.patch.stop()


if __name__ == "__main__":
    unittest.main()
