"""Tests of the installed package, over signatures and keys that other implementations made (tests/vectors/README.md).

python3 -m unittest discover -s bindings/python/tests
"""

from __future__ import annotations

import base64
import contextlib
import ctypes
import hashlib
import itertools
import json
import pathlib
import pickle
import re
import subprocess
import unittest
import unittest.mock

import slh

REPOSITORY = pathlib.Path(__file__).resolve().parents[3]
FAST = slh.Set.SLH_DSA_SHA2_128F


def vectors() -> list[dict]:
    """The tests of the six files, but for those of the internal form, which this package does not have."""
    tests = []
    for path in sorted((REPOSITORY / "tests/vectors").glob("slh-dsa-*.json")):
        tests += json.loads(path.read_text())
    return [it for it in tests if it.get("form") != "internal"]


def set_of(test: dict) -> slh.Set:
    return slh.Set[test["set"].replace("-", "_").upper()]


def function_of(test: dict) -> slh.Function:
    return slh.Function["SLH_" + test["form"].replace("-", "_").replace("/", "_")]


def bytes_of(test: dict, *names: str) -> list[bytes]:
    return [bytes.fromhex(test[name]) for name in names]


def digest_of(test: dict) -> bytes:
    name = test["form"].replace("SHA2-", "sha").replace("512/", "512_")
    return hashlib.new(name, bytes.fromhex(test["message"])).digest()


def is_valid(verify, *function, **named) -> bool:
    try:
        verify(*function, **named)
    except slh.Invalid:
        return False
    return True


class Vectors(unittest.TestCase):
    tests = vectors()

    def of_kind(self, kind: str) -> list[dict]:
        found = [it for it in self.tests if it["kind"] == kind]
        self.assertGreater(len(found), 12)
        return found

    def test_keygen(self) -> None:
        for test in self.of_kind("keygen"):
            with self.subTest(test["set"]):
                secret = slh.SecretKey.keygen(set_of(test), *bytes_of(test, "skSeed", "skPrf", "pkSeed"))
                self.assertEqual(secret.to_bytes().hex(), test["sk"])
                self.assertEqual(secret.public().to_bytes().hex(), test["pk"])
                secret.check()

    def test_sign(self) -> None:
        """All sign tests of the sets whose names end in f, and the first one of 128s: the others are slow."""
        tests = self.of_kind("sign")
        slow = [it for it in tests if it["set"] == "SLH-DSA-SHA2-128s" and not it["random"]][:1]
        chosen = [it for it in tests if it["set"].endswith("f")] + slow
        self.assertTrue({"pure", "SHA2-256", "SHA2-512/224"} <= {it["form"] for it in chosen})
        self.assertIn(510, [len(it["context"]) for it in chosen])
        for test in chosen:
            with self.subTest(set=test["set"], form=test["form"]):
                self.assertEqual([it.hex() for it in signatures(test)], [test["signature"]] * len(signatures(test)))

    def test_verify(self) -> None:
        tests = self.of_kind("verify")
        self.assertEqual({it["valid"] for it in tests}, {True, False})
        for number, test in enumerate(tests):
            with self.subTest(number=number, set=test["set"], form=test["form"]):
                public = slh.PublicKey(set_of(test), bytes.fromhex(test["pk"]))
                message, signature, context = bytes_of(test, "message", "signature", "context")
                named = {"signature": signature, "context": context}
                if test["form"] == "pure":
                    found = {is_valid(public.verify, message=message, **named)}
                else:
                    function = function_of(test)
                    found = {
                        is_valid(public.hash_verify, function, message=message, **named),
                        is_valid(public.hash_verify_digest, function, digest=digest_of(test), **named),
                    }
                self.assertEqual(found, {test["valid"]})


def signatures(test: dict) -> list[bytes]:
    """The signatures of each call that signs in the test's form."""
    secret = slh.SecretKey(set_of(test), bytes.fromhex(test["sk"]))
    message, context, random = bytes_of(test, "message", "context", "random")
    how = {"randomizer": random} if random else {"deterministic": True}
    once = test["set"].endswith("s")  # these sets take long
    with slh.Signer(workers=2, once=once) as signer:
        if test["form"] == "pure":
            return [secret.sign(message, context, once=once, **how), signer.sign(secret, message, context, **how)]
        function = function_of(test)
        return [
            secret.hash_sign(function, message, context, once=once, **how),
            secret.hash_sign_digest(function, digest_of(test), context, once=once, **how),
            signer.hash_sign(secret, function, message, context, **how),
        ]


#: Where secrets stand among the arguments of calls: keys, seeds and answers.
SECRETS = {
    "slh_keygen": (1, 2, 3, 4),
    "slh_public": (1,),
    "slh_check": (1,),
    "slh_sign": (1,),
    "slh_sign_twice": (1,),
    "slh_hash_sign": (2,),
    "slh_hash_sign_twice": (2,),
    "slh_hash_sign_digest": (2,),
    "slh_hash_sign_digest_twice": (2,),
    "slh_sign_start": (1,),
    "slh_hash_sign_start": (2,),
    "slh_sign_job": (3, 6),
    "slh_sign_join": (3, 5),
}


@contextlib.contextmanager
def watched(act=None):
    """Sees each call that this module makes of the library: its name, and the buffers of secrets that it is handed.

    After each call `act` is given its arguments.
    """
    seen, call = [], slh._calls.call

    def watching(name, *arguments):
        result = call(name, *arguments)
        if act:
            act(name, arguments)
        for at in SECRETS.get(name, ()):
            assert any(arguments[at].view()) or result, f"{name} is given zeros"
            seen.append((name, arguments[at]))
        return result

    with unittest.mock.patch.object(slh._calls, "call", watching):
        yield seen


def recording(erased: list[bytes]) -> tuple:
    """The defaults of the method that drops memory: what is in it before and after it is erased is noted."""
    erase, free, address, size = slh._Memory.__del__.__defaults__

    def noting(at, length) -> None:
        erased.append(ctypes.string_at(at, length.value))
        erase(at, length)
        erased.append(ctypes.string_at(at, length.value))

    return noting, free, address, size


def faulty(job: int, run: int, bit: int):
    """Flips a bit of the answer of a job in one of its runs."""
    runs = itertools.count()

    def act(name, arguments) -> None:
        if name == "slh_sign_job" and arguments[5] == job and next(runs) == run:
            arguments[6].view()[bit // 8] ^= 1 << bit % 8

    return act


class Calls(unittest.TestCase):
    @classmethod
    def setUpClass(cls) -> None:
        cls.secret = slh.SecretKey.generate(FAST)
        cls.public = cls.secret.public()

    def refused(self, number: int, name: str, call, *arguments, **named) -> None:
        with self.assertRaises(slh.Refusal) as caught:
            call(*arguments, **named)
        self.assertEqual((caught.exception.number, caught.exception.name), (number, name))
        self.assertRegex(str(caught.exception), f"^{number} {name}: [a-z]")

    def invalid(self, verify, *function, **named) -> None:
        self.assertRaises(slh.Invalid, verify, *function, **named)

    def test_generated_keys_differ(self) -> None:
        other = slh.SecretKey.generate(FAST)
        self.secret.check()
        self.assertNotEqual(self.secret, other)
        self.assertNotEqual(self.public, other.public())
        parts = [bytes(it.to_bytes()[at : at + 16]) for it in (self.secret, other) for at in (0, 16, 32)]
        self.assertEqual(len(set(parts)), 6)

    def test_randomizers_are_drawn(self) -> None:
        same = self.secret.sign(b"letter", deterministic=True)
        self.assertEqual(same, self.secret.sign(b"letter", deterministic=True))
        made = {self.secret.sign(b"letter"), self.secret.sign(b"letter"), same}
        self.assertEqual(len(made), 3)
        for signature in made:
            self.public.verify(message=b"letter", signature=signature)
        self.refused(17, "BadRandomizerLength", self.secret.sign, b"letter", randomizer=b"")
        self.refused(17, "BadRandomizerLength", self.secret.sign, b"letter", randomizer=bytes(15))
        with self.assertRaises(TypeError):
            self.secret.sign(b"letter", randomizer=bytes(16), deterministic=True)
        for other in ("no", 1, None):
            with self.assertRaisesRegex(TypeError, "True or False"):
                self.secret.sign(b"letter", deterministic=other)

    def test_contexts(self) -> None:
        longest, longer = bytes(255), bytes(256)
        signature = self.secret.sign(b"letter", longest)
        self.public.verify(message=b"letter", signature=signature, context=longest)
        for context in (b"", bytes(254), longer):
            self.invalid(self.public.verify, message=b"letter", signature=signature, context=context)
        digest = hashlib.sha256(b"letter").digest()
        function = slh.Function.SLH_SHA2_256
        with slh.Signer(workers=1) as signer:
            self.refused(2, "ContextTooLong", signer.sign, self.secret, b"letter", longer)
            self.refused(2, "ContextTooLong", signer.hash_sign, self.secret, function, b"letter", longer)
        self.refused(2, "ContextTooLong", self.secret.sign, b"letter", longer)
        self.refused(2, "ContextTooLong", self.secret.hash_sign, function, b"letter", longer)
        self.refused(2, "ContextTooLong", self.secret.hash_sign_digest, function, digest, longer)

    def test_damage_is_invalid(self) -> None:
        signature = self.secret.sign(b"letter")
        self.public.verify(message=b"letter", signature=signature)
        for at in (0, 16, len(signature) - 1):
            damaged = bytearray(signature)
            damaged[at] ^= 1
            self.invalid(self.public.verify, message=b"letter", signature=damaged)
        for other in (b"", signature[:-1], signature + b"\0"):
            self.invalid(self.public.verify, message=b"letter", signature=other)
        self.invalid(self.public.verify, message=b"Letter", signature=signature)
        self.invalid(self.public.hash_verify, slh.Function.SLH_SHA2_256, message=b"letter", signature=signature)
        wrong = bytearray(self.secret.to_bytes())
        wrong[-1] ^= 1
        self.assertRaises(slh.Invalid, slh.SecretKey(FAST, wrong).check)

    def test_refusals(self) -> None:
        short, digest = bytes(15), bytes(31)
        self.refused(8, "NoSuchSet", slh.SecretKey.generate, 7)
        self.refused(8, "NoSuchSet", slh.PublicKey, 0, bytes(32))
        self.refused(3, "BadLength", slh.SecretKey, FAST, bytes(63))
        self.refused(3, "BadLength", slh.PublicKey, FAST, bytes(33))
        self.refused(10, "BadSeedLength", slh.SecretKey.keygen, FAST, bytes(16), bytes(16), short)
        self.refused(9, "NoSuchFunction", self.secret.hash_sign, 7, b"letter")
        self.refused(9, "NoSuchFunction", self.public.hash_verify, 0, message=b"letter", signature=b"")
        self.refused(16, "BadDigestLength", self.secret.hash_sign_digest, 2, digest)
        self.refused(16, "BadDigestLength", self.public.hash_verify_digest, 2, digest=digest, signature=b"")
        self.assertRaises(OverflowError, self.secret.hash_sign, (1 << 32) + 2, b"letter")

    def test_arguments_of_another_kind_are_told_by_the_wanted_one(self) -> None:
        function, digest, data = slh.Function.SLH_SHA2_256, bytes(32), self.public.to_bytes()
        wanted = "an slh.Set or its name is needed, not "
        for call, given in (
            (slh.SecretKey.generate, (2.0,)),
            (slh.SecretKey.generate, (True,)),
            (slh.SecretKey.keygen, (data, data, data, data)),
            (slh.SecretKey, (self.secret.to_bytes(), FAST)),
            (slh.PublicKey, (data, FAST)),
        ):
            self.assertRaisesRegex(TypeError, wanted, call, *given)
        wanted = "an slh.Function is needed, not "
        with slh.Signer(workers=1) as signer:
            for call, given, named in (
                (self.secret.hash_sign, ("SHA2-256", b"letter"), {}),
                (self.secret.hash_sign, (b"letter", function), {}),
                (self.secret.hash_sign, (True, b"letter"), {}),
                (self.secret.hash_sign_digest, (digest, function), {}),
                (signer.hash_sign, (self.secret, b"letter", function), {}),
                (self.public.hash_verify, (b"letter",), {"message": b"letter", "signature": b""}),
                (self.public.hash_verify_digest, (digest,), {"digest": digest, "signature": b""}),
            ):
                self.assertRaisesRegex(TypeError, wanted, call, *given, **named)
            for call, given in ((signer.sign, (data, b"letter")), (signer.hash_sign, (data, function, b"letter"))):
                self.assertRaisesRegex(TypeError, "an slh.SecretKey is needed, not bytes", call, *given)
            for wrong in ("letter", 5, None, [1], self.secret):
                self.needs_bytes(signer, wrong)
        self.assertRaisesRegex(TypeError, "bytes are needed, not str", self.secret.sign, b"letter", randomizer="16")

    def needs_bytes(self, signer: slh.Signer, wrong) -> None:
        function, digest = slh.Function.SLH_SHA2_256, bytes(32)
        for call, given, named in (
            (slh.SecretKey.keygen, (FAST, wrong, digest, digest), {}),
            (slh.SecretKey, (FAST, wrong), {}),
            (slh.PublicKey, (FAST, wrong), {}),
            (slh.loads, (wrong,), {}),
            (self.secret.sign, (wrong,), {}),
            (self.secret.sign, (b"letter", wrong), {}),
            (self.secret.hash_sign, (function, wrong), {}),
            (self.secret.hash_sign_digest, (function, wrong), {}),
            (signer.sign, (self.secret, wrong), {}),
            (signer.hash_sign, (self.secret, function, b"letter", wrong), {}),
            (self.public.verify, (), {"message": wrong, "signature": b""}),
            (self.public.verify, (), {"message": b"letter", "signature": wrong}),
            (self.public.hash_verify, (function,), {"message": b"", "signature": b"", "context": wrong}),
            (self.public.hash_verify_digest, (function,), {"digest": digest, "signature": wrong}),
        ):
            self.assertRaisesRegex(TypeError, "bytes are needed, not ", call, *given, **named)

    def test_verifying_takes_message_and_signature_by_name_alone(self) -> None:
        signature, function, digest = self.secret.sign(b"letter"), slh.Function.SLH_SHA2_256, bytes(32)
        for call, given in (
            (self.public.verify, (b"letter", signature)),
            (self.public.hash_verify, (function, b"letter", signature)),
            (self.public.hash_verify_digest, (function, digest, signature)),
        ):
            self.assertRaisesRegex(TypeError, "positional argument", call, *given)

    def test_switches_are_true_or_false(self) -> None:
        function, digest = slh.Function.SLH_SHA2_256, bytes(32)
        for name, wrong in itertools.product(("deterministic", "once", "twice", "verify"), (1, 0, None, "yes", b"")):
            for call, given in (
                (self.secret.sign, (b"letter",)),
                (self.secret.hash_sign, (function, b"letter")),
                (self.secret.hash_sign_digest, (function, digest)),
            ):
                self.assertRaisesRegex(TypeError, f"{name} is True or False", call, *given, **{name: wrong})
        for name, wrong in itertools.product(("once", "twice", "verify"), (1, 0, None, "yes")):
            self.assertRaisesRegex(TypeError, f"{name} is True or False", slh.Signer, 1, **{name: wrong})
        for wrong in (True, 2.0, "2", None):
            self.assertRaisesRegex(TypeError, "workers are an int", slh.Signer, wrong)

    def test_refusals_of_lengths_have_both_lengths(self) -> None:
        function, short = slh.Function.SLH_SHA2_384, bytes(31)
        for expected, given, call, arguments, named in (
            (64, 63, slh.SecretKey, (FAST, bytes(63)), {}),
            (32, 64, slh.PublicKey, (FAST, bytes(64)), {}),
            (16, 31, slh.SecretKey.keygen, (FAST, bytes(16), short, bytes(16)), {}),
            (16, 31, self.secret.sign, (b"letter",), {"randomizer": short}),
            (255, 256, self.secret.sign, (b"letter", bytes(256)), {}),
            (48, 31, self.secret.hash_sign_digest, (function, short), {}),
            (48, 31, self.public.hash_verify_digest, (function,), {"digest": short, "signature": b""}),
        ):
            with self.assertRaises(slh.Refusal) as caught:
                call(*arguments, **named)
            self.assertEqual((caught.exception.expected, caught.exception.given), (expected, given))
            self.assertRegex(str(caught.exception), rf" {expected} bytes.*, and {given} were given$")
        for function in slh.Function:
            self.assertEqual(function.digest_length, hashlib.new("sha" + function.name[9:]).digest_size)

    def test_errors_pass_between_processes(self) -> None:
        made = [slh.Erased(), slh.Fault(), slh.Invalid("invalid")]
        for call, given in ((slh.SecretKey, (FAST, bytes(63))), (slh.SecretKey.generate, (7,))):
            with self.assertRaises(slh.Refusal) as caught:
                call(*given)
            made.append(caught.exception)
        for error in made:
            again = pickle.loads(pickle.dumps(error))
            self.assertEqual((type(again), str(again), vars(again)), (type(error), str(error), vars(error)))

    def test_sets_have_names(self) -> None:
        for it in slh.Set:
            self.assertEqual(it.label.upper().replace("-", "_"), it.name)
            self.assertIs(slh.Set(it.label), it)
        named = slh.SecretKey("SLH-DSA-SHA2-128f", self.secret.to_bytes())
        self.assertEqual(named, self.secret)
        self.assertIs(slh.PublicKey("SLH-DSA-SHA2-256s", bytes(64)).set, slh.Set.SLH_DSA_SHA2_256S)
        for wrong in ("", "128f", "SLH-DSA-SHA2-128F", "SLH_DSA_SHA2_128F"):
            self.refused(8, "NoSuchSet", slh.SecretKey.generate, wrong)
            self.refused(8, "NoSuchSet", slh.PublicKey, wrong, bytes(32))

    def test_any_number_of_workers_makes_the_same_signature(self) -> None:
        alone = self.secret.sign(b"letter", deterministic=True)
        for workers in (1, 3, 1 << 40):
            with slh.Signer(workers=workers) as signer:
                self.assertEqual(signer.sign(self.secret, b"letter", deterministic=True), alone)
        self.assertRaisesRegex(ValueError, "workers are at least 1, not 0", slh.Signer, 0)

    def test_a_wrong_key_signs_nothing_valid(self) -> None:
        wrong = bytearray(self.secret.to_bytes())
        wrong[-1] ^= 1
        secret = slh.SecretKey(FAST, wrong)
        for workers in (1, 2):
            with slh.Signer(workers=workers) as signer:
                self.refused(25, "AnswersDisagree", signer.sign, secret, b"letter")
        self.invalid(secret.public().verify, message=b"letter", signature=secret.sign(b"letter"))

    def test_an_erased_key_does_nothing(self) -> None:
        data = bytearray(self.secret.to_bytes())
        secret, other, third = (slh.SecretKey(FAST, data) for _ in range(3))
        self.assertEqual(secret, self.secret)
        secret.erase()
        secret.erase()
        with other as entered:
            self.assertIs(entered, other)
            other.check()
        with self.assertRaises(ZeroDivisionError), third:
            print(1 / 0)
        self.assertEqual(data, self.secret.to_bytes())
        for it in secret, other, third:
            self.does_nothing(it)

    def does_nothing(self, erased: slh.SecretKey) -> None:
        function = slh.Function.SLH_SHA2_256
        with slh.Signer(workers=2) as signer:
            for call, given in (
                (erased.to_bytes, ()),
                (erased.public, ()),
                (erased.check, ()),
                (erased.sign, (b"letter",)),
                (erased.hash_sign, (function, b"letter")),
                (erased.hash_sign_digest, (function, bytes(32))),
                (signer.sign, (erased, b"letter")),
                (signer.hash_sign, (erased, function, b"letter")),
                (erased.__enter__, ()),
                (erased.dumps, ()),
                (erased.dump, ("/nowhere/at/all",)),
            ):
                with self.assertRaises(slh.Erased) as caught:
                    call(*given)
                self.assertNotIsInstance(caught.exception, (slh.Refusal, slh.Invalid, slh.Fault))
        self.assertFalse(erased == erased or erased == self.secret)
        self.assertEqual(repr(erased), "<slh.SecretKey SLH-DSA-SHA2-128f>")

    def test_a_key_that_is_erased_before_a_call_has_copied_it_signs_nothing(self) -> None:
        secret = slh.SecretKey(FAST, self.secret.to_bytes())
        copy_of = slh._Memory.copy_of

        def late(given):
            secret.erase()
            return copy_of(given)

        with unittest.mock.patch.object(slh._Memory, "copy_of", late):
            self.assertRaises(slh.Erased, secret.sign, b"letter")

    def test_memory_of_secrets_is_cleared(self) -> None:
        function, digest = slh.Function.SLH_SHA2_256, bytes(32)
        with watched() as seen:
            secret = slh.SecretKey.generate(FAST)
            slh.SecretKey.keygen(FAST, b"1" * 16, bytearray(b"2" * 16), memoryview(b"3" * 16))
            self.refused(10, "BadSeedLength", slh.SecretKey.keygen, FAST, b"1" * 16, b"2" * 16, b"3" * 15)
            secret.check()
            secret.public()
            for once in (False, True):
                with slh.Signer(workers=2, once=once) as signer:
                    signer.sign(secret, b"letter")
                    signer.hash_sign(secret, function, b"letter")
                secret.sign(b"letter", once=once)
                secret.hash_sign(function, b"letter", once=once)
                secret.hash_sign_digest(function, digest, once=once)
        self.assertEqual({name for name, _ in seen}, SECRETS.keys())
        kept = [name for name, memory in seen if any(memory.view()) and memory is not secret._memory]
        self.assertEqual(kept, ["slh_keygen"])
        self.assertTrue(any(secret._memory.view()))
        secret.erase()
        self.assertEqual(secret._memory.to_bytes(), bytes(64))

    def test_keys_that_are_dropped_are_erased(self) -> None:
        erased = []
        with unittest.mock.patch.object(slh._Memory.__del__, "__defaults__", recording(erased)):
            secret = slh.SecretKey(FAST, self.secret.to_bytes())
            erased.clear()
            del secret
        self.assertEqual(erased, [self.secret.to_bytes(), bytes(64)])

    def test_a_fault_in_one_run_of_a_job_is_found(self) -> None:
        """One bit of one answer is flipped after the job: in its node, its tag, what follows, and its last byte."""
        for job, run in itertools.product((0, 21, 22, 54), (0, 1)):
            for bit in (0, 16 * 8, 32 * 8 + 3, -1):
                for workers in (1, 3):
                    with watched(faulty(job, run, bit)) as seen, slh.Signer(workers) as signer:
                        with self.assertRaises(slh.Fault) as caught:
                            signer.sign(self.secret, b"letter")
                    self.assertNotIsInstance(caught.exception, (slh.Refusal, slh.Invalid, slh.Erased))
                    names = [name for name, _ in seen]
                    self.assertEqual(names.count("slh_sign_job"), 2 * 2 * 55)
                    self.assertNotIn("slh_sign_join", names)
                    self.assertFalse(any(any(memory.view()) for _, memory in seen))

    def test_without_a_fault_two_computations_sign_the_same(self) -> None:
        alone = self.secret.sign(b"letter", deterministic=True, once=True)
        for workers in (1, 3):
            with slh.Signer(workers) as signer:
                self.assertEqual(signer.sign(self.secret, b"letter", deterministic=True), alone)

    def test_keys_are_printed_without_their_bytes(self) -> None:
        data = self.public.to_bytes()
        fingerprint = subprocess.run(["sha256sum"], input=data, stdout=subprocess.PIPE, check=True).stdout.split()[0]
        wanted = "SHA256:" + base64.b64encode(bytes.fromhex(fingerprint.decode())).decode().rstrip("=")
        self.assertEqual(self.public.fingerprint, wanted)
        for text in (repr(self.secret), str(self.secret), f"{self.secret}"):
            self.assertEqual(text, "<slh.SecretKey SLH-DSA-SHA2-128f>")
        for text in (repr(self.public), str(self.public), f"{self.public}"):
            self.assertEqual(text, f"<slh.PublicKey SLH-DSA-SHA2-128f {wanted}>")

    def test_version_and_lengths(self) -> None:
        first, second, third = map(int, (REPOSITORY / "VERSION").read_text().split("."))
        self.assertEqual(slh.version(), 1000000 * first + 1000 * second + third)
        self.assertEqual(slh.__version__, f"{first}.{second}.{third}")
        self.assertEqual(slh.Set.SLH_DSA_SHA2_256F.lengths, (64, 128, 49856, 32))

    def test_numbers_are_those_of_the_header(self) -> None:
        text = (REPOSITORY / "c/include" / "slh_verify.h").read_text()
        for members, name in ((slh.Set, "slh_set"), (slh.Function, "slh_function")):
            listed = re.search(rf"enum {name} {{(.*?)}};", text, re.DOTALL)[1]
            numbers = {it: int(number) for it, number in re.findall(r"(\w+) = (\d+)", listed)}
            self.assertEqual(numbers, {it: member.value for it, member in members.__members__.items()})

    def test_the_shared_object_is_the_one_of_the_package(self) -> None:
        self.assertEqual(pathlib.Path(slh._library._name), pathlib.Path(slh.__file__).parent / "libslh.so.1")


if __name__ == "__main__":
    unittest.main()
