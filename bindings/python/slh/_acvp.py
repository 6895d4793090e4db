"""Answers a prompt of NIST's ACVP for SLH-DSA: the modes keyGen, sigGen and sigVer of the revision FIPS205.

A prompt is an object with `testGroups`, or an array of an object with `acvVersion` and that object. A response has the
form of its prompt. Other members are ignored, and a context that is left out is empty. The interface `internal` takes
M' as the message (FIPS 205, section 9), the interface `external` a message and a context.
"""

from __future__ import annotations

import json
import re
import typing

import slh
from slh import _calls

_NO_SUCH_FUNCTION, _UNKNOWN_SET, _NOT_JSON, _MISSING, _BAD = 9, 12, 21, 23, 24
_NAMES = {_NO_SUCH_FUNCTION: "NoSuchFunction", _UNKNOWN_SET: "UnknownSet", _NOT_JSON: "NotJson", _MISSING: "Missing",
          _BAD: "Bad"}
#: The pre-hash functions by their names in ACVP, which are those of the option --prehash.
FUNCTIONS = {f"SHA2-{it.name[9:].replace('_', '/')}": it for it in slh.Function}


class Stop(Exception):
    """A prompt is refused: the number of the refusal, and its name with the place in the prompt."""

    def __init__(self, number: int, place: str = "", name: str = "") -> None:
        super().__init__(number, f"{name or _NAMES[number]} {place}".rstrip())


class _Object:
    """An object of a prompt, with its place there."""

    def __init__(self, value: object, place: str) -> None:
        self.place = place
        if not isinstance(value, dict):
            raise Stop(_BAD, place)
        self._members = value

    def stop(self, number: int, name: str) -> Stop:
        """The refusal of a member, with its value if that is a word."""
        value = self._members.get(name)
        is_word = isinstance(value, str) and re.fullmatch("[A-Za-z0-9/_-]{1,40}", value)
        return Stop(number, f"{self.place} member {name}{f' {value}' if is_word else ''}".lstrip())

    def get(self, name: str, kind: type) -> typing.Any:
        """A member, which has to be of this type."""
        if name not in self._members:
            raise self.stop(_MISSING, name)
        if type(self._members[name]) is not kind:
            raise self.stop(_BAD, name)
        return self._members[name]

    def word(self, name: str, *known: str, refusal: int = _BAD) -> str:
        """A member that has to be one of these words."""
        found = str(self.get(name, str))
        if found not in known:
            raise self.stop(refusal, name)
        return found

    def data(self, name: str) -> bytes:
        """The bytes of a member of hexadecimal digits."""
        digits = self.get(name, str)
        if len(digits) % 2 or not re.fullmatch("[0-9A-Fa-f]*", digits):  # a group, repeated, takes 150 bytes a byte
            raise self.stop(_BAD, name)
        return bytes.fromhex(digits)

    def context(self) -> bytes:
        return self.data("context") if "context" in self._members else b""

    def parts(self, name: str, number: str) -> typing.Iterator[tuple[int, _Object]]:
        """The objects of an array, each with its number."""
        for at, value in enumerate(self.get(name, list), 1):
            part = _Object(value, f"{self.place} {name} {at}".lstrip())
            found = part.get(number, int)
            part.place = f"{self.place} {number} {found}".lstrip()
            yield found, part


_Answer = typing.Dict[str, typing.Union[str, bool]]


def _digits(data: bytes | bytearray) -> str:
    return bytes(data).hex().upper()


def _function(group: _Object, test: _Object) -> tuple[slh.Function, ...]:
    """The pre-hash function of a test. The pure form has none."""
    if group.word("preHash", "pure", "preHash") == "pure":
        return ()
    return (FUNCTIONS[test.word("hashAlg", *FUNCTIONS, refusal=_NO_SUCH_FUNCTION)],)


def _is_internal(group: _Object) -> bool:
    return group.word("signatureInterface", "internal", "external") == "internal"


def _key_gen(set: slh.Set, group: _Object, test: _Object) -> _Answer:
    seeds = [test.data(it) for it in ("skSeed", "skPrf", "pkSeed")]
    with slh.SecretKey.keygen(set, *seeds) as secret:
        return {"sk": _digits(secret.to_bytes()), "pk": _digits(secret.public().to_bytes())}


def _sig_gen(set: slh.Set, group: _Object, test: _Object) -> _Answer:
    is_deterministic = group.get("deterministic", bool)
    randomizer = None if is_deterministic else test.data("additionalRandomness")
    message = test.data("message")
    with slh.SecretKey(set, test.data("sk")) as secret:
        if _is_internal(group):
            return {"signature": _digits(_sign_internal(secret, message, randomizer))}
        function = _function(group, test)
        sign: typing.Any = secret.hash_sign if function else secret.sign
        how = {"randomizer": randomizer, "deterministic": is_deterministic}
        return {"signature": _digits(sign(*function, message, test.context(), **how))}


def _sign_internal(secret: slh.SecretKey, message: bytes, randomizer: bytes | None) -> bytes:
    """Signs M' (Algorithm 19). Without a randomizer the signature is deterministic."""
    opt_rand = slh._randomizer(secret.set, randomizer, randomizer is None)
    signature = _calls.Memory(secret.set.lengths.signature)
    with secret._taken() as taken:
        _calls.done("slh_sign_internal", secret.set, taken, message, opt_rand, signature)
    return signature.to_bytes()


def _sig_ver(set: slh.Set, group: _Object, test: _Object) -> _Answer:
    public = slh.PublicKey(set, test.data("pk"))
    message, signature = test.data("message"), test.data("signature")
    try:
        if _is_internal(group):
            _calls.done("slh_verify_internal", set, public.to_bytes(), message, signature)
        elif function := _function(group, test):
            public.hash_verify(*function, message=message, signature=signature, context=test.context())
        else:
            public.verify(message=message, signature=signature, context=test.context())
    except slh.Invalid:
        return {"testPassed": False}
    return {"testPassed": True}


_MODES = {"keyGen": _key_gen, "sigGen": _sig_gen, "sigVer": _sig_ver}


def _group_answer(mode: str, number: int, group: _Object) -> dict[str, object]:
    labels = {it.label: it for it in slh.Set}
    set = labels[group.word("parameterSet", *labels, refusal=_UNKNOWN_SET)]
    answers: list[dict[str, object]] = []
    for number_of_test, test in group.parts("tests", "tcId"):
        try:
            answers.append({"tcId": number_of_test, **_MODES[mode](set, group, test)})
        except slh.Refusal as refusal:
            raise Stop(refusal.number, test.place, refusal.name) from None
    return {"tgId": number, "tests": answers}


def _no_number(word: str) -> None:
    """Refuses NaN and Infinity, which are no JSON."""
    raise ValueError(word)


def _parsed(text: bytes) -> object:
    try:
        return json.loads(text.decode("utf-8"), parse_constant=_no_number)
    except (ValueError, RecursionError):
        raise Stop(_NOT_JSON) from None


def response(text: bytes) -> bytes:
    """The response to a prompt. Raises Stop, and Fault as `SecretKey.sign`."""
    value = _parsed(text)
    is_array = isinstance(value, list)
    head, body = value if isinstance(value, list) and len(value) == 2 else ({}, value)
    _Object(head, "1")
    prompt = _Object(body, "")
    prompt.word("algorithm", "SLH-DSA")
    prompt.word("revision", "FIPS205")
    mode, number = prompt.word("mode", *_MODES), prompt.get("vsId", int)
    groups = [_group_answer(mode, *it) for it in prompt.parts("testGroups", "tgId")]
    made = {"vsId": number, "algorithm": "SLH-DSA", "mode": mode, "revision": "FIPS205", "testGroups": groups}
    return json.dumps([head, made] if is_array else made, indent=2).encode("ascii") + b"\n"
