"""SLH-DSA (FIPS 205) with SHA-2: keys, signing and verifying, over the library libslh.

    secret = slh.SecretKey.generate("SLH-DSA-SHA2-128f")
    public = secret.public()
    secret.check()
    signature = secret.sign(message)
    public.verify(message=message, signature=signature)

Messages, contexts, keys and signatures are bytes. The names are those of libslh: docs/LIBRARY.md of its repository says
for each call which value it computes, and for which calls that is proved.

`verify` and `check` return None, and raise Invalid if the signature or the key is not valid. A wrong call raises
Refusal, a ValueError with the `number` and `name` of docs/FORMATS.md. An argument of another type is a TypeError.
Neither Invalid nor Refusal is a kind of the other.

Each signature has a fresh randomizer from the system, unless one is given or `deterministic=True` asks for none. So two
signatures of one message differ, and both are valid. Each is computed two times and compared, unless `once=True` asks
for one computation: a difference is a Fault, and nothing is signed. Calls release the interpreter lock while they compute, so that
threads compute at the same time.

`erase` clears a secret key, and so does the end of `with slh.SecretKey.generate(set) as secret:`, or of the object. A
secret key is printed as its set, and refuses to be copied and pickled. Only `to_bytes`, `dumps` and `dump` give its
bytes out. Each call clears the copies of secrets that this module makes for it. The caller clears the bytes that it
hands in, and those of `to_bytes` and `dumps`, which are bytearrays. Nothing can clear a Python `bytes`.
"""

from __future__ import annotations

import base64
import concurrent.futures
import contextlib
import ctypes
import enum
import hashlib
import hmac
import os
import types
import typing
import warnings
import weakref

from slh import _calls, _key_files
from slh._calls import Bytes, Erased, Fault, Invalid, Refusal, SelfTestFailed
from slh._calls import Length as _Length
from slh._calls import Memory as _Memory
from slh._calls import library as _library

# Checkers of types read a literal list alone.
__all__ = [
    "Erased",
    "Fault",
    "Function",
    "Invalid",
    "Lengths",
    "PublicKey",
    "Refusal",
    "SecretKey",
    "SelfTestFailed",
    "Set",
    "Signed",
    "Signer",
    "load",
    "loads",
    "self_test",
    "verify_many",
    "version",
]

for _it in (Erased, Fault, Invalid, Refusal, SelfTestFailed):
    _it.__module__ = __name__

_CONTEXT_TOO_LONG = 2
_BAD_LENGTH = 3
_NO_SUCH_SET = 8
_BAD_SEED_LENGTH = 10
_BAD_DIGEST_LENGTH = 16
_BAD_RANDOMIZER_LENGTH = 17
_MOST_CONTEXT = 255

#: A parameter set: one of Set, its number, or its name.
AnySet = typing.Union[int, str]
Path = typing.Union[str, "os.PathLike[str]"]


class Set(enum.IntEnum):
    """The parameter sets (FIPS 205, section 11, Table 2), by libslh's numbers. `Set("SLH-DSA-SHA2-128f")` is one."""

    SLH_DSA_SHA2_128S = 1
    SLH_DSA_SHA2_128F = 2
    SLH_DSA_SHA2_192S = 3
    SLH_DSA_SHA2_192F = 4
    SLH_DSA_SHA2_256S = 5
    SLH_DSA_SHA2_256F = 6

    @property
    def label(self) -> str:
        """The name in FIPS 205, as "SLH-DSA-SHA2-128f"."""
        return self.name[:-1].replace("_", "-") + self.name[-1].lower()

    @property
    def lengths(self) -> Lengths:
        """The lengths of this set's keys and signatures in bytes, and n."""
        return _lengths(self)

    if typing.TYPE_CHECKING:

        def __new__(cls, value: int | str) -> Set:
            """What `_missing_` makes of a name; an IntEnum takes numbers alone."""

    @classmethod
    def _missing_(cls, value: object) -> Set | None:
        return next((it for it in cls if it.label == value), None)


def self_test(set: AnySet) -> None:
    """Tests a set on this machine before it is used, as when a service starts: raises SelfTestFailed if that fails.

    A known key is made, and a known message is signed. PK.root and the SHA-256 of the signature have to be those that
    OpenSSL gave. The signature has to be valid, and invalid for another message. The test takes as long as to make a
    key, to sign once and to verify two times. It shows nothing about other sets, keys and messages, the pre-hash forms,
    random bytes and later faults, and does not replace a hash of the library's file. Raises Refusal: NoSuchSet.
    """
    checked = _checked_set(set)
    _calls.done("slh_self_test", checked, _Memory(_lengths(checked).signature))


class Function(enum.IntEnum):
    """The pre-hash functions (FIPS 205, section 10.2.2), by libslh's numbers."""

    SLH_SHA2_224 = 1
    SLH_SHA2_256 = 2
    SLH_SHA2_384 = 3
    SLH_SHA2_512 = 4
    SLH_SHA2_512_224 = 5
    SLH_SHA2_512_256 = 6

    @property
    def digest_length(self) -> int:
        """The length of a digest in bytes."""
        return int(self.name.rpartition("_")[2]) // 8


class Lengths(typing.NamedTuple):
    """Lengths in bytes. n is that of a seed and of a randomizer."""

    public_key: int
    secret_key: int
    signature: int
    n: int


def version() -> int:
    """The version of libslh: 1,000,000 times its first number, 1,000 times its second, and its third."""
    return _calls.call("slh_version")


__version__ = f"{version() // 1000000}.{version() // 1000 % 1000}.{version() % 1000}"


@_calls.discreet
def _checked_set(given: AnySet) -> Set:
    """A parameter set by its number or its name. An error does not show what was given: it may be a key."""
    if isinstance(given, str):
        found = next((it for it in Set if it.label == given), None)
    else:
        number = _calls.checked_number(given, "an slh.Set or its name")
        found = next((it for it in Set if it == number), None)
    if found is None:
        raise Refusal(_NO_SUCH_SET, "no parameter set has this number or name")
    return found


def _checked_function(given: int) -> int:
    return _calls.checked_number(given, "an slh.Function")


def _lengths(set: Set) -> Lengths:
    found = [ctypes.c_size_t() for _ in range(4)]
    _calls.done("slh_lengths", set, *found)
    return Lengths(*(it.value for it in found))


def _randomizer(set: Set, given: Bytes | None, deterministic: bool) -> bytes:
    """The randomizer of a signature. None at all, the deterministic variant, is had by name alone."""
    if _calls.checked_bool("deterministic", deterministic):
        if given is not None:
            raise TypeError("a deterministic signature has no randomizer")
        return b""
    n = _lengths(set).n
    if given is None:
        return os.urandom(n)
    held = _calls.checked_bytes(given)
    if len(held) != n:
        raise Refusal(_BAD_RANDOMIZER_LENGTH, _Length(f"a randomizer of {set.label}", n, len(held)))
    return held


def _runs(once: bool, twice: bool) -> int:
    """How many times a signature is computed. The deprecated word prevails."""
    is_once = _calls.checked_bool("once", once)
    if not _calls.checked_bool("twice", twice):
        return 1 if is_once else 2
    warnings.warn("signing is two computations unless `once` is set: leave `twice` out", DeprecationWarning, 3)
    return 2


def _key_length(set: int | str, kind: str) -> int:
    """The length of a key of this kind."""
    lengths = _lengths(Set(set))
    return lengths.public_key if kind == "public" else lengths.secret_key


def _key_memory(set: Set, kind: str, given: Bytes) -> _Memory:
    """A copy of the bytes of a key of this kind."""
    length = _key_length(set, kind)
    whole = memoryview(_calls.checked_type(given)).nbytes
    if whole != length:
        raise Refusal(_BAD_LENGTH, _Length(f"a {kind} key of {set.label}", length, whole))
    return _Memory.copy_of(given)


def _text_lengths(function: tuple[int, ...], text: bytes, context: bytes) -> dict[int, _Length]:
    """The lengths of a text and a context, for refusals."""
    found = {_CONTEXT_TOO_LONG: _Length("a context", _MOST_CONTEXT, len(context), "bytes at most")}
    for it in Function:
        if function == (it,):
            found[_BAD_DIGEST_LENGTH] = _Length(f"a digest by {it.name}", it.digest_length, len(text))
    return found


class _Key(_calls.Sealed):
    """A parameter set, and the bytes of a key outside Python's objects."""

    __slots__ = ("_set", "_memory")
    _set: Set
    _memory: _Memory
    _kind: typing.ClassVar[str]

    @property
    def set(self) -> Set:
        """The parameter set."""
        return self._set

    @classmethod
    def _of(cls: type[_AnyKey], set: Set, memory: _Memory) -> _AnyKey:
        made = cls.__new__(cls)
        made._set, made._memory = set, memory
        return made

    @classmethod
    @_calls.discreet
    def load(cls: type[_AnyKey], path: Path) -> _AnyKey:
        """Reads a key file of the program `slh` (docs/FORMATS.md), of either version.

        Raises OSError; Refusal: NotAKeyFile, also for a key of the other kind, UnknownSet, BadHex, BadKeyLength,
        TrailingBytes.
        """
        return typing.cast(_AnyKey, _load((cls,), path))

    @classmethod
    @_calls.discreet
    def loads(cls: type[_AnyKey], data: Bytes) -> _AnyKey:
        """Reads the bytes of a key file, which stay the caller's. Raises Refusal: as `load`."""
        return typing.cast(_AnyKey, _loads((cls,), data))


_AnyKey = typing.TypeVar("_AnyKey", bound=_Key)


class PublicKey(_Key):
    """A public key, PK.seed and PK.root: 32, 48 or 64 bytes. It is printed as its set and its fingerprint."""

    __slots__ = ()
    _kind = "public"

    @_calls.discreet
    def __init__(self, set: AnySet, data: Bytes) -> None:
        """Takes the bytes of a public key. Raises Refusal: NoSuchSet; BadLength unless there are 2n of them."""
        self._set = _checked_set(set)
        self._memory = _key_memory(self._set, self._kind, data)

    def to_bytes(self) -> bytes:
        """The 2n bytes of the key."""
        return self._memory.to_bytes()

    def dumps(self) -> bytes:
        """The bytes of a key file of version 2."""
        return _key_files.text_of(self._kind, self._set, self._memory).to_bytes()

    @_calls.discreet
    def dump(self, path: Path) -> None:
        """Writes a key file of version 2.

        Raises OSError, a FileExistsError if there is a file: it is not overwritten. After another error there is none.
        """
        _key_files.write(path, _Memory.copy_of(self.dumps()), is_secret=False)

    @property
    def fingerprint(self) -> str:
        """The SHA-256 of the key's bytes, as `SHA256:` and base64 without padding."""
        digest = hashlib.sha256(self._memory.view()).digest()
        return "SHA256:" + base64.b64encode(digest).decode("ascii").rstrip("=")

    def verify(self, *, message: Bytes, signature: Bytes, context: Bytes = b"") -> None:
        """Verifies a signature of the pure form (Algorithm 24). Raises Invalid unless it is valid.

        Bytes of another length than the set's signatures and a context of over 255 bytes are invalid.
        """
        self._verify("slh_verify", (), message, context, signature)

    def hash_verify(self, function: int, *, message: Bytes, signature: Bytes, context: Bytes = b"") -> None:
        """Verifies a signature of the pre-hash form, with the message (Algorithm 25).

        Raises Invalid unless it is valid. Raises Refusal: NoSuchFunction.
        """
        self._verify("slh_hash_verify", (_checked_function(function),), message, context, signature)

    def hash_verify_digest(self, function: int, *, digest: Bytes, signature: Bytes, context: Bytes = b"") -> None:
        """Verifies a signature of the pre-hash form, with the message's digest. Raises Invalid unless it is valid.

        Raises Refusal: NoSuchFunction; BadDigestLength if the digest has another length than the function's.
        """
        self._verify("slh_hash_verify_digest", (_checked_function(function),), digest, context, signature)

    def _verify(self, name: str, function: tuple[int, ...], text: Bytes, context: Bytes, signature: Bytes) -> None:
        given = [_calls.checked_bytes(it) for it in (text, context, signature)]
        lengths = _text_lengths(function, *given[:2])
        _calls.done(name, self._set, *function, self._memory, *given, lengths=lengths)

    def _verify_made(self, name: str, function: tuple[int, ...], given: list[bytes], signature: _Memory) -> None:
        """Raises Fault unless a signature that was just made, of a text and a context, is valid."""
        result = _calls.call(name, self._set, *function, self._memory, *given, signature)
        if result == _calls.INVALID:
            raise Fault("the signature that was made is not valid, and was erased; has the secret key been checked?")
        if result != _calls.DONE:
            raise Refusal(result)

    def __reduce__(self) -> tuple[type[PublicKey], tuple[Set, bytes]]:
        return type(self), (self._set, self.to_bytes())

    def __reduce_ex__(self, protocol: typing.SupportsIndex) -> tuple[type[PublicKey], tuple[Set, bytes]]:
        return self.__reduce__()

    def __copy__(self) -> PublicKey:
        return self

    def __deepcopy__(self, memo: object) -> PublicKey:
        return self

    def __eq__(self, other: object) -> bool:
        if not isinstance(other, PublicKey):
            return NotImplemented
        return self._set == other._set and self.to_bytes() == other.to_bytes()

    def __hash__(self) -> int:
        return hash((self._set, self.to_bytes()))

    def __repr__(self) -> str:
        return f"<slh.PublicKey {self._set.label} {self.fingerprint}>"


class Signed(typing.NamedTuple):
    """A signature with its key, message and context: an item of `verify_many`."""

    public: PublicKey
    message: Bytes
    signature: Bytes
    context: Bytes = b""


def verify_many(items: typing.Iterable[Signed]) -> list[bool]:
    """Verifies signatures of the pure form (Algorithm 24), in less time than a call of `verify` for each takes.

    Returns for each item, in order, whether its signature is valid. The keys may be of several sets: the library is
    called once for each set. Raises nothing for an item that is not valid.
    """
    given = [_checked_signed(it) for it in items]
    places: dict[Set, list[int]] = {}
    for place, it in enumerate(given):
        places.setdefault(it.public.set, []).append(place)
    valid = [False] * len(given)
    for set, of in places.items():
        for place, verdict in zip(of, _verdicts(set, [given[place] for place in of])):
            valid[place] = verdict == _calls.DONE
    return valid


def _checked_signed(given: Signed) -> Signed:
    public, *texts = given
    if not isinstance(public, PublicKey):
        raise TypeError(f"an slh.PublicKey is needed, not {type(public).__name__}")
    message, signature, context = (_calls.checked_bytes(it) for it in texts)
    return Signed(public, message, signature, context)


def _verdicts(set: Set, items: typing.Sequence[Signed]) -> list[int]:
    """The verdicts on items whose keys are of this set, and whose texts are `bytes`, which are not copied."""
    given = (_calls.Item * len(items))()
    for to, (public, message, signature, context) in zip(given, items):
        to.pk, to.pk_len = public._memory.words()[0], public._memory.length
        to.msg, to.msg_len = message, len(message)
        to.ctx, to.ctx_len = context, len(context)
        to.sig, to.sig_len = signature, len(signature)
    verdicts = (ctypes.c_uint32 * len(items))(*[_calls.INVALID] * len(items))
    result = _calls.call("slh_verify_many", set, given, verdicts)
    if result not in (_calls.DONE, _calls.INVALID):
        raise Refusal(result)
    return list(verdicts)


class SecretKey(_Key):
    """A secret key, SK.seed, SK.prf, PK.seed and PK.root: 64, 96 or 128 bytes. It is printed as its set.

    After `erase`, and after the end of `with secret:`, each other call raises Erased.
    """

    __slots__ = ("_is_erased",)
    _kind = "secret"

    @_calls.discreet
    def __init__(self, set: AnySet, data: Bytes) -> None:
        """Takes the bytes of a secret key. Call `check` once on one that comes from elsewhere.

        The bytes are copied, and stay the caller's. Raises Refusal: NoSuchSet; BadLength unless there are 4n bytes.
        """
        self._set, self._is_erased = _checked_set(set), False
        self._memory = _key_memory(self._set, self._kind, data)

    @classmethod
    def _of(cls, set: Set, memory: _Memory) -> SecretKey:
        made = super()._of(set, memory)
        made._is_erased = False
        return made

    @classmethod
    @_calls.discreet
    def generate(cls, set: AnySet) -> SecretKey:
        """Makes a key from random bytes of the system (Algorithm 21), and checks it.

        Raises Fault if `check` finds another root. Raises Refusal: NoSuchSet.
        """
        checked = _checked_set(set)
        n = _lengths(checked).n
        seeds = _calls.random_memory(n), _calls.random_memory(n), _calls.random_memory(n)
        return cls._of_seeds(checked, seeds)

    @classmethod
    @_calls.discreet
    def keygen(cls, set: AnySet, sk_seed: Bytes, sk_prf: Bytes, pk_seed: Bytes) -> SecretKey:
        """Makes the key of three seeds of n bytes each (Algorithm 18), and checks it. They are as secret as the key.

        They are copied, and stay the caller's. Raises Fault; Refusal: NoSuchSet, BadSeedLength.
        """
        checked = _checked_set(set)
        given = [_calls.checked_type(it) for it in (sk_seed, sk_prf, pk_seed)]
        return cls._of_seeds(checked, [_Memory.copy_of(it) for it in given])

    @classmethod
    def _of_seeds(cls, set: Set, seeds: typing.Sequence[_Memory]) -> SecretKey:
        lengths = _lengths(set)
        made = _Memory(lengths.secret_key)
        wrong = [it.length for it in seeds if it.length != lengths.n]
        why = {_BAD_SEED_LENGTH: _Length(f"a seed of {set.label}", lengths.n, it) for it in wrong[:1]}
        with _calls.cleared(*seeds):
            _calls.done("slh_keygen", set, *seeds, made, lengths=why)
        key = cls._of(set, made)
        try:
            key.check()
        except Invalid:
            key.erase()
            raise Fault("the root of the key that was made is not the one that its seeds give") from None
        return key

    def erase(self) -> None:
        """Overwrites the bytes of this key with zeros.

        A call that runs in another thread ends under its own copy of them, which it then clears.
        """
        self._is_erased = True
        self._memory.erase()

    def __enter__(self) -> SecretKey:
        if self._is_erased:
            raise Erased
        return self

    def __exit__(
        self,
        kind: type[BaseException] | None,
        error: BaseException | None,
        trace: types.TracebackType | None,
    ) -> None:
        self.erase()

    @contextlib.contextmanager
    def _taken(self) -> typing.Iterator[_Memory]:
        """A copy for one call. `erase` marks the key first: a copy that is made before that mark has all bytes."""
        copy = _Memory.copy_of(self._memory)
        with _calls.cleared(copy):
            if self._is_erased:
                raise Erased
            yield copy

    def to_bytes(self) -> bytearray:
        """The 4n bytes of the key. They are the caller's, which clears them."""
        with self._taken() as secret:
            return bytearray(secret.view())

    def dumps(self) -> bytearray:
        """The bytes of a key file of version 2. They are the caller's, which clears them."""
        with self._dumped() as text:
            return bytearray(text.view())

    @_calls.discreet
    def dump(self, path: Path) -> None:
        """Writes a key file of version 2, which its owner alone may read and write (mode 0600).

        Raises OSError, a FileExistsError if there is a file: it is not overwritten. After another error there is none.
        """
        with self._dumped() as text:
            _key_files.write(path, text, is_secret=True)

    @contextlib.contextmanager
    def _dumped(self) -> typing.Iterator[_Memory]:
        with self._taken() as secret:
            text = _key_files.text_of(self._kind, self._set, secret)
            with _calls.cleared(text):
                yield text

    def public(self) -> PublicKey:
        """The public key: the last 2n bytes."""
        public = _Memory(_lengths(self._set).public_key)
        with self._taken() as secret:
            _calls.done("slh_public", self._set, secret, public)
        return PublicKey._of(self._set, public)

    def check(self) -> None:
        """Raises Invalid unless PK.root is the root that the seeds give. This takes as long as making a key."""
        with self._taken() as secret:
            _calls.done("slh_check", self._set, secret)

    def sign(
        self,
        message: Bytes,
        context: Bytes = b"",
        *,
        randomizer: Bytes | None = None,
        deterministic: bool = False,
        once: bool = False,
        twice: bool = False,
        verify: bool = False,
    ) -> bytes:
        """Signs a message in the pure form (Algorithm 22).

        The randomizer has n bytes, and is drawn from the system unless it is given. With `deterministic` there is none.
        The signature is computed two times, unless the caller asks for `once`, which takes half the time. With `verify`
        it is verified under this key's public key. Raises Fault if both differ or it is not valid; then it is erased,
        and nothing is signed. Raises Refusal: BadRandomizerLength; ContextTooLong if the context has over 255 bytes.

        `twice` is deprecated: it asks for the default, even beside `once`.
        """
        runs = _runs(once, twice)
        return self._sign("slh_sign", (), message, context, randomizer, deterministic, runs, verify)

    def hash_sign(
        self,
        function: int,
        message: Bytes,
        context: Bytes = b"",
        *,
        randomizer: Bytes | None = None,
        deterministic: bool = False,
        once: bool = False,
        twice: bool = False,
        verify: bool = False,
    ) -> bytes:
        """Signs a message in the pre-hash form (Algorithm 23), with a digest that this computes.

        A function that is weaker than the set makes a weaker signature. Raises: as `sign`, and Refusal NoSuchFunction.
        """
        by, runs = (_checked_function(function),), _runs(once, twice)
        return self._sign("slh_hash_sign", by, message, context, randomizer, deterministic, runs, verify)

    def hash_sign_digest(
        self,
        function: int,
        digest: Bytes,
        context: Bytes = b"",
        *,
        randomizer: Bytes | None = None,
        deterministic: bool = False,
        once: bool = False,
        twice: bool = False,
        verify: bool = False,
    ) -> bytes:
        """Signs a message in the pre-hash form (Algorithm 23) by its digest, for messages that are read in pieces.

        Raises: as `hash_sign`, and Refusal BadDigestLength if the digest has another length than the function's.
        """
        by, runs = (_checked_function(function),), _runs(once, twice)
        return self._sign("slh_hash_sign_digest", by, digest, context, randomizer, deterministic, runs, verify)

    def _sign(
        self,
        name: str,
        function: tuple[int, ...],
        text: Bytes,
        context: Bytes,
        randomizer: Bytes | None,
        deterministic: bool,
        runs: int,
        verify: bool,
    ) -> bytes:
        signed_by = name + "_twice" if runs == 2 else name
        verified_by = name.replace("sign", "verify") if _calls.checked_bool("verify", verify) else None
        given = [_calls.checked_bytes(it) for it in (text, context)]
        opt_rand = _randomizer(self._set, randomizer, deterministic)
        signature = _Memory(_lengths(self._set).signature)
        scratch = [_Memory(2 * signature.length)] if runs == 2 else []
        lengths = _text_lengths(function, *given)
        with _calls.cleared(signature, *scratch), self._taken() as secret:
            _calls.done(signed_by, self._set, *function, secret, *given, opt_rand, *scratch, signature, lengths=lengths)
            if verified_by:
                self.public()._verify_made(verified_by, function, given, signature)
            return signature.to_bytes()

    def __eq__(self, other: object) -> bool:
        """Whether both are the same key, in a time that does not depend on their bytes. One that was erased is none."""
        if not isinstance(other, SecretKey):
            return NotImplemented
        is_same = self._set == other._set and hmac.compare_digest(self._memory.view(), other._memory.view())
        return is_same and not self._is_erased and not other._is_erased

    __hash__ = None  # type: ignore[assignment]

    def __repr__(self) -> str:
        return f"<slh.SecretKey {self._set.label}>"


@_calls.discreet
def load(path: Path) -> PublicKey | SecretKey:
    """Reads a key file of the program `slh`: a key of the kind that the file has. Raises: as `PublicKey.load`."""
    return typing.cast("PublicKey | SecretKey", _load((PublicKey, SecretKey), path))


@_calls.discreet
def loads(data: Bytes) -> PublicKey | SecretKey:
    """Reads the bytes of a key file: a key of the kind that it has. Raises: as `PublicKey.load`."""
    return typing.cast("PublicKey | SecretKey", _loads((PublicKey, SecretKey), data))


def _load(kinds: tuple[type[_Key], ...], path: Path) -> _Key:
    return _parsed(kinds, *_key_files.read(path))


def _loads(kinds: tuple[type[_Key], ...], data: Bytes) -> _Key:
    return _parsed(kinds, _Memory.copy_of(data), 0)


def _parsed(kinds: tuple[type[_Key], ...], text: _Memory, skipped: int) -> _Key:
    """The key of a key file, which is cleared."""
    by_name = {it._kind: it for it in kinds}
    with _calls.cleared(text):
        kind, number, key = _key_files.parse(tuple(by_name), text, skipped, _key_length)
        return by_name[kind]._of(Set(number), key)


class Signer:
    """Computes each signature by several threads.

        with slh.Signer(workers=4) as signer:
            signature = signer.sign(secret, message)

    A signature is cut into jobs (docs/LIBRARY.md, "Threads of your own"), which the workers do. With the
    same randomizer, or with none, it is byte for byte the one that `SecretKey` makes. A secret key that `check` finds
    invalid is refused as AnswersDisagree, while `SecretKey` makes a signature that is not valid. Digests are signed by
    `SecretKey.hash_sign_digest` alone. Any number of threads may sign by one Signer at once. A forked process may sign
    by it, too, and gets threads of its own.

    Each job runs two times, and Fault is raised unless both runs gave the same bytes. With `once` each runs one time.
    With `verify` each signature is verified under the key's public key, and Fault is raised unless it is valid. After
    Fault nothing is signed. Both find faults of the memory or the processor (SECURITY.md, "Faults"). `twice` is
    deprecated, as for `SecretKey.sign`.
    """

    def __init__(self, workers: int, *, once: bool = False, twice: bool = False, verify: bool = False) -> None:
        """Keeps up to that many threads, at least 1, until `close`. No more start than a signature has jobs."""
        if not isinstance(workers, int) or isinstance(workers, bool):
            raise TypeError(f"workers are an int, not {type(workers).__name__}")
        if workers < 1:
            raise ValueError(f"workers are at least 1, not {workers}")
        self._runs = _runs(once, twice)
        self._verify = _calls.checked_bool("verify", verify)
        self._workers, self._is_closed = workers, False
        self._start_pool()
        _signers.add(self)

    def _start_pool(self) -> None:
        """Takes a pool, which starts threads when there is work."""
        self._pool = concurrent.futures.ThreadPoolExecutor(self._workers, thread_name_prefix="slh")
        if self._is_closed:
            self._pool.shutdown()

    @_calls.discreet
    def sign(
        self,
        secret: SecretKey,
        message: Bytes,
        context: Bytes = b"",
        *,
        randomizer: Bytes | None = None,
        deterministic: bool = False,
    ) -> bytes:
        """Signs a message in the pure form (Algorithm 22). Raises Fault; Refusal: as `SecretKey.sign`."""
        return self._sign("slh_sign", secret, (), message, context, randomizer, deterministic)

    @_calls.discreet
    def hash_sign(
        self,
        secret: SecretKey,
        function: int,
        message: Bytes,
        context: Bytes = b"",
        *,
        randomizer: Bytes | None = None,
        deterministic: bool = False,
    ) -> bytes:
        """Signs a message in the pre-hash form (Algorithm 23). Raises Fault; Refusal: as `SecretKey.hash_sign`."""
        by = (_checked_function(function),)
        return self._sign("slh_hash_sign", secret, by, message, context, randomizer, deterministic)

    def _sign(
        self,
        name: str,
        secret: SecretKey,
        function: tuple[int, ...],
        message: Bytes,
        context: Bytes,
        randomizer: Bytes | None,
        deterministic: bool,
    ) -> bytes:
        checked = _checked_secret(secret)
        given = [_calls.checked_bytes(it) for it in (message, context)]
        opt_rand = _randomizer(checked.set, randomizer, deterministic)
        signature = _Memory(_lengths(checked.set).signature)
        lengths = _text_lengths((), *given)
        with _calls.cleared(signature), checked._taken() as taken:
            work = _Work(checked.set, taken, self._runs)
            start = work.start
            _calls.done(f"{name}_start", checked.set, *function, taken, *given, opt_rand, start, lengths=lengths)
            work.sign(self._pool, self._workers, signature)
            if self._verify:
                checked.public()._verify_made(name.replace("sign", "verify"), function, given, signature)
            return signature.to_bytes()

    def close(self) -> None:
        """Waits for the signatures that are being made, and ends the threads."""
        self._is_closed = True
        self._pool.shutdown()

    def __enter__(self) -> Signer:
        return self

    def __exit__(
        self,
        kind: type[BaseException] | None,
        error: BaseException | None,
        trace: types.TracebackType | None,
    ) -> None:
        self.close()


#: All Signers of this process.
_signers: weakref.WeakSet[Signer] = weakref.WeakSet()


def _after_fork() -> None:
    """Gives each Signer a new pool in a forked process: the old one waits for threads that are not there."""
    for it in list(_signers):
        it._start_pool()


if hasattr(os, "register_at_fork"):  # Windows has no fork
    os.register_at_fork(after_in_child=_after_fork)


def _checked_secret(given: SecretKey) -> SecretKey:
    if not isinstance(given, SecretKey):
        raise TypeError(f"an slh.SecretKey is needed, not {type(given).__name__}")
    return given


class _Work:
    """One signature as jobs, each of which runs once or twice."""

    def __init__(self, set: Set, secret: _Memory, runs: int) -> None:
        self.set, self.secret = set, secret
        # The levels of XMSS trees, those that docs/BENCHMARKS.md has for four workers, and of FORS trees.
        self.cut = (self.set, {1: 4, 3: 4, 5: 3, 6: 1}.get(self.set, 0), 0)
        jobs, start_len, answers_len = ctypes.c_uint32(), ctypes.c_size_t(), ctypes.c_size_t()
        _calls.done("slh_sign_jobs", *self.cut, jobs, start_len, answers_len)
        self.jobs = jobs.value
        self.start = ctypes.create_string_buffer(start_len.value)
        self.answers = [_Memory(answers_len.value) for _ in range(runs)]

    def job(self, number: int, answers: _Memory) -> None:
        """Writes the answer of a job into its place."""
        at, length = ctypes.c_size_t(), ctypes.c_size_t()
        _calls.done("slh_answer_place", *self.cut, number, at, length)
        _calls.done("slh_sign_job", *self.cut, self.secret, self.start, number, answers.part(at.value, length.value))

    def work(self, numbers: typing.Iterator[tuple[_Memory, int]]) -> None:
        """Does jobs while there are numbers, which several threads take."""
        for answers, number in numbers:
            self.job(number, answers)

    def sign(self, pool: concurrent.futures.Executor, workers: int, signature: _Memory) -> None:
        """Has the jobs done, and joins their answers to the signature. Answers are secret, and are cleared."""
        numbers = iter([(answers, number) for answers in self.answers for number in range(self.jobs)])
        futures: list[concurrent.futures.Future[None]] = []
        with _calls.cleared(*self.answers):
            try:
                for _ in range(min(workers, self.jobs)):
                    futures.append(pool.submit(self.work, numbers))
                for it in futures:
                    it.result()
            finally:
                concurrent.futures.wait(futures)
            first, *others = self.answers
            if not all(hmac.compare_digest(first.view(), it.view()) for it in others):
                raise Fault("two runs of a job gave different answers")
            _calls.done("slh_sign_join", *self.cut, self.secret, self.start, first, signature)
