"""The calls of libslh.so.1 beside this file, their errors, and memory for secrets outside Python's objects."""

from __future__ import annotations

import contextlib
import ctypes
import errno
import functools
import os
import pathlib
import typing

DONE = 0
INVALID = 30
FAULT = 38
SELF_TEST_FAILED = 40
#: libslh's numbers of the kinds of keys.
KINDS = {"public": 1, "secret": 2}
MAX_SECRET_KEY = 128
_MAX_NAME = 20

_NAMES = """slh_version slh_level slh_lengths slh_refusal_name slh_keygen slh_public slh_check slh_key_read
slh_key_write slh_der_read slh_der_write slh_pem_read slh_pem_write slh_sign slh_sign_twice slh_verify slh_hash_sign
slh_hash_sign_twice slh_hash_verify slh_hash_sign_digest slh_hash_sign_digest_twice slh_hash_verify_digest slh_sign_jobs
slh_answer_place slh_sign_start slh_hash_sign_start slh_sign_job slh_sign_join""".split()

_IS_WINDOWS = os.name == "nt"
#: BCRYPT_USE_SYSTEM_PREFERRED_RNG of Windows.
_SYSTEM_RNG = 2

#: Types of messages, contexts, keys and signatures.
Bytes = typing.Union[bytes, bytearray, memoryview]


class OldProcessor(ImportError):
    """The library has no code for this processor, which is below x86-64-v2. `import slh` raises it."""


def _expect_code(loaded: ctypes.CDLL) -> None:
    """Raises OldProcessor if the level is 0 and the calls are refused.

    A library for one kind of processors, as for ARM, has the level 0, too; its calls work.
    """
    rooms = [ctypes.byref(ctypes.c_size_t()) for _ in range(4)]
    if loaded.slh_level() != 0 or loaded.slh_lengths(ctypes.c_uint32(1), *rooms) == DONE:
        return
    raise OldProcessor(
        "libslh needs a processor of the level x86-64-v2 or later, and this one is older, or its virtual machine hides"
        " what it has (slh_level() is 0)"
    )


def _load() -> ctypes.CDLL:
    """Loads the shared object beside this file, which runs the best code that it has for the processor."""
    loaded = ctypes.CDLL(str(pathlib.Path(__file__).resolve().parent / "libslh.so.1"))
    for name in _NAMES:
        getattr(loaded, name).restype = ctypes.c_uint32
    loaded.slh_erase.restype = None
    loaded.slh_refusal_text.restype = ctypes.c_char_p
    _expect_code(loaded)
    return loaded


def _load_system() -> ctypes.CDLL:
    loaded = ctypes.CDLL("msvcrt" if _IS_WINDOWS else None, use_errno=True)
    if not _IS_WINDOWS:
        loaded.getrandom.restype = ctypes.c_ssize_t
    loaded.calloc.restype = ctypes.c_void_p
    loaded.free.restype = None
    return loaded


library = _load()
_system = _load_system()


class Length(typing.NamedTuple):
    """The length that something was expected to have, and the one that it has."""

    subject: str
    expected: int
    given: int
    unit: str = "bytes"

    def __str__(self) -> str:
        return f"{self.subject} has {self.expected} {self.unit}, and {self.given} were given"


class Refusal(ValueError):
    """A call was refused. `number` and `name` are those of docs/FORMATS.md, as 2 and "ContextTooLong".

    If it is about a length, `expected` and `given` are the two lengths, and else None.
    """

    def __init__(self, number: int, why: Length | str = "") -> None:
        super().__init__(number, why)
        self.number = number
        self.name = _refusal_name(number)
        self.expected, self.given = (why.expected, why.given) if isinstance(why, Length) else (None, None)

    def __str__(self) -> str:
        why = str(self.args[1]) or library.slh_refusal_text(ctypes.c_uint32(self.number)).decode("ascii")
        return f"{self.number} {self.name}: {why}"


class Invalid(Exception):
    """The signature is not valid, or the root of the secret key is not the one that its seeds give."""


class Erased(Exception):
    """The secret key was erased."""

    def __init__(self, why: str = "the secret key was erased") -> None:
        super().__init__(why)


class Fault(Exception):
    """A computation went wrong, as by bad memory or a bad processor. Nothing was signed, and no key was made."""

    def __init__(self, why: str = "two computations of one signature differ") -> None:
        super().__init__(why)


class SelfTestFailed(Exception):
    """`self_test` found an answer that is not the known one. The library on this machine may not be used."""

    def __init__(self, why: str = "an answer of the self-test is not the known one") -> None:
        super().__init__(why)


def _refusal_name(number: int) -> str:
    name = ctypes.create_string_buffer(_MAX_NAME)
    if call("slh_refusal_name", number, name) != DONE:
        return "NoSuchRefusal"
    return name.value.decode("ascii")


class Sealed:
    """Refuses to be copied and serialised, by `copy`, `pickle` and tools that ask an object as these do."""

    __slots__ = ()

    def _refuse(self, *_: object) -> typing.NoReturn:
        raise TypeError(f"an slh.{type(self).__name__} is not copied, pickled or serialised")

    # Classes that may be copied have methods of their own, of other types.
    _refused: typing.Any = _refuse
    __copy__ = __deepcopy__ = __reduce__ = __reduce_ex__ = __getstate__ = _refused


class Memory(Sealed):
    """Zeroed bytes of the C library, and no Python object's: an attribute, an iteration and a buffer have none of them.

    They are overwritten with zeros before they are freed. Only their address leads to them, as by ctypes.
    """

    __slots__ = ("_at", "_owner", "length")
    _owner: Memory | None

    def __init__(self, length: int) -> None:
        self._at, self._owner, self.length = 0, None, length
        at = _system.calloc(ctypes.c_size_t(1), ctypes.c_size_t(max(length, 1)))
        if at is None:
            raise MemoryError
        self._at = at

    @classmethod
    def copy_of(cls, given: Bytes | Memory) -> Memory:
        """A copy. Bytes that are no secret may be anywhere; those of a secret pass through no Python object."""
        source = given.view() if isinstance(given, Memory) else memoryview(checked_type(given))
        if not source.c_contiguous:
            raise TypeError("contiguous bytes are needed")
        made = cls(source.nbytes)
        if made.length:
            made.view()[:] = source.cast("B")
        return made

    def part(self, at: int, length: int) -> Memory:
        """Some of these bytes, which stay these."""
        if not 0 <= at <= at + length <= self.length:
            raise IndexError("the part is not inside")
        made = Memory.__new__(Memory)
        made._at, made._owner, made.length = self._at + at, self, length
        return made

    def view(self) -> memoryview:
        """These bytes, for as long as this object lives."""
        # A view of nothing can't be cast.
        return memoryview((ctypes.c_ubyte * max(self.length, 1)).from_address(self._at)).cast("B")[: self.length]

    def to_bytes(self) -> bytes:
        """A copy that nothing can clear."""
        return ctypes.string_at(self._at, self.length)

    def words(self) -> tuple[ctypes.c_void_p, ctypes.c_size_t]:
        """The arguments of a call: the address and the length."""
        return ctypes.c_void_p(self._at), ctypes.c_size_t(self.length)

    def erase(self) -> None:
        """Overwrites the bytes with zeros."""
        library.slh_erase(*self.words())

    # The defaults are there when a module's names may be gone, as at the end of a program.
    def __del__(
        self,
        erase: typing.Callable[..., None] = library.slh_erase,
        free: typing.Callable[..., None] = _system.free,
        address: type[ctypes.c_void_p] = ctypes.c_void_p,
        size: type[ctypes.c_size_t] = ctypes.c_size_t,
    ) -> None:
        if self._owner is None and self._at:
            erase(address(self._at), size(self.length))
            free(address(self._at))

    def __repr__(self) -> str:
        return f"<{self.length} bytes outside Python>"


@contextlib.contextmanager
def cleared(*memories: Memory) -> typing.Iterator[None]:
    """Clears memory in the end, whatever happens."""
    try:
        yield
    finally:
        for it in memories:
            it.erase()


_Call = typing.TypeVar("_Call", bound=typing.Callable[..., typing.Any])


def discreet(function: _Call) -> _Call:
    """Has errors leave a function without its frames: a traceback may show locals, and these hold what was given."""

    @functools.wraps(function)
    def called(*given: typing.Any, **named: typing.Any) -> typing.Any:
        try:
            return function(*given, **named)
        except BaseException as error:
            raise error.with_traceback(None)
        finally:
            del given, named

    return typing.cast(_Call, called)


def checked_type(given: Bytes) -> Bytes:
    """Bytes for a call. A number in their place would move the arguments behind it."""
    if not isinstance(given, (bytes, bytearray, memoryview)):
        raise TypeError(f"bytes are needed, not {type(given).__name__}")
    return given


def checked_bytes(given: Bytes) -> bytes:
    """Bytes for a call that are no secret: a copy of them can't be cleared."""
    return bytes(checked_type(given))


def checked_bool(name: str, given: bool) -> bool:
    """A switch. Any other value, as 1 or "no", may be meant for another argument."""
    if not isinstance(given, bool):
        raise TypeError(f"{name} is True or False")
    return given


def checked_number(given: int, wanted: str = "an int") -> int:
    """A number for a call: ctypes alone would cut longer ones to 32 bits. A bool is none."""
    if not isinstance(given, int) or isinstance(given, bool):
        raise TypeError(f"{wanted} is needed, not {type(given).__name__}")
    if not 0 <= given < 1 << 32:
        raise OverflowError("a number of 32 bits is needed")
    return given


class Item(ctypes.Structure):
    """An item of slh_verify_many: four pointers to bytes, each with their number."""

    _fields_ = [
        ("pk", ctypes.c_void_p),
        ("pk_len", ctypes.c_uint64),
        ("msg", ctypes.c_char_p),
        ("msg_len", ctypes.c_uint64),
        ("ctx", ctypes.c_char_p),
        ("ctx_len", ctypes.c_uint64),
        ("sig", ctypes.c_char_p),
        ("sig_len", ctypes.c_uint64),
    ]


def call(name: str, *arguments: typing.Any) -> int:
    """Calls with each number as it is, a reference to each room for one, and bytes as a pointer and a length.

    An array of items or numbers is given as bytes are. Its length counts these.
    """
    words: list[typing.Any] = []
    for it in arguments:
        if isinstance(it, int):
            words.append(ctypes.c_uint32(it))
        elif isinstance(it, ctypes._SimpleCData):
            words.append(ctypes.byref(it))
        elif isinstance(it, Memory):
            words.extend(it.words())
        else:
            words.extend((it, ctypes.c_size_t(len(it))))
    return int(getattr(library, name)(*words))


def done(name: str, *arguments: typing.Any, lengths: typing.Mapping[int, Length] | None = None) -> None:
    """Calls, and raises Invalid, Fault, SelfTestFailed or Refusal unless the call is done.

    `lengths` has lengths by the number of the refusal that they explain.
    """
    result = call(name, *arguments)
    if result == INVALID:
        raise Invalid("invalid")
    if result == FAULT:
        raise Fault
    if result == SELF_TEST_FAILED:
        raise SelfTestFailed
    if result != DONE:
        raise Refusal(result, (lengths or {}).get(result, ""))


def random_memory(count: int) -> Memory:
    """Fresh bytes from the system's generator, once that is ready. Those of os.urandom could not be cleared."""
    memory, filled = Memory(count), 0
    if _IS_WINDOWS:
        numbers = ctypes.c_ulong(count), ctypes.c_ulong(_SYSTEM_RNG)
        status = ctypes.CDLL("bcrypt").BCryptGenRandom(None, ctypes.c_void_p(memory._at), *numbers)
        if status != 0:
            raise OSError(f"BCryptGenRandom: status {status & 0xFFFFFFFF:#x}")
        return memory
    while filled < count:
        more = _system.getrandom(*memory.part(filled, count - filled).words(), 0)
        number = ctypes.get_errno()
        if more < 0 and number != errno.EINTR:
            raise OSError(number, os.strerror(number))
        filled += max(more, 0)
    return memory
