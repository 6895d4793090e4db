"""Keys as other programs read them: SubjectPublicKeyInfo and PKCS#8, as DER and PEM.

    pem = pkix.to_pem(secret)  # a bytearray: the caller clears it
    secret = pkix.secret_from_pem(pem)
    public = pkix.public_from_der(pkix.to_der(secret.public()))

libslh reads and writes one form of each set and kind (bindings/README.md, "Keys for other programs"). All else is
refused as NotAKeyFile, as an encrypted key, one with attributes, or with its public key inside. The refusal names the
command of OpenSSL 3.5 that converts it. Call `check` once on a secret key that comes from elsewhere.
"""

from __future__ import annotations

import contextlib
import ctypes
import typing

from slh import PublicKey, Refusal, SecretKey, Set, _calls
from slh._calls import DONE, KINDS, MAX_SECRET_KEY, Bytes, Memory, call, cleared, done

__all__ = ["public_from_der", "public_from_pem", "secret_from_der", "secret_from_pem", "to_der", "to_pem"]

_AnyKey = typing.TypeVar("_AnyKey", PublicKey, SecretKey)

_NOT_A_KEY_FILE = 11
#: The most bytes that libslh writes, and a zero byte after PEM.
_MAX_DER, _MAX_PEM = 150, 259
_CONVERT = {
    "public": "openssl pkey -pubin -in FILE -pubout -out NEW",
    "secret": "openssl pkey -in FILE -out NEW",
}


def _why(kind: str, text: memoryview, is_pem: bool, is_other_kind: bool) -> str:
    """Why a key is refused, and the command that converts it."""
    if kind == "public" and is_other_kind:
        return "the key is secret, and a public one is asked for"
    convert = _CONVERT[kind]
    if not is_pem:
        convert = convert.replace("-in FILE", "-inform DER -in FILE").replace("-out NEW", "-outform DER -out NEW")
    if text[:28] == b"-----BEGIN ENCRYPTED PRIVATE":
        return f"the key is encrypted; this asks for its password: {convert}"
    return f"this is not the one form of a {kind} key of the six sets; this converts it: {convert}"


def _loaded(cls: type[_AnyKey], data: Bytes, is_pem: bool) -> _AnyKey:
    text, key, number, kind = Memory.copy_of(data), Memory(MAX_SECRET_KEY), ctypes.c_uint32(), ctypes.c_uint32()
    with cleared(text, key):
        result = call("slh_pem_read" if is_pem else "slh_der_read", text, number, kind, key)
        if result == _NOT_A_KEY_FILE or result == DONE and kind.value != KINDS[cls._kind]:
            raise Refusal(_NOT_A_KEY_FILE, _why(cls._kind, text.view(), is_pem, result == DONE))
        if result != DONE:
            raise Refusal(result)
        set = Set(number.value)
        length = set.lengths.public_key if cls is PublicKey else set.lengths.secret_key
        return cls._of(set, Memory.copy_of(key.part(0, length)))


@_calls.discreet
def public_from_der(data: Bytes) -> PublicKey:
    """The key of a SubjectPublicKeyInfo. Raises Refusal: NotAKeyFile."""
    return _loaded(PublicKey, data, False)


@_calls.discreet
def public_from_pem(data: Bytes) -> PublicKey:
    """The key of a SubjectPublicKeyInfo in PEM, "PUBLIC KEY". Raises Refusal: NotAKeyFile."""
    return _loaded(PublicKey, data, True)


@_calls.discreet
def secret_from_der(data: Bytes) -> SecretKey:
    """The key of a PKCS#8 PrivateKeyInfo. The bytes stay the caller's. Raises Refusal: NotAKeyFile."""
    return _loaded(SecretKey, data, False)


@_calls.discreet
def secret_from_pem(data: Bytes) -> SecretKey:
    """The key of a PKCS#8 PrivateKeyInfo in PEM, "PRIVATE KEY". The bytes stay the caller's.

    Raises Refusal: NotAKeyFile.
    """
    return _loaded(SecretKey, data, True)


@contextlib.contextmanager
def _written(key: PublicKey | SecretKey, is_pem: bool) -> typing.Iterator[Memory]:
    """The DER or PEM of a key, which is cleared in the end."""
    made, length = Memory(_MAX_PEM if is_pem else _MAX_DER), ctypes.c_uint32()
    taken = key._taken() if isinstance(key, SecretKey) else contextlib.nullcontext(Memory.copy_of(key.to_bytes()))
    with cleared(made), taken as data:
        done("slh_pem_write" if is_pem else "slh_der_write", key.set, KINDS[key._kind], data, length, made)
        yield made.part(0, length.value)


def _made(key: PublicKey | SecretKey, is_pem: bool) -> bytes | bytearray:
    if not isinstance(key, (PublicKey, SecretKey)):
        raise TypeError(f"an slh.PublicKey or slh.SecretKey is needed, not {type(key).__name__}")
    with _written(key, is_pem) as made:
        return bytearray(made.view()) if isinstance(key, SecretKey) else made.to_bytes()


@typing.overload
def to_der(key: PublicKey) -> bytes: ...


@typing.overload
def to_der(key: SecretKey) -> bytearray: ...


@_calls.discreet
def to_der(key: PublicKey | SecretKey) -> bytes | bytearray:
    """The SubjectPublicKeyInfo of a public key; of a secret one PKCS#8, not encrypted, in bytes that the caller clears.

    Raises Erased.
    """
    return _made(key, False)


@typing.overload
def to_pem(key: PublicKey) -> bytes: ...


@typing.overload
def to_pem(key: SecretKey) -> bytearray: ...


@_calls.discreet
def to_pem(key: PublicKey | SecretKey) -> bytes | bytearray:
    """What `to_der` has, in PEM. Raises Erased."""
    return _made(key, True)
