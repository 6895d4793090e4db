"""Key files (docs/FORMATS.md of the repository, "Key file"): libslh reads both versions, and writes version 2."""

from __future__ import annotations

import ctypes
import os
import re
import typing

from slh._calls import DONE, KINDS, MAX_SECRET_KEY, Length, Memory, Refusal, call, cleared, done

#: Where lines 2 and 3 begin, in a file of one of the six sets.
_NAME, _DIGITS = 17, 35
#: A longer file is not a key file. It is read up to its first fault.
_FRONT = 512
_LINE_FEED = re.compile(rb"\n")
_NOT_A_DIGIT = re.compile(rb"[^0-9A-Fa-f]")
#: The digits of a secret key of any set.
_KEY_DIGITS = re.compile("(?:[0-9A-Fa-f]{64}){2,4}")

#: The length of a key, by the number or the name of its set and by its kind.
LengthOf = typing.Callable[[typing.Union[int, str], str], int]


def checked_path(path: str | os.PathLike[str]) -> str:
    """A path. An error of the system shows it, so the bytes, the text and the digits of a key are none."""
    found = os.fspath(path)
    if not isinstance(found, str):
        raise TypeError("a path is a str or an os.PathLike; loads takes bytes")
    if "\n" in found or _KEY_DIGITS.search(found):
        raise ValueError("a path with a line feed, or of a key's digits, is not taken; loads takes bytes")
    return found


def read(path: str | os.PathLike[str]) -> tuple[Memory, int]:
    """The first 512 bytes of a file, and the first one after them that is not a digit; and how many are left out."""
    front = Memory(_FRONT + 1)
    with open(checked_path(path), "rb", buffering=0) as file:
        count = _fill(file, front.view()[:_FRONT])
        skipped, end = _skip_digits(file) if count == _FRONT else (0, b"")
    front.view()[count : count + len(end)] = end
    return front.part(0, count + len(end)), skipped


def _fill(file: typing.Any, room: memoryview) -> int:
    """Reads until there is no room left or nothing more comes. Returns the count of bytes."""
    count = 0
    while count < len(room):
        more = file.readinto(room[count:])
        if not more:
            break
        count += more
    return count


def _skip_digits(file: typing.Any) -> tuple[int, bytes]:
    """Reads up to the first byte that is not a digit. Returns the count of digits, and that byte, if any."""
    piece, skipped = Memory(1 << 16), 0
    with cleared(piece):
        while count := file.readinto(piece.view()):
            found = _NOT_A_DIGIT.search(piece.view()[:count])
            if found:
                return skipped + found.start(), bytes(piece.view()[found.start() : found.end()])
            skipped += count
    return skipped, b""


def parse(kinds: typing.Sequence[str], text: Memory, skipped: int, length_of: LengthOf) -> tuple[str, int, Memory]:
    """The kind, the set's number and the key of a key file of one of these kinds. `read` has left out some digits.

    Raises Refusal by the first fault: NotAKeyFile, UnknownSet, BadHex, BadKeyLength, TrailingBytes.
    """
    number, kind_number, room = ctypes.c_uint32(), ctypes.c_uint32(), Memory(MAX_SECRET_KEY)
    with cleared(room):
        result = call("slh_key_read", text, number, kind_number, room)
        if result != DONE:
            raise _refusal(result, kinds, text.view(), skipped, length_of)
        kind = next(it for it in KINDS if KINDS[it] == kind_number.value)
        if kind not in kinds:
            raise _other_kind(kind, kinds)
        return kind, number.value, Memory.copy_of(room.part(0, length_of(number.value, kind)))


def _other_kind(kind: str, kinds: typing.Sequence[str]) -> Refusal:
    return Refusal(11, f"the key is {kind}, and a {kinds[0]} one is asked for")


def _refusal(
    number: int, kinds: typing.Sequence[str], text: memoryview, skipped: int, length_of: LengthOf
) -> Refusal:
    """The refusal of a file that libslh refuses.

    libslh reads files of both kinds, and names the other faults of a set without a number before that set. Here these
    two come first. The portable C also refuses if it gets no memory.
    """
    if number == 11:
        return Refusal(number, "this is PEM" if text[:11] == b"-----BEGIN " else "line 1 is not that of a key file")
    if not 12 <= number <= 15:
        return Refusal(number)
    kind = next(it for it in KINDS if text[: _NAME - 3] == b"slh-dsa-" + it.encode())
    if kind not in kinds:
        return _other_kind(kind, kinds)
    if number == 12 or text[_NAME : _NAME + 7] == b"custom:":
        return Refusal(12, "line 2 is not the name of one of the six sets")
    if number != 14:
        return Refusal(number)
    label, found = bytes(text[_NAME : _DIGITS - 1]).decode(), _LINE_FEED.search(text, _DIGITS)
    end = found.start() if found else len(text)
    given = end - _DIGITS + (skipped if end >= _FRONT else 0)
    return Refusal(number, Length(f"line 3 of a {kind} key of {label}", 2 * length_of(label, kind), given, "digits"))


def text_of(kind: str, set: int, key: Memory) -> Memory:
    """A key file of version 2. libslh writes a zero byte after it."""
    made = Memory(_DIGITS + 2 * key.length + 2)
    done("slh_key_write", set, KINDS[kind], key, made)
    return made.part(0, made.length - 1)


def write(path: str | os.PathLike[str], text: Memory, is_secret: bool) -> None:
    """Writes a new file whole, or leaves none. An existing one is not overwritten: that is a FileExistsError."""
    checked = checked_path(path)
    mode = 0o600 if is_secret else 0o666
    # Windows has O_BINARY in place of O_CLOEXEC, and no modes: a file there has the rights of its folder.
    flags = getattr(os, "O_CLOEXEC", 0) | getattr(os, "O_BINARY", 0)
    file = os.open(checked, os.O_WRONLY | os.O_CREAT | os.O_EXCL | flags, mode)
    try:
        try:
            if is_secret and os.name != "nt":
                os.fchmod(file, mode)
            _write_all(file, text.view())
            os.fsync(file)
        finally:
            os.close(file)
    except BaseException:
        os.unlink(checked)
        raise


def _write_all(file: int, view: memoryview) -> None:
    while view:
        view = view[os.write(file, view) :]
