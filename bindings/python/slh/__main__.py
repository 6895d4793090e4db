"""The commands keygen, public, sign, verify and check of the program `slh`, over this package: `python -m slh sign ..`.
`python -m slh acvp PROMPT` writes the response to a prompt of NIST's ACVP (`_acvp.py`), and `python -m slh self-test
[SET..]` tests sets by known answers.

Options, files, refusals and statuses are those of the program (docs/FORMATS.md of the repository), which is for Linux
alone. These differ. Custom sets are refused as 12 UnknownSet. `sign` signs two times, as the program does with --twice,
unless --once is given. A new key is checked. One worker makes a key, and cuts are judged, and not made as they are
given: keys and signatures are the same by any number of workers and any cuts.
"""

from __future__ import annotations

import contextlib
import os
import re
import sys
import types
import typing

import slh
from slh import _acvp
from slh._calls import Memory
from slh._help import OPTIONS, Command, help_text, usual

_MOST_BYTES = 1 << 30
_HOW, _WORK = [*OPTIONS][4:9], [*OPTIONS][9:]
_RANGES = {"workers": (1, 64), "xmss-levels": (0, 8), "fors-levels": (0, 8)}
_NAMES = {31: "BadWords", 32: "ReadFailed", 33: "WriteFailed", 34: "BadSeeds", 35: "BadOption", 36: "FileTooLong",
          1: "NoMemory", 4: "BadCutting", 12: "UnknownSet", 38: "Fault"}
#: The heights of an XMSS and of a FORS tree of each set (FIPS 205, Table 2).
_HEIGHTS = {1: (9, 12), 2: (3, 6), 3: (9, 14), 4: (3, 8), 5: (8, 14), 6: (4, 9)}
_VALUES = {ord(it): int(it, 16) for it in "0123456789abcdefABCDEF"}


class _Stop(Exception):
    """A refusal of the command, by its number."""


class _Help(Exception):
    """The help text is asked for."""


def _number(name: str, digits: str) -> int:
    """The number of an option. Zeros may stand before it, of any count."""
    low, high = _RANGES[name]
    found = re.fullmatch(r"([+-]?)0*([0-9]{1,9})", digits)
    if not found or not low <= int(found[1] + found[2]) <= high:
        raise _Stop(31)
    return int(found[2])


def _parsed(command: Command, given: list[str]) -> types.SimpleNamespace:
    """The options, each at most once. A word that asks for help does so where all words before it are right."""
    found: dict[str, typing.Any] = dict.fromkeys([*command.needs, *command.takes])
    left = given[::-1]
    while left and left != ["--"]:
        word = left.pop()
        if word == "--help" or word.startswith("-h"):
            raise _Help
        name, equals, value = word[2:].partition("=")
        if not word.startswith("--") or found.get(name, "") is not None:
            raise _Stop(31)
        if not OPTIONS[name][0]:
            if equals:
                raise _Stop(31)
            found[name] = True
            continue
        if not equals:
            if not left or (left[-1].startswith("-") and left[-1] != "-"):
                raise _Stop(31)
            value = left.pop()
        found[name] = _number(name, value) if name in _RANGES else value
    if any(found[it] is None for it in command.needs):
        raise _Stop(31)
    return types.SimpleNamespace(**{name.replace("-", "_"): it for name, it in found.items()})


def _read(path: str, most: int = -2) -> bytes:
    """A file, up to so many bytes and one more where that is told."""
    with open(path, "rb") as file:
        return file.read(most + 1)


def _message(path: str) -> bytes:
    found = _read(path, _MOST_BYTES)
    if len(found) > _MOST_BYTES:
        raise _Stop(36)
    return found


def _load(kind: type[slh.SecretKey] | type[slh.PublicKey], path: str) -> typing.Any:
    try:
        return kind.load(path)
    except slh.Refusal:
        raise
    except ValueError:
        raise _Stop(32) from None


def _hex(digits: str | None) -> bytes:
    if digits is None:
        return b""
    if not re.fullmatch(r"([0-9A-Fa-f]{2})*", digits):
        raise _Stop(35)
    return bytes.fromhex(digits)


def _set_named(label: str) -> slh.Set:
    found = next((it for it in slh.Set if it.label == label), None)
    if found is None:
        raise _Stop(12)
    return found


def _form(words: types.SimpleNamespace) -> tuple[bytes, slh.Function | None]:
    context = _hex(words.context)
    if words.prehash is not None and words.prehash not in _acvp.FUNCTIONS:
        raise _Stop(35)
    return context, _acvp.FUNCTIONS.get(words.prehash)


def _points(text: str | None) -> list[int] | None:
    if text is None:
        return None
    found = text.split(",")
    if len(found) > 256 or not all(re.fullmatch("[0-9]{1,9}", it) for it in found):
        raise _Stop(35)
    return [int(it) for it in found]


def _judge_cuts(set: slh.Set, words: types.SimpleNamespace) -> None:
    """Refuses cuts that no tree has. Where there are cut points, the levels are not looked at."""
    lists = [_points(words.xmss_cuts), _points(words.fors_cuts)]
    levels = [words.xmss_levels or 0, words.fors_levels or 0]
    for points, level, height in zip(lists, levels, _HEIGHTS[set]):
        rising = [0, *(points or []), 1 << height]
        if len(rising) > 257 or any(a >= b for a, b in zip(rising, rising[1:])) or (points is None and level > height):
            raise _Stop(4)


def _keygen(words: types.SimpleNamespace) -> tuple[int, bytes | bytearray]:
    found = _set_named(words.set)
    _judge_cuts(found, words)
    n = found.lengths.n
    text = bytearray(6 * n + 2)
    try:
        count = _fill(text)
        if count == 6 * n + 1 and text[6 * n : 6 * n + 1] == b"\n":
            count -= 1
        if count != 6 * n or not re.fullmatch(b"[0-9A-Fa-f]*", memoryview(text)[:count]):
            raise _Stop(34)
        seeds = _decoded(memoryview(text)[:count])
        with slh.SecretKey._of_seeds(found, [seeds.part(at, n) for at in (0, n, 2 * n)]) as secret:
            return 0, secret.dumps()
    finally:
        text[:] = bytes(len(text))


def _decoded(digits: memoryview) -> Memory:
    """The bytes of an even number of digits."""
    made = Memory(len(digits) // 2)
    view = made.view()
    for at in range(made.length):
        view[at] = _VALUES[digits[2 * at]] << 4 | _VALUES[digits[2 * at + 1]]
    return made


def _fill(text: bytearray) -> int:
    """Reads standard input into a text, as far as there is room. Returns the count of bytes."""
    count = 0
    with open(0, "rb", buffering=0, closefd=False) as file:
        while count < len(text) and (more := file.readinto(memoryview(text)[count:])):
            count += more
    return count


def _public(words: types.SimpleNamespace) -> tuple[int, bytes | bytearray]:
    with _load(slh.SecretKey, words.key) as secret:
        return 0, secret.public().dumps()


def _sign(words: types.SimpleNamespace) -> tuple[int, bytes | bytearray]:
    if words.once and words.twice:
        raise _Stop(31)
    with _load(slh.SecretKey, words.key) as secret:
        context, function = _form(words)
        random = None if words.random is None else _hex(words.random)
        if random is not None and len(random) != secret.set.lengths.n:
            raise _Stop(35)
        _judge_cuts(secret.set, words)
        message = _message(words.message) if function is None else _read(words.message)
        form = (message, context) if function is None else (function, message, context)
        name, once = "sign" if function is None else "hash_sign", words.once is True
        how: dict[str, typing.Any] = {"randomizer": random, "deterministic": random is None}
        if (words.workers or 1) > 1:
            with slh.Signer(words.workers, once=once) as signer:
                try:
                    return 0, getattr(signer, name)(secret, *form, **how)
                except slh.Refusal as refusal:
                    if refusal.name != "AnswersDisagree":  # by a key whose root is wrong the program signs, too
                        raise
                except RuntimeError:  # the system refuses a thread: this one signs
                    pass
        return 0, getattr(secret, name)(*form, once=once, **how)


def _verify(words: types.SimpleNamespace) -> tuple[int, bytes | bytearray]:
    public = _load(slh.PublicKey, words.key)
    context, function = _form(words)
    signature, message = _read(words.signature, public.set.lengths.signature), _read(words.message)
    by = (public.verify,) if function is None else (public.hash_verify, function)
    return _verdict("valid", "invalid", *by, message=message, signature=signature, context=context)


def _check(words: types.SimpleNamespace) -> tuple[int, bytes | bytearray]:
    with _load(slh.SecretKey, words.key) as secret:
        return _verdict("consistent", "inconsistent", secret.check)


def _verdict(good: str, bad: str, judge: typing.Any, *given: object, **named: object) -> tuple[int, bytes]:
    try:
        judge(*given, **named)
    except slh.Invalid:
        return 1, f"{bad}\n".encode()
    return 0, f"{good}\n".encode()


_COMMANDS = {
    "keygen": Command(
        "Writes the secret key file of the seeds on standard input", ["set"], _WORK, "",
        "The seeds SK.seed, SK.prf and PK.seed are one line of 6n hexadecimal digits:\n96 for a 128 set, 144 for a 192"
        f" set, 192 for a 256 set.\n{usual(4, 12, 34)}\n"
        "Example: umask 077; set -C\nopenssl rand -hex 48 | slh keygen --set SLH-DSA-SHA2-128f > secret.key", _keygen,
    ),
    "public": Command("Writes the public key file of a secret key file", ["key"], [], "secret",
                      f"{usual(11, 32)}\nExample: slh public --key secret.key > public.key", _public),
    "sign": Command(
        "Writes the signature of a message", ["key", "message"], [*_HOW, *_WORK], "secret",
        f"Hardware faults in signing can allow forgeries: use --random, and not --once.\n{usual(11, 32, 35)}\n"
        "Example: slh sign --key secret.key --message letter.txt \\\n"
        '--random "$(openssl rand -hex 16)" > letter.sig', _sign,
    ),
    "verify": Command(
        "Verifies the signature of a message", ["key", "message", "signature"], ["context", "prehash"], "public",
        f"{usual(11, 32, no_key='a secret key, a PEM file, raw bytes, or the signature')}\n"
        "Example: slh verify --key public.key --message letter.txt --signature letter.sig", _verify,
    ),
    "check": Command("Checks the root in a secret key file against its seeds", ["key"], [], "secret",
                     f"{usual(11, 32)}\nExample: slh check --key secret.key", _check),
}


_ACVP = "Writes the response to a prompt of NIST's ACVP"
_ACVP_HELP = f"""{_ACVP}

Usage: python -m slh acvp PROMPT

PROMPT is a JSON file for SLH-DSA: the mode keyGen, sigGen or sigVer of FIPS205.
Usual refusals:
   9 NoSuchFunction  a pre-hash function that is not of SHA-2.
  12 UnknownSet      a parameter set that is not of SHA-2.
  21 NotJson         a file that was cut off.
  23 Missing, 24 Bad a member, which is named with its tgId and tcId.
"""


def _acvp_answer(given: list[str]) -> tuple[int, bytes]:
    if given in (["--help"], ["-h"]):
        return 0, _ACVP_HELP.encode()
    if len(given) != 1 or given[0].startswith("-"):
        raise _Stop(31)
    return 0, _acvp.response(_message(given[0]))


_SELF_TEST = "Tests parameter sets by known answers"
_SELF_TEST_HELP = f"""{_SELF_TEST}

Usage: python -m slh self-test [SET..]

SET is SLH-DSA-SHA2-128s, -128f, -192s, -192f, -256s or -256f; without one all are
tested. For each the library makes a known key, signs a known message, compares with
the answers of OpenSSL, and verifies. Other keys and messages are not tested.
Usual refusals:
  12 UnknownSet      a short name: 128f is SLH-DSA-SHA2-128f.
  40 SelfTestFailed  an answer is not the known one. The set is named.
"""


def _self_test_answer(given: list[str]) -> tuple[int, bytes]:
    if given in (["--help"], ["-h"]):
        return 0, _SELF_TEST_HELP.encode()
    if any(it.startswith("-") for it in given):
        raise _Stop(31)
    for it in [_set_named(name) for name in given] or list(slh.Set):
        try:
            slh.self_test(it)
        except slh.SelfTestFailed:
            raise _acvp.Stop(40, it.label, "SelfTestFailed") from None
    return 0, b"passed\n"


def _answer(given: list[str]) -> tuple[int, bytes | bytearray]:
    """The status of a command, and what it writes."""
    if given == ["help"] or (given and (given[0] == "--help" or given[0].startswith("-h"))):
        about = {**{name: it.about for name, it in _COMMANDS.items()}, "acvp": _ACVP, "self-test": _SELF_TEST}
        rows = "".join(f"  {name:<11}{it}\n" for name, it in about.items())
        return 0, f"slh {slh.__version__} for Python\n\nUsage: python -m slh COMMAND\n\nCommands:\n{rows}".encode()
    if given and (given[0] == "--version" or given[0].startswith("-V")):
        return 0, f"slh {slh.__version__}\n".encode()
    name, *options = given or [""]
    if name == "help" and len(options) == 1:
        name, options = options[0], ["--help"]
    if name == "acvp":
        return _acvp_answer(options)
    if name == "self-test":
        return _self_test_answer(options)
    if name not in _COMMANDS:
        raise _Stop(31)
    command = _COMMANDS[name]
    try:
        words = _parsed(command, options)
    except _Help:
        return 0, help_text(name, command).encode()
    return command.run(words)


def _write(text: bytes | bytearray) -> None:
    """Writes to standard output, which may be closed. No buffer keeps a copy. What the caller has to clear is cleared."""
    left = memoryview(text)
    try:
        while left:
            left = left[os.write(1, left) :]
    finally:
        if isinstance(text, bytearray):
            text[:] = bytes(len(text))


def main(given: list[str]) -> int:
    """Runs a command. Returns its status."""
    number, name = 0, ""
    try:
        for it in given:
            os.fsencode(it).decode("utf-8")
        status, text = _answer(given)
    except UnicodeDecodeError:
        number = 31
    except _Stop as stop:
        number = stop.args[0]
    except _acvp.Stop as stop:
        number, name = stop.args
    except slh.Refusal as refusal:
        number, name = refusal.number, refusal.name
    except slh.Fault:
        number = 38
    except MemoryError:
        number = 1
    except OSError:
        number = 32
    else:
        try:
            _write(text)
            return status
        except OSError:
            number = 33
    with contextlib.suppress(OSError):
        os.write(2, f"slh: {number} {name or _NAMES[number]}\n".encode())
    return 2


if __name__ == "__main__":
    sys.exit(main(sys.argv[1:]))
