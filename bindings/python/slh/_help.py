"""The help texts of `python -m slh`: those of the program, but for `--once`."""

from __future__ import annotations

import types
import typing

REFUSALS = "Refusals: man slh, docs/FORMATS.md"
_USUAL = {
    4: "BadCutting     levels above the height of the set's trees.",
    11: "NotAKeyFile   {}.",
    12: "UnknownSet    a short name: 128f is SLH-DSA-SHA2-128f.",
    32: "ReadFailed    a wrong name, or no right to read.",
    34: "BadSeeds      the seeds of another set, or raw bytes.",
    35: "BadOption     a randomizer of another set's length, a context of no digits.",
}
_NO_SECRET_KEY = "a public key, a PEM file, raw bytes, carriage returns"
_SET = "The parameter set: SLH-DSA-SHA2-128s, -128f, -192s,\n-192f, -256s or -256f"
_LEVELS = "Cuts each {} tree into 2^N ranges for the workers,\nN 0 to 8 [default: 0]"
_CUTS = "Judges these leaves as cuts of each {} tree, as\n2,4,6: at most 255 rising numbers"
#: The options: the word for a value, or none, and the help.
OPTIONS: dict[str, tuple[str, str]] = {
    "set": ("NAME", _SET),
    "key": ("FILE", "A {} key file"),
    "message": ("FILE", "The message, any bytes"),
    "signature": ("FILE", "The raw signature"),
    "random": ("HEX", "The randomizer, 2n hexadecimal digits: 32 for a 128\nset, 48 for a 192 set, 64 for a 256 set\n"
                      "[default: deterministic signing]"),
    "twice": ("", "Signs twice and compares: 38 Fault if a byte differs\n[default]"),
    "once": ("", "Signs once, in half the time: hardware faults are not found"),
    "context": ("HEX", "The context, at most 255 bytes in hexadecimal digits\n[default: empty]"),
    "prehash": ("NAME", "The pre-hash form with SHA2-224, SHA2-256, SHA2-384,\nSHA2-512, SHA2-512/224 or SHA2-512/256\n"
                        "[default: the pure form]"),
    "workers": ("N", "The number of workers, 1 to 64 [default: 1]"),
    "xmss-levels": ("N", _LEVELS.format("XMSS")),
    "fors-levels": ("N", _LEVELS.format("FORS")),
    "xmss-cuts": ("LIST", _CUTS.format("XMSS")),
    "fors-cuts": ("LIST", _CUTS.format("FORS")),
}


def usual(*numbers: int, no_key: str = _NO_SECRET_KEY) -> str:
    """The lines of a command's usual refusals, and where all are."""
    return "\n".join(["Usual refusals:", *(f"  {it} {_USUAL[it].format(no_key)}" for it in numbers), REFUSALS])


class Command(typing.NamedTuple):
    """A command: the options that it needs, those that it takes, the kind of its key, and what runs it."""

    about: str
    needs: list[str]
    takes: list[str]
    kind: str
    after: str
    run: typing.Callable[[types.SimpleNamespace], tuple[int, bytes | bytearray]]


def help_text(name: str, command: Command) -> str:
    needed = "".join(f" --{it} <{OPTIONS[it][0]}>" for it in command.needs)
    lines = [command.about, "", f"Usage: slh {name}{' [OPTIONS]' * bool(command.takes)}{needed}", "", "Options:"]
    listed = [*command.needs, *command.takes]
    heads = [f"      --{it} <{OPTIONS[it][0]}>".replace(" <>", "") for it in listed] + ["  -h, --help"]
    texts = [OPTIONS[it][1].format(command.kind) for it in listed] + ["Print help"]
    width = max(map(len, heads)) + 2
    lines += [f"{head:<{width}}" + text.replace("\n", "\n" + " " * width) for head, text in zip(heads, texts)]
    return "\n".join([*lines, "", command.after, ""])
