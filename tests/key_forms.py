"""Files of keys in DER and PEM, with bytes changed, added and removed: what each is, by the prefixes of
examples/README.md and Python's base64. `check_key_forms` has a package judge a draw of them."""
import base64
import os
import random
import re

from support import HERE, run

# The DER before the 4n bytes of a private key and before the 2n bytes of a public key.
ROW = re.compile(r"^\| ([0-9]+[sf]) \| `([0-9a-f]+)` \| `([0-9a-f]+)` \|$", re.M)
PAGE = (HERE / "examples/README.md").read_text()
PREFIXES = {name: (bytes.fromhex(private), bytes.fromhex(public)) for name, private, public in ROW.findall(PAGE)}
KINDS = {"secret": (b"PRIVATE KEY", 4), "public": (b"PUBLIC KEY", 2)}
FORMS = ["der", "pem"]
# What a byte is changed to, and what is put before it.
BYTES = b"\0\t\n\r +-/09=@AGZ[az{\x7f\x80\xff"
ADDED = b"\0\n\r =A"
DRAWN = 1000


def first_line(label):
    return b"-----BEGIN " + label + b"-----\n"


def last_line(label):
    return b"-----END " + label + b"-----\n"


def wrapped(der, label, width=64):
    """PEM of these bytes, in lines of so many characters."""
    text = base64.b64encode(der)
    lines = [text[at:at + width] + b"\n" for at in range(0, len(text), width)]
    return first_line(label) + b"".join(lines) + last_line(label)


def keys():
    """The DER of a key of each set and kind, with the label of its PEM."""
    for name, prefixes in PREFIXES.items():
        for prefix, (label, count) in zip(prefixes, KINDS.values()):
            yield prefix + bytes((37 * it + 11) % 256 for it in range(count * int(name[:-1]) // 8)), label


def whole_files():
    """The form and the bytes of the twenty-four files, and of others that are changed as a whole."""
    for der, label in keys():
        pem = wrapped(der, label)
        yield from (("der", it) for it in (der, der * 2, der[::-1], pem, base64.b64encode(der), b""))
        yield "der", bytes([0x30, 0x80]) + der[2:] + bytes(2)
        yield from (("pem", it) for it in other_texts(der, pem, label))


def other_texts(der, pem, label):
    """PEM of the same bytes, as other programs write it, and with other text."""
    yield from (pem, pem[:-1], pem[:-2], pem + b"\n", pem * 2, b"\n" + pem, b"key:\n" + pem, pem + b"key\n", der, b"")
    yield from (pem.replace(b"\n", it) for it in (b"\r\n", b"\r", b" \n", b"\n\n", b""))
    yield from (pem.replace(label, it) for it in (b"PUBLIC KEY", b"PRIVATE KEY", b"ENCRYPTED PRIVATE KEY", b"KEY", b"",
                                                  label.lower()))
    yield from (wrapped(der, label, width) for width in (4, 60, 63, 65, 76, 1000))
    yield from (wrapped(it, label) for it in (der[:-1], der + b"\0", b"\0" + der, der[1:]))
    yield from (pem.lower(), pem.replace(b"-", b"="), pem.replace(b"-----", b"----"), b"\xef\xbb\xbf" + pem)
    yield from (pem.replace(b"=", it) for it in (b"", b"A", b"=="))


def changed(file):
    """The file with each byte changed, removed, and with one before it; and its beginnings."""
    for at, byte in enumerate(file):
        for other in {*BYTES, byte ^ 1, byte ^ 2, byte ^ 0x20, byte ^ 0x80} - {byte}:
            yield file[:at] + bytes([other]) + file[at + 1:]
        yield from (file[:at], file[:at] + file[at + 1:])
        yield from (file[:at] + bytes([it]) + file[at:] for it in ADDED)


def changed_files():
    """The form and the bytes of all files with one place changed: some 90,000."""
    for der, label in keys():
        yield from (("der", it) for it in changed(der))
        yield from (("pem", it) for it in changed(wrapped(der, label)))


def drawn_files():
    """All files that are changed as a whole, and a draw of the others by SLH_SEED."""
    seed = os.environ["SLH_SEED"]
    others = list(changed_files())
    return [*whole_files(), *(others if seed == "all" else random.Random(f"{seed} forms").sample(others, DRAWN))]


# ---- what a file is


def der_of(text, label):
    """The bytes of PEM with this label, whose last line feed may be missing."""
    body = text.removeprefix(first_line(label)).removesuffix(b"\n").removesuffix(last_line(label)[:-1])
    try:
        der = base64.b64decode(body)
    except ValueError:
        return None
    return der if wrapped(der, label) in (text, text + b"\n") else None


def judged(form, kind, file):
    """The set and the DER of a key of this kind, or none."""
    label, count = KINDS[kind]
    der = file if form == "der" else der_of(file, label)
    for name, prefixes in PREFIXES.items():
        prefix = prefixes[[*KINDS].index(kind)]
        if der and der.startswith(prefix) and len(der) == len(prefix) + count * int(name[:-1]) // 8:
            return name, der
    return None


def verdict(form, kind, file):
    """The number of the set, and the file as it is written again; or the number of NotAKeyFile."""
    found = judged(form, kind, file)
    if found is None:
        return "11"
    name, der = found
    again = der if form == "der" else wrapped(der, KINDS[kind][0])
    return f"{[*PREFIXES].index(name) + 1} {again.hex()}"


def check_key_forms(*command, env=None):
    """Compares what a program of bindings/tests says of the drawn files, as keys of each kind. Each line that it reads
    has a kind, a form, and a file as digits. It writes what `verdict` gives."""
    cases = [(form, kind, file) for form, file in drawn_files() for kind in KINDS]
    given = "".join(f"{kind} {form} {file.hex()}\n" for form, kind, file in cases)
    outcome = run(*command, stdin=given.encode(), env=env, timeout=1800)
    assert outcome.status == 0, outcome.errors.decode(errors="replace")[-3000:]
    said = outcome.output.decode().splitlines()
    assert len(said) == len(cases)
    for case, line in zip(cases, said):
        assert line == verdict(*case), case
    assert len({it for it in said if it != "11"}) > 24
