"""Tests the calls for key files, slh_key_read and slh_key_write, of the installed shared object, as an enemy calls
them. Files are judged by a reader that is written here from docs/FORMATS.md, and some by the program `slh`.
"""
import ctypes
import itertools
import mmap
import os
import re

import pytest

SETS = [f"SLH-DSA-SHA2-{it}" for it in ("128s", "128f", "192s", "192f", "256s", "256f")]
N = dict(zip(SETS, (16, 16, 24, 24, 32, 32)))
RECORDS = ["16,4,9,7,12,14", "16,4,3,22,6,33", "24,4,9,7,14,17", "24,4,3,22,8,33", "32,4,8,8,14,22", "32,4,4,17,9,35"]
KINDS = {"public": 1, "secret": 2}
DONE, BAD_LENGTH, NO_SUCH_SET, BAD_OUTPUT_LENGTH, INVALID, NO_SUCH_KIND = 0, 3, 8, 18, 30, 41
NOT_A_KEY_FILE, UNKNOWN_SET, BAD_HEX, BAD_KEY_LENGTH, TRAILING_BYTES = 11, 12, 13, 14, 15
NAMES = {11: b"NotAKeyFile", 12: b"UnknownSet", 13: b"BadHex", 14: b"BadKeyLength", 15: b"TrailingBytes",
         41: b"NoSuchKind"}
ROOM, TEXT_ROOM = 128, 293
PAINT = 0xA5
CUSTOM = "custom:16,4,3,22,6,34"
BY_SET = pytest.mark.parametrize("name", SETS)
BY_KIND = pytest.mark.parametrize("kind", KINDS)


@pytest.fixture(scope="module")
def library(lib):
    return ctypes.CDLL(str(lib / "libslh.so"))


def key_of(name, kind):
    """Bytes of a key, of which each nibble occurs."""
    length = N[name] * 2 * KINDS[kind]
    return bytes((17 * i + 3 * len(kind)) % 256 for i in range(length))


def text_of(name, kind, key, version=2):
    return f"slh-dsa-{kind} {version}\n{name}\n{key.hex()}\n".encode()


# ---- the files, by docs/FORMATS.md


def n_of(label, version):
    """n of the set that a label names, if a file of this version can have it."""
    if label in N:
        return N[label]
    numbers = re.fullmatch("custom:" + ",".join(["(0|[1-9][0-9]{0,9})"] * 6), label)
    if version == "1" or not numbers or label.removeprefix("custom:") in RECORDS:
        return None
    n, lg_w, hp, d, a, k = map(int, numbers.groups())
    is_valid = (n in (16, 24, 32) and lg_w in (2, 4, 8) and 1 <= hp <= 12 and d >= 1 and hp * (d - 1) <= 64
                and 1 <= a <= 14 and 1 <= k <= 64)
    return n if is_valid else None


def judged(file):
    """The number of the first fault, or else the label of the set, the kind and the key."""
    first, first_feed, behind = file.partition(b"\n")
    second, second_feed, behind = behind.partition(b"\n")
    digits, feed, rest = behind.partition(b"\n")
    of_first = re.fullmatch(rb"slh-dsa-(public|secret) ([12])", first)
    if not of_first or not first_feed:
        return NOT_A_KEY_FILE
    kind, version, label = of_first[1].decode(), of_first[2].decode(), second.decode("latin-1")
    n = n_of(label, version)
    if n is None or not second_feed:
        return UNKNOWN_SET
    if not re.fullmatch(rb"[0-9A-Fa-f]*", digits):
        return BAD_HEX
    if len(digits) != 4 * n * KINDS[kind]:
        return BAD_KEY_LENGTH
    return TRAILING_BYTES if rest else (label, kind, bytes.fromhex(digits.decode()))


def expected(file):
    """What reading gives: a refusal, or else the numbers of the set and the kind, and the key. No number is that of a
    set of another record."""
    found = judged(file)
    if isinstance(found, int):
        return found
    label, kind, key = found
    return (SETS.index(label) + 1, KINDS[kind], key) if label in SETS else UNKNOWN_SET


# ---- the calls


def read(library, file, room=ROOM):
    """The result, and the outputs, which begin with other values. No byte behind them is written."""
    number, kind = ctypes.c_uint32(77), ctypes.c_uint32(77)
    key = (ctypes.c_uint8 * (room + 64))(*[PAINT] * (room + 64))
    result = library.slh_key_read(file, ctypes.c_size_t(len(file)), ctypes.byref(number), ctypes.byref(kind), key,
                                  ctypes.c_size_t(room))
    assert bytes(key)[room:] == bytes([PAINT] * 64)
    return result, (number.value, kind.value, bytes(key)[:room])


def is_read_as_expected(library, file):
    wanted = expected(file)
    if isinstance(wanted, int):
        return read(library, file) == (wanted, (77, 77, bytes([PAINT] * ROOM)))
    number, kind, key = wanted
    return read(library, file) == (DONE, (number, kind, key + bytes(ROOM - len(key))))


def written(library, number, kind, key, room=TEXT_ROOM):
    text = (ctypes.c_char * (room + 64))(*[bytes([PAINT])] * (room + 64))
    result = library.slh_key_write(ctypes.c_uint32(number), ctypes.c_uint32(kind), key, ctypes.c_size_t(len(key)), text,
                                   ctypes.c_size_t(room))
    assert text.raw[room:] == bytes([PAINT] * 64)
    return result, text.raw[:room]


# ---- files that are read


@BY_SET
@BY_KIND
def test_key_file_is_written_and_read(library, name, kind):
    key = key_of(name, kind)
    file = text_of(name, kind, key)
    assert written(library, SETS.index(name) + 1, KINDS[kind], key) == (DONE, file + bytes(TEXT_ROOM - len(file)))
    upper = file[:35] + file[35:].upper()
    mixed = file[:35] + file[35:].replace(b"a", b"A")
    for it in (file, file[:-1], text_of(name, kind, key, 1), text_of(name, kind, key, 1)[:-1], upper, mixed):
        assert isinstance(expected(it), tuple) and is_read_as_expected(library, it)


@BY_SET
@BY_KIND
def test_file_with_another_byte_is_judged_as_formats_says(library, name, kind):
    """At each place another byte, one byte more, and the end."""
    file = text_of(name, kind, key_of(name, kind))
    more = (b"\0", b"\n", b"\r", b" ", b"/", b":", b"@", b"G", b"`", b"g", b"0", b"f", b"F", b"1", b"2", b"\xff")
    for at in range(len(file) + 1):
        for byte in more:
            for it in (file[:at] + byte + file[at + 1:], file[:at] + byte + file[at:]):
                assert is_read_as_expected(library, it), it
        assert is_read_as_expected(library, file[:at]), at


@BY_KIND
def test_first_of_several_faults_is_told(library, kind):
    """Each first line with each second and third line and each end."""
    firsts = [f"slh-dsa-{kind} {it}" for it in ("1\n", "2\n", "3\n", "2")] + [f"SLH-DSA-{kind} 2\n"]
    labels = [SETS[0], SETS[5], SETS[1].lower(), "128f", "SLH-DSA-SHAKE-128s", "", "custom", "custom:", f" {SETS[0]}",
              f"{SETS[0]} ", f"{SETS[0]}\0", CUSTOM, f"{CUSTOM} ", f"{CUSTOM},1", CUSTOM.replace("34", "034"),
              CUSTOM.replace("34", "65"), CUSTOM.upper(), "custom:32,4,8,8,14,21", *(f"custom:{it}" for it in RECORDS)]
    count = {32: 64, 64: 128, 128: 256}
    thirds = ["", "0", "g" * 64, "0" * 65, "0" * 512, "0" * 513, *("aF" * it for it in count)]
    ends = ["", "\n", "\n\n", "\r\n", "\n\0", "\n0"]
    for first, label, third, end in itertools.product(firsts, labels, thirds, ends):
        file = f"{first}{label}\n{third}{end}".encode()
        assert is_read_as_expected(library, file), file


A_FILE = text_of(SETS[0], "public", bytes(32))
OTHERS = {
    "empty": b"", "one line feed": b"\n", "three line feeds": b"\n" * 3, "digits alone": b"0" * 100_000,
    "line feeds": b"\n" * 100_000, "one line and digits": A_FILE[:17] + b"0" * 100_000,
    "too many digits": A_FILE[:-1] + b"0" * 100_000, "a fourth line": A_FILE + b"0" * 100_000,
    "carriage returns": A_FILE.replace(b"\n", b"\r\n"), "a mark of byte order": b"\xef\xbb\xbf" + A_FILE,
    "two files": A_FILE * 2, "a zero byte behind": A_FILE + b"\0", "two first lines": A_FILE[:17] + A_FILE,
    "a public key as a secret one": A_FILE.replace(b"public", b"secret"),
}


@pytest.mark.parametrize("name", OTHERS)
def test_other_file_is_refused(library, name):
    file = OTHERS[name]
    assert isinstance(expected(file), int) and is_read_as_expected(library, file)


@BY_SET
@BY_KIND
def test_key_of_another_set_or_kind(library, name, kind):
    """Its digits are those of this set only if they are as many."""
    for other, other_kind in itertools.product(SETS, KINDS):
        file = text_of(name, kind, key_of(other, other_kind))
        assert is_read_as_expected(library, file)
        is_read = N[name] * KINDS[kind] == N[other] * KINDS[other_kind]
        assert read(library, file)[0] == (DONE if is_read else BAD_KEY_LENGTH)


def test_set_without_a_number_is_refused_behind_the_faults_of_the_file(library):
    front = f"slh-dsa-public 2\n{CUSTOM}\n".encode()
    for rest, refusal in ((b"0" * 64, UNKNOWN_SET), (b"0" * 64 + b"\n", UNKNOWN_SET), (b"g" * 64, BAD_HEX),
                          (b"0" * 63, BAD_KEY_LENGTH), (b"0" * 64 + b"\n\n", TRAILING_BYTES)):
        for room in (0, ROOM):
            assert read(library, front + rest, room) == (refusal, (77, 77, bytes([PAINT] * room)))


def test_root_is_not_checked_by_reading(library):
    """slh_check finds a secret key whose PK.root is another one."""
    name, seeds, n = SETS[1], bytes(range(48)), N[SETS[1]]
    made = (ctypes.c_uint8 * (4 * n))()
    parts = [word for it in range(3) for word in (seeds[n * it:n * (it + 1)], ctypes.c_size_t(n))]
    assert library.slh_keygen(2, *parts, made, ctypes.c_size_t(4 * n)) == DONE
    for root, result in ((0, DONE), (1, INVALID)):
        key = bytes(made)[:-1] + bytes([made[-1] ^ root])
        _, (number, kind, found) = read(library, text_of(name, "secret", key), 4 * n)
        assert (number, kind, found) == (2, KINDS["secret"], key)
        assert library.slh_check(2, found, ctypes.c_size_t(4 * n)) == result


def test_public_key_with_zeros_behind_it_is_no_secret_key(library):
    """It is as long as one. Its kind tells it, and slh_check finds it."""
    _, (number, kind, found) = read(library, text_of(SETS[1], "public", key_of(SETS[1], "public")), 64)
    assert (number, kind, found) == (2, KINDS["public"], key_of(SETS[1], "public") + bytes(32))
    assert library.slh_check(2, found, ctypes.c_size_t(64)) == INVALID


# ---- room and lengths


@BY_SET
@BY_KIND
def test_room_for_the_key(library, name, kind):
    key = key_of(name, kind)
    file = text_of(name, kind, key)
    for room in (0, 1, len(key) - 1):
        assert read(library, file, room) == (BAD_OUTPUT_LENGTH, (77, 77, bytes([PAINT] * room)))
    for room in (len(key), len(key) + 1):
        assert read(library, file, room) == (DONE, (SETS.index(name) + 1, KINDS[kind], key + bytes(room - len(key))))


@BY_SET
@BY_KIND
def test_room_for_the_text(library, name, kind):
    key, number = key_of(name, kind), SETS.index(name) + 1
    file = text_of(name, kind, key)
    for room in (0, 1, len(file) - 1, len(file)):
        assert written(library, number, KINDS[kind], key, room) == (BAD_OUTPUT_LENGTH, bytes([PAINT] * room))
    for room in (len(file) + 1, len(file) + 2):
        assert written(library, number, KINDS[kind], key, room) == (DONE, file + bytes(room - len(file)))


def test_first_refusal_of_writing(library):
    """Numbers that are right but for bits above the lowest 8 are others, too."""
    sets, kinds = [1, 3, 6, 0, 7, 257, 2**31 + 1, 2**32 - 1], [1, 2, 0, 3, 257, 258, 2**32 - 1]
    lengths, rooms = [0, 31, 32, 48, 64, 65, 96, 128, 129], [0, 100, 164, 165, TEXT_ROOM - 1, TEXT_ROOM]
    for number, kind, length, room in itertools.product(sets, kinds, lengths, rooms):
        n = N[SETS[number - 1]] if 1 <= number <= 6 else None
        wanted = (NO_SUCH_SET if n is None else NO_SUCH_KIND if kind not in (1, 2)
                  else BAD_LENGTH if length != 2 * n * kind else BAD_OUTPUT_LENGTH if room < 37 + 2 * length else DONE)
        result, text = written(library, number, kind, bytes(length), room)
        assert result == wanted and (result == DONE or text == bytes([PAINT] * room))


def test_null_with_the_length_0(library):
    none, number, kind = ctypes.c_size_t(0), ctypes.c_uint32(77), ctypes.c_uint32(77)
    key, text = bytes(32), text_of(SETS[0], "public", bytes(32))
    both = ctypes.byref(number), ctypes.byref(kind)
    assert library.slh_key_read(None, none, *both, None, none) == NOT_A_KEY_FILE
    assert library.slh_key_read(text, ctypes.c_size_t(len(text)), *both, None, none) == BAD_OUTPUT_LENGTH
    assert library.slh_key_write(1, 1, None, none, None, none) == BAD_LENGTH
    assert library.slh_key_write(1, 1, key, ctypes.c_size_t(32), None, none) == BAD_OUTPUT_LENGTH
    assert (number.value, kind.value) == (77, 77)


def test_lengths_are_not_cut_to_32_bits(library):
    """The bytes of a right file or key, and 2^32 zeros."""
    file, key = text_of(SETS[0], "secret", key_of(SETS[0], "secret")), key_of(SETS[0], "secret")
    number, out = ctypes.c_uint32(77), (ctypes.c_uint8 * TEXT_ROOM)(*[PAINT] * TEXT_ROOM)
    try:
        pages = mmap.mmap(-1, 2**32 + mmap.PAGESIZE, mmap.MAP_PRIVATE | mmap.MAP_ANONYMOUS)
    except OSError:
        pytest.skip("the system gives no 2^32 bytes of addresses")
    with pages:
        for it, call, wanted in (
                (file, lambda at, length: library.slh_key_read(at, length, ctypes.byref(number), ctypes.byref(number),
                                                               out, ctypes.c_size_t(TEXT_ROOM)), TRAILING_BYTES),
                (key, lambda at, length: library.slh_key_write(1, 2, at, length, out, ctypes.c_size_t(TEXT_ROOM)),
                 BAD_LENGTH)):
            pages[:len(it)] = it
            at = (ctypes.c_uint8 * len(it)).from_buffer(pages)
            assert call(at, ctypes.c_size_t(2**32 + len(it))) == wanted
            del at
    assert number.value == 77 and bytes(out) == bytes([PAINT] * TEXT_ROOM)


def test_no_byte_behind_the_arguments_is_touched(library):
    """Each argument ends where the memory does. A child tries it, which a signal would end."""
    child = os.fork()
    if child == 0:
        os._exit(0 if is_within_pages(library) else 1)
    assert os.waitpid(child, 0)[1] == 0


def at_the_end(length):
    """The place of so many bytes before a page that can't be read."""
    libc, size = ctypes.CDLL(None, use_errno=True), mmap.PAGESIZE
    pages = mmap.mmap(-1, 2 * size)
    at = ctypes.addressof(ctypes.c_uint8.from_buffer(pages))
    if libc.mprotect(ctypes.c_void_p(at + size), ctypes.c_size_t(size), 0) != 0:
        raise OSError(ctypes.get_errno(), "mprotect")
    return pages, at + size - length


def is_within_pages(library):
    key = key_of(SETS[5], "secret")
    file = text_of(SETS[5], "secret", key)
    number, kind = ctypes.c_uint32(), ctypes.c_uint32()
    in_pages, _ = at_the_end(0)
    out_pages, _ = at_the_end(0)
    last = mmap.PAGESIZE
    well = True
    for cut in range(len(file) + 1):
        in_pages[last - cut:last] = file[:cut]
        at, out = (ctypes.addressof(ctypes.c_uint8.from_buffer(it)) + last for it in (in_pages, out_pages))
        result = library.slh_key_read(ctypes.c_void_p(at - cut), ctypes.c_size_t(cut), ctypes.byref(number),
                                      ctypes.byref(kind), ctypes.c_void_p(out - len(key)), ctypes.c_size_t(len(key)))
        wanted = expected(file[:cut])
        well = well and result == (wanted if isinstance(wanted, int) else DONE)
    well = well and out_pages[last - len(key):last] == key
    in_pages[last - len(key):last] = key
    result = library.slh_key_write(6, 2, ctypes.c_void_p(at - len(key)), ctypes.c_size_t(len(key)),
                                   ctypes.c_void_p(out - TEXT_ROOM), ctypes.c_size_t(TEXT_ROOM))
    return well and result == DONE and out_pages[last - TEXT_ROOM:last] == file + b"\0"


# ---- the program, and the refusals


def by_program(slh, path):
    """What the program says of a key file: the number of its refusal, or the file that it writes."""
    outcome = slh("upgrade", "--key", path)
    if outcome.status == 0:
        return outcome.output
    return int(re.match(rb"slh: (\d+) ", outcome.errors)[1])


def test_program_reads_the_same_files(library, slh, tmp_path):
    """But for a set of another record, whose file only the program takes."""
    key = key_of(SETS[0], "public")
    file = text_of(SETS[0], "public", key)
    version_1, custom = text_of(SETS[0], "public", key, 1), text_of(CUSTOM, "public", key)
    cut = [file[:it] for it in (0, 16, 17, 34, 35, 98, 99)]
    changed = [file[:it] + byte + file[it:] for it in (0, 17, 35, 99, 100) for byte in (b"\r", b"\n", b"0", b"\0")]
    path = tmp_path / "key"
    for it in (file, version_1, custom, custom[:-2], *cut, *changed, file.upper(), file[:35] + file[35:].upper()):
        path.write_bytes(it)
        found, (result, (number, kind, read_key)) = by_program(slh, path), read(library, it, len(key))
        assert found == (judged(it) if isinstance(judged(it), int) else text_of(judged(it)[0], "public", judged(it)[2]))
        if judged(it) == (CUSTOM, "public", key):
            assert result == UNKNOWN_SET
        elif isinstance(found, int):
            assert result == found
        else:
            assert result == DONE and written(library, number, kind, read_key, len(found) + 1) == (DONE, found + b"\0")


@pytest.mark.parametrize("number", NAMES)
def test_refusal_has_its_name(library, number):
    name = ctypes.create_string_buffer(64)
    assert library.slh_refusal_name(number, name, ctypes.c_size_t(64)) == DONE and name.value == NAMES[number]
