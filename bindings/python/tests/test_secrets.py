"""Tests that the installed package does not print, copy or keep a secret key where a caller did not ask for its bytes.

The tables below have the ways of printing and serialising, and the objects that may hold a key. Each output is searched
for 8 bytes in a row of SK.seed or SK.prf.
"""

from __future__ import annotations

import array
import base64
import binascii
import codecs
import collections
import concurrent.futures
import contextlib
import copy
import csv
import ctypes
import dataclasses
import functools
import hashlib
import inspect
import io
import itertools
import json
import logging
import marshal
import multiprocessing.reduction
import operator
import os
import pathlib
import pickle
import plistlib
import pprint
import pydoc
import re
import reprlib
import shelve
import sqlite3
import string
import struct
import sys
import tempfile
import threading
import traceback
import types
import typing
import unittest
import unittest.mock
import urllib.parse
import warnings
import xmlrpc.client

import slh
import slh.jobs

with warnings.catch_warnings():
    warnings.simplefilter("ignore", DeprecationWarning)
    try:
        import cgitb
    except ImportError:  # Python 3.13 and later
        cgitb = None

REPOSITORY = pathlib.Path(__file__).resolve().parents[3]
FAST = slh.Set.SLH_DSA_SHA2_128F
PACKAGE = str(pathlib.Path(slh.__file__).parent)


def a_secret_key() -> bytes:
    """The bytes of a secret key that another implementation made, of seeds that look random."""
    tests = json.loads((REPOSITORY / "tests/vectors" / "slh-dsa-sha2-128f.json").read_text())
    found = (bytes.fromhex(it["sk"]) for it in tests if it["kind"] == "sign")
    return next(it for it in found if len({one - other for one, other in zip(it[:32], it[1:32])}) > 28)


class Search:
    """Finds 8 bytes in a row of a secret in an output, in the forms that tools write bytes in."""

    def __init__(self, secret: bytes) -> None:
        self.raw = [secret[at : at + 8] for at in range(len(secret) - 7)]
        self.hex = [it.hex().encode() for it in self.raw]
        # The digits of base64 that are of these bytes alone, where they begin at each place of three.
        places = [(at, (8 * at + 5) // 6, (8 * at + 64) // 6) for at in range(3)]
        self.base64 = [base64.b64encode(bytes(at) + it)[begin:end] for it in self.raw for at, begin, end in places]

    def finds(self, output: str | bytes) -> bool:
        data = output if isinstance(output, bytes) else output.encode("utf-8", "surrogatepass")
        return any(wanted in form for wanteds, form in self.forms(data) for wanted in wanteds)

    def forms(self, data: bytes) -> typing.Iterator[tuple[list[bytes], bytes]]:
        padded = re.sub(rb"0x([0-9a-f])(?![0-9a-f])", rb"0\1", data.lower())
        yield self.hex, re.sub(rb"0x|\\+x|\\+u00|[^0-9a-f]", b"", padded)
        dense = re.sub(rb"\\+[rn]|\s", b"", data).replace(b"-", b"+").replace(b"_", b"/")
        yield self.base64, dense
        yield self.raw, self.numbers(data)
        for plain in self.unescaped(data):
            yield self.raw, plain
            yield self.raw, plain.decode("utf-8", "ignore").encode("latin-1", "ignore")

    def unescaped(self, data: bytes) -> typing.Iterator[bytes]:
        """What is left when escapes are undone, up to three times, since a text may be quoted in another."""
        for _ in range(4):
            yield data
            with warnings.catch_warnings():
                warnings.simplefilter("ignore")
                data = codecs.escape_decode(re.sub(rb"\\u00([0-9a-fA-F]{2})", rb"\\x\1", data), "ignore")[0]

    def numbers(self, data: bytes) -> bytes:
        """The bytes that decimal numbers in a row stand for, and those of long ones."""
        found = [int(it) for it in re.findall(rb"-?\d{1,200}", data)]
        short = b"".join(bytes([it % 256]) if -128 <= it < 256 else b" " * 9 for it in found)
        long = b"".join(abs(it).to_bytes(90, order) for it in found if it > 1 << 56 for order in ("big", "little"))
        return short + b" " * 9 + long


class Plain:
    def __init__(self, key) -> None:
        self.key, self._hidden, self.__private = key, [key], {"key": key}


class Slots:
    __slots__ = ("key",)

    def __init__(self, key) -> None:
        self.key = key


@dataclasses.dataclass
class Data:
    name: str
    key: object


class Named(typing.NamedTuple):
    key: object


class Failure(Exception):
    pass


def generator_of(key):
    yield key
    yield key


def begun(key):
    """A generator that has the key among its locals."""
    made = generator_of(key)
    next(made)
    return made


def with_attribute(key) -> Exception:
    error = Failure("failed", key)
    error.key = key
    return error


def local_of(key) -> threading.local:
    made = threading.local()
    made.key = key
    return made


#: Objects that hold a key, which `pickle` takes if it takes the key.
HOLDERS = {
    "itself": lambda key: key,
    "a list": lambda key: [key],
    "a tuple": lambda key: (1, key),
    "a dict": lambda key: {"key": key},
    "a deque": lambda key: collections.deque([key]),
    "an object": Plain,
    "slots": Slots,
    "a dataclass": lambda key: Data("a", key),
    "a named tuple": Named,
    "a namespace": lambda key: types.SimpleNamespace(key=key),
    "an exception": lambda key: Failure("failed", key),
    "an exception's attribute": with_attribute,
    "a user's dict": lambda key: collections.UserDict(key=key),
    "nested": lambda key: {"a": [Data("b", Plain((key,)))]},
}

#: Others.
MORE_HOLDERS = {
    "a closure": lambda key: lambda: key,
    "a default": lambda key: lambda it=key: it,
    "a partial": lambda key: functools.partial(print, key),
    "a method": lambda key: key.verify if isinstance(key, slh.PublicKey) else key.sign,
    "a generator": begun,
    "a chained dict": lambda key: collections.ChainMap({"key": key}),
    "a read-only dict": lambda key: types.MappingProxyType({"key": key}),
    "a local of a thread": local_of,
    "a class": lambda key: type("Holder", (), {"key": key}),
    "a context": lambda key: contextlib.closing(key),
}


def attributes(it) -> dict[str, object]:
    """All that `dir` names and slots have, without a call of a method."""
    found = {}
    for name in dir(it):
        with contextlib.suppress(Exception):
            found[name] = getattr(it, name)
    for cls in type(it).__mro__:
        slots = cls.__dict__.get("__slots__", ())
        for name in (slots,) if isinstance(slots, str) else slots:
            with contextlib.suppress(Exception):
                found[name] = operator.attrgetter(name)(it)
    return found


#: What leads out of an object into its class and its module, or is of the interpreter alone.
NOT_WALKED = {"__class__", "__doc__", "__module__", "__objclass__", "__weakref__", "__abstractmethods__"}
CODE = (types.ModuleType, types.CodeType, types.MethodWrapperType, types.WrapperDescriptorType, types.BuiltinMethodType)
CODE += types.MethodDescriptorType, types.ClassMethodDescriptorType, types.GetSetDescriptorType, types.FrameType


def walked(it, depth: int = 7) -> bytes:
    """All that a tool finds which walks over attributes, items, iterations and buffers."""
    out, seen, left = io.BytesIO(), {}, [(it, depth)]
    while left:
        found, depth = left.pop()
        if id(found) in seen or isinstance(found, CODE):
            continue
        seen[id(found)] = found
        out.write(written(found))
        if depth and not isinstance(found, (str, bytes, bytearray, int, float)):
            left += [(part, depth - 1) for part in parts_of(found)]
    return out.getvalue()


def written(it) -> bytes:
    """An object as text, and as bytes if it has a buffer."""
    out = b""
    with contextlib.suppress(Exception):
        out = repr(it).encode("utf-8", "surrogatepass") + b"\n"
    with contextlib.suppress(Exception):
        out += bytes(memoryview(it)) + b"\n"
    return out


def parts_of(it) -> list[object]:
    """The objects that an object leads to."""
    if isinstance(it, types.FunctionType):
        return [it.__defaults__, it.__kwdefaults__, it.__dict__, *(cell.cell_contents for cell in it.__closure__ or ())]
    if isinstance(it, types.MethodType):
        return [it.__self__, it.__func__]
    if isinstance(it, types.GeneratorType):
        return [dict(it.gi_frame.f_locals)] if it.gi_frame else []
    if isinstance(it, types.TracebackType):
        return [dict(frame.f_locals) for frame, _ in traceback.walk_tb(it)]
    if isinstance(it, type):
        return [part for name, part in vars(it).items() if not name.startswith("__")]
    found = [part for name, part in attributes(it).items() if name not in NOT_WALKED]
    with contextlib.suppress(Exception):
        found += list(it.items())
    with contextlib.suppress(Exception):
        found += list(itertools.islice(iter(it), 1000))
    return found


def printed(write, *arguments, **named) -> str:
    out = io.StringIO()
    with contextlib.redirect_stdout(out), contextlib.redirect_stderr(out):
        write(*arguments, **named)
    return out.getvalue()


def logged(act) -> str:
    """The text that a logger writes, and each attribute of its records."""
    out, records = io.StringIO(), []
    logger = logging.Logger("test")
    logger.addHandler(logging.StreamHandler(out))
    logger.addFilter(lambda record: records.append(record) or True)
    act(logger)
    return out.getvalue() + "".join(f"{vars(it)}{json.dumps(vars(it), default=str)}" for it in records)


def failing(holder):
    inner = [holder, {"holder": holder}]
    raise Failure("it failed", holder, inner)


def failed(holder, act):
    """Acts with an error that was raised in a function that has the object among its locals."""
    try:
        failing(holder)
    except Failure as error:
        return act(error)


def by_traceback(error) -> str:
    return "".join(traceback.TracebackException.from_exception(error, capture_locals=True).format())


def by_cgitb(error) -> str:
    triple = type(error), error, error.__traceback__
    return cgitb.text(triple) + cgitb.html(triple) if cgitb else ""


def by_assertion(holder) -> str:
    case, out = unittest.TestCase(), ""
    with_others = lambda it: case.assertEqual(it, [1]), lambda it: case.assertIn(it, [])
    for check in (case.assertIsNone, case.assertFalse, *with_others):
        try:
            check(holder)
        except AssertionError as error:
            out += str(error)
    return out


def by_csv(holder) -> str:
    out = io.StringIO()
    csv.writer(out).writerow([holder])
    return out.getvalue()


def in_json(default):
    return lambda holder: json.dumps(holder, default=default, skipkeys=True)


#: Ways to print. Each gives an output, or a TypeError.
PRINTING = {
    "repr": repr,
    "str": str,
    "ascii": ascii,
    "format": format,
    "format with x": lambda it: format(it, "x"),
    "f-string": lambda it: f"{it}{it!s}{it!r}{it!a}{it=}",
    "%s": lambda it: "%s" % [it],
    "%r": lambda it: "%r" % [it],
    "%a": lambda it: "%a" % [it],
    "%d": lambda it: "%d" % (it,),
    "%x": lambda it: "%x" % (it,),
    "%c": lambda it: "%c" % (it,),
    "b%s": lambda it: b"%s" % (it,),
    "b%a": lambda it: b"%a" % (it,),
    "str.format": lambda it: "{0} {0!r}".format(it),
    "Template": lambda it: string.Template("$it").substitute(it=it),
    "print": lambda it: printed(print, it),
    "displayhook": lambda it: printed(sys.displayhook, it),
    "help": lambda it: pydoc.plain(pydoc.render_doc(it)),
    "pprint": pprint.pformat,
    "pprint narrow": lambda it: pprint.pformat(it, width=1),
    "reprlib": reprlib.repr,
    "vars": lambda it: str(vars(it)),
    "__dict__": lambda it: str(getattr(it, "__dict__", "")),
    "dir": lambda it: str(attributes(it)),
    "getmembers": lambda it: str(inspect.getmembers(it)),
    "a walk": walked,
    "json": json.dumps,
    "json str": in_json(str),
    "json repr": in_json(repr),
    "json vars": in_json(vars),
    "json list": in_json(list),
    "json bytes": in_json(lambda it: bytes(it).hex()),
    "json attributes": in_json(lambda it: {name: str(value) for name, value in attributes(it).items()}),
    "json walk": in_json(lambda it: walked(it).decode("latin-1")),
    "log %s": lambda it: logged(lambda to: to.error("a %s", it)),
    "log %r": lambda it: logged(lambda to: to.error("a %r %s", it, it)),
    "log message": lambda it: logged(lambda to: to.error(it)),
    "log extra": lambda it: logged(lambda to: to.error("a", extra={"it": it})),
    "log stack": lambda it: logged(lambda to: to.error("a %s", [it], stack_info=True)),
    "log exc_info": lambda it: failed(it, lambda error: logged(lambda to: to.error("a", exc_info=error))),
    "traceback": lambda it: failed(it, lambda error: "".join(traceback.format_exception(type(error), error, None))),
    "traceback locals": lambda it: failed(it, by_traceback),
    "cgitb": lambda it: failed(it, by_cgitb),
    "warning": lambda it: warnings.formatwarning(it, UserWarning, "file", 1, str(it)),
    "assertion": by_assertion,
    "csv": by_csv,
    "urlencode": lambda it: urllib.parse.urlencode({"it": it}) + urllib.parse.quote(str(it)),
    "dataclass repr": lambda it: repr(Data("a", it)),
}


def in_a_database(holder) -> bytes:
    with contextlib.closing(sqlite3.connect(":memory:")) as base:
        return bytes(base.execute("select ?", (holder,)).fetchone()[0])


def in_a_shelf(holder) -> bytes:
    with tempfile.TemporaryDirectory() as folder:
        with shelve.open(os.path.join(folder, "shelf")) as shelf:
            shelf["it"] = holder
        return b"".join(it.read_bytes() for it in pathlib.Path(folder).iterdir())


def through_a_pipe(holder) -> bytes:
    one, other = multiprocessing.Pipe()
    with one, other:
        one.send(holder)
        return other.recv_bytes()


def by_a_pool(holder) -> bytes:
    context = multiprocessing.get_context("spawn")
    with concurrent.futures.ProcessPoolExecutor(1, mp_context=context) as pool:
        return pickle.dumps(pool.submit(copy.copy, holder).result(60))


def pickled(dumps, protocol: int):
    return lambda holder: dumps(holder, protocol)


#: Ways to serialise. Each refuses with a TypeError whatever holds a key.
SERIALISING = {
    "deepcopy": lambda it: walked(copy.deepcopy(it)),
    "asdict": lambda it: walked(dataclasses.asdict(Data("a", it))),
    "astuple": lambda it: walked(dataclasses.astuple(Data("a", it))),
    "between processes": lambda it: bytes(multiprocessing.reduction.ForkingPickler.dumps(it)),
    "through a pipe": through_a_pipe,
    "in a shelf": in_a_shelf,
}
for _number in range(pickle.HIGHEST_PROTOCOL + 1):
    SERIALISING[f"pickle {_number}"] = pickled(pickle.dumps, _number)
    SERIALISING[f"Python's pickle {_number}"] = pickled(pickle._dumps, _number)

#: Ways to have the bytes of an object. Each refuses a key.
READING = {
    "copy": lambda it: walked(copy.copy(it)),
    "reduce": lambda it: repr(it.__reduce__()),
    "reduce by object": lambda it: repr(object.__reduce_ex__(it, 2)),
    "getstate": lambda it: repr(it.__getstate__()),
    "marshal": marshal.dumps,
    "plistlib": plistlib.dumps,
    "xmlrpc": lambda it: xmlrpc.client.dumps((it,)),
    "a database": in_a_database,
    "bytes": bytes,
    "bytearray": bytearray,
    "memoryview": lambda it: bytes(memoryview(it)),
    "list": lambda it: str(list(it)),
    "index": lambda it: str(it[0]),
    "len": lambda it: str(len(it)),
    "int": lambda it: str(int(it)),
    "array": lambda it: array.array("B", it).tobytes(),
    "struct": lambda it: struct.pack("64s", it),
    "join": lambda it: b"".join([it]),
    "base64": base64.b64encode,
    "hexlify": binascii.hexlify,
    "sha256": lambda it: hashlib.sha256(it).digest(),
    "ctypes": lambda it: ctypes.string_at(it, 64),
    "from_buffer": lambda it: bytes((ctypes.c_char * 64).from_buffer(it)),
    "from_buffer_copy": lambda it: bytes((ctypes.c_char * 64).from_buffer_copy(it)),
    "write": lambda it: io.BytesIO().write(it),
    "hash": lambda it: str(hash(it)),
    "a pool": by_a_pool,
}


class Secrets(unittest.TestCase):
    def setUp(self) -> None:
        self.search = Search(a_secret_key()[:32])
        self.secret = slh.SecretKey(FAST, a_secret_key())

    def leaks(self, way, holder) -> str:
        """Why a way is wrong with an object, if it is: it leaks, or fails with another error than a TypeError."""
        try:
            output = way(holder)
        except TypeError as error:
            output = f"{error!r}{by_traceback(error)}"
        except Exception as error:
            return f"{error!r}"
        return "the secret is printed" if self.search.finds(output or "") else ""

    def test_the_search_finds_each_form(self) -> None:
        """In all forms 8 bytes in a row are found, and 6 are not."""
        secret = a_secret_key()[:32]
        forms = (bytes, bytes.hex, repr, ascii, base64.b64encode, base64.urlsafe_b64encode, pickle.dumps, marshal.dumps)
        more = (
            lambda it: it.hex().upper(),
            lambda it: it.hex(" "),
            lambda it: it.hex(":", 2),
            lambda it: str(list(it)),
            lambda it: " ".join(map(str, it)),
            lambda it: str(array.array("b", it)),
            lambda it: ", ".join(map(hex, it)),
            lambda it: repr(repr(repr(it))),
            lambda it: json.dumps(it.decode("latin-1")),
            lambda it: it.decode("latin-1"),
            lambda it: str(int.from_bytes(it, "big")),
            lambda it: str(int.from_bytes(it, "little")),
            lambda it: hex(int.from_bytes(it, "big")),
            lambda it: str([it[:16], it[16:]]),
            lambda it: base64.encodebytes(it * 2),
            lambda it: "".join(rf"\x{byte:02x}" for byte in it),
            lambda it: pickle.dumps(it, 0),
        )
        for number, form in enumerate(forms + more):
            for part in secret, secret[3:25], bytes(5) + secret[7:17] + bytes(9), bytes(4) + secret[24:]:
                self.assertTrue(self.search.finds(form(part)), (number, part))
            for part in bytes(9) + secret[2:8] + bytes(9), hashlib.sha256(secret).digest():
                self.assertFalse(self.search.finds(form(part)), (number, part))

    def test_the_walk_finds_bytes_in_each_holder(self) -> None:
        """The walk reaches bytes that an object has in place of a key, as an attribute, an item or a buffer."""

        class Holder:
            __slots__ = ("_buffer",)

        for kept in (bytes, bytearray, list, ctypes.create_string_buffer, lambda it: array.array("B", it)):
            held = Holder()
            held._buffer = kept(a_secret_key())
            held_by = {**HOLDERS, **MORE_HOLDERS}
            for name in held_by.keys() - {"a method", "a local of a thread"}:
                self.assertTrue(self.search.finds(walked(held_by[name](held))), (name, kept))

    def test_no_way_of_printing_has_the_bytes_of_a_secret_key(self) -> None:
        self.has_none(self.secret)

    def test_no_way_of_printing_has_a_secret_key_that_was_taken_for_a_public_one(self) -> None:
        """The 64 bytes of a secret key of a 128 set are taken as a public key of a 256 set."""
        self.has_none(slh.PublicKey(slh.Set.SLH_DSA_SHA2_256F, a_secret_key()))

    def has_none(self, key) -> None:
        held_by = {**HOLDERS, **MORE_HOLDERS}
        found = [
            (holder, way, why)
            for (holder, made), (way, act) in itertools.product(held_by.items(), PRINTING.items())
            if (why := self.leaks(act, made(key)))
        ]
        self.assertEqual(found, [], f"{len(found)} of {len(held_by) * len(PRINTING)}")

    def test_serialising_is_refused(self) -> None:
        found = []
        for (holder, made), (way, act) in itertools.product(HOLDERS.items(), SERIALISING.items()):
            try:
                found.append((holder, way, self.search.finds(act(made(self.secret)))))
            except TypeError as error:
                # Python refuses an object with slots by itself in the first two protocols.
                if not re.search("SecretKey is not copied, pickled or serialised|defines __slots__", str(error)):
                    found.append((holder, way, repr(error)))
        self.assertEqual(found, [], f"{len(found)} of {len(HOLDERS) * len(SERIALISING)}")

    def test_reading_is_refused(self) -> None:
        found = []
        for way, act in READING.items():
            with contextlib.suppress(TypeError, ValueError, struct.error, ctypes.ArgumentError, sqlite3.Error):
                act(self.secret)
                found.append(way)
        self.assertEqual(found, [])

    def test_an_error_in_the_middle_of_a_call_has_no_secret_in_its_frames(self) -> None:
        """Each call of the library looks at the locals of this package's frames, and fails."""
        outputs, call = [], slh._calls.call

        def failing_call(name, *arguments):
            frame = sys._getframe(1)
            while frame:
                if frame.f_code.co_filename.startswith(PACKAGE):
                    outputs.append(walked(dict(frame.f_locals), 5))
                frame = frame.f_back
            if name in ("slh_lengths", "slh_sign_jobs", "slh_refusal_name", "slh_answer_place"):
                return call(name, *arguments)
            raise Failure("it fails", *arguments)

        with unittest.mock.patch.object(slh._calls, "call", failing_call), slh.Signer(2) as signer:
            for act in (
                lambda: self.secret.sign(b"letter", verify=True),
                lambda: self.secret.hash_sign_digest(2, bytes(32)),
                lambda: signer.sign(self.secret, b"letter"),
                self.secret.check,
                self.secret.public,
                lambda: slh.SecretKey.generate(FAST),
            ):
                with self.assertRaises(Failure) as caught:
                    act()
                outputs += [walked(caught.exception), by_traceback(caught.exception)]
        self.assertGreater(len(outputs), 20)
        self.assertFalse([it for it in outputs if self.search.finds(it)])

    def test_errors_about_secrets_that_are_given_wrongly_do_not_show_them(self) -> None:
        """Neither the text of an error nor the locals of this package's frames have the bytes that were given."""
        sk, text = a_secret_key(), bytes(self.secret.dumps())
        jobs = slh.jobs.Jobs(FAST)
        with slh.Signer(1) as signer, tempfile.TemporaryDirectory() as folder:
            path = os.path.join(folder, "key")
            pathlib.Path(path).write_bytes(text[:-9])
            for call, given in (
                (slh.SecretKey, (FAST, sk[:63])),
                (slh.SecretKey, (FAST, sk.hex())),
                (slh.SecretKey, (FAST, list(sk))),
                (slh.SecretKey, (7, sk)),
                (slh.SecretKey, (sk, FAST)),
                (slh.SecretKey, (sk.hex(), FAST)),
                (slh.PublicKey, (FAST, sk)),
                (slh.PublicKey, (sk, FAST)),
                (slh.SecretKey.generate, (sk,)),
                (slh.SecretKey.generate, (sk.hex(),)),
                (slh.SecretKey.generate, (int.from_bytes(sk, "big"),)),
                (slh.SecretKey.keygen, (FAST, sk[:16], sk[16:32], sk[:15])),
                (slh.SecretKey.keygen, (FAST, sk[:16], sk[16:32].hex(), sk[:16])),
                (slh.SecretKey.keygen, (FAST, memoryview(sk)[::2], sk[16:32], sk[:16])),
                (slh.SecretKey.loads, (text[:-9],)),
                (slh.SecretKey.loads, (text.decode(),)),
                (slh.SecretKey.loads, (b"slh-dsa-secret 2\n" + sk,)),
                (slh.SecretKey.loads, (sk,)),
                (slh.PublicKey.loads, (text,)),
                (slh.loads, (text + b"x",)),
                (slh.SecretKey.load, (path,)),
                (slh.PublicKey.load, (path,)),
                (slh.load, (path,)),
                (slh.load, (text,)),
                (slh.load, (text.decode(),)),
                (slh.SecretKey.load, (text.decode(),)),
                (slh.load, (sk.hex(),)),
                (slh.SecretKey.load, (sk.hex().upper(),)),
                (self.secret.dump, (text.decode(),)),
                (signer.sign, (sk, b"letter")),
                (signer.hash_sign, (sk, 2, b"letter")),
                (jobs.start, (sk, b"letter")),
                (jobs.answer, (sk, b"start", 0)),
                (jobs.join, (sk, b"start", [])),
            ):
                with self.subTest(call=call):
                    self.shows_nothing(call, given)

    def shows_nothing(self, call, given) -> None:
        try:
            call(*given)
        except (TypeError, ValueError, OverflowError) as error:
            below = error.__traceback__.tb_next
            outputs = [by_traceback(error.with_traceback(below)), walked(error.args), walked(vars(error))]
            chain = [error, error.__context__, error.__cause__]
            for it in filter(None, chain):
                for frame, _ in traceback.walk_tb(it.__traceback__):
                    outputs.append(walked(dict(frame.f_locals), 4))
            self.assertFalse([it for it in outputs if self.search.finds(it)])
            return
        self.fail("there was no error")


if __name__ == "__main__":
    unittest.main()
