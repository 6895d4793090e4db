"""Tests c/include/slh.hpp, the header of types for C++, over the library, by each of GCC and clang: slh_hpp.cpp of
bindings/cmake/tests is compiled as C++17 and as C++20, and runs over vectors of the set 128f. without_exceptions.cpp is
compiled without exceptions, and each error ends it."""
import json
import signal

import pytest

from conftest import STRICT
from support import HERE, VECTORS, need, passed_by, run

OF_CMAKE = HERE / "bindings/cmake/tests"
WRAPPED = [f"-Wl,--wrap=slh_{it}" for it in ("sign", "sign_twice", "keygen", "self_test")]
# Each error that without_exceptions.cpp makes, and what it says of it.
ERRORS = {"context": "2 ContextTooLong", "key": "3 BadLength: 32 bytes expected, 33 given", "set": "8 NoSuchSet",
          "fault": "38 Fault", "zero": "the array is no text", "null": "a null pointer is no text",
          "moved": "the SecretKey was moved"}
TAKEN = ["other = std::move(key)", 'key.sign("letter")', "key.sign({nullptr, 0})"]
REFUSED = ["slh::SecretKey copy = key", "key = other", "std::cout << key", "bool same = key == other",
           "slh::View view = key", "slh::PublicKey(SLH_DSA_SHA2_256F, key)", "key.check()",
           "char buffer[4] = {}; key.sign(buffer)", "key.sign(nullptr)", "key.sign(NULL)", "key.sign(0)"]

pytestmark = pytest.mark.slow


def test_header_is_short():
    assert len((HERE / "c/include/slh.hpp").read_text().splitlines()) <= 210


@pytest.fixture(params=["g++", "clang++"])
def cxx(request):
    need(request.param)
    return request.param


@pytest.fixture
def folders(include):
    return ["-I", HERE / "c/include", "-I", include]


@pytest.fixture(scope="module")
def vectors():
    """The tests of a vector file, but for those of the internal form: a line each, of words NAME=VALUE."""
    tests = json.loads((VECTORS / "slh-dsa-sha2-128f.json").read_text())
    lines = [" ".join(f"{name}={value}" for name, value in it.items() if name != "comment") for it in tests
             if it.get("form") != "internal"]
    return "\n".join([*lines, ""]).encode()


@pytest.mark.parametrize("standard", ["c++17", "c++20"])
def test_types(compiled, cxx, standard, folders, lib, vectors):
    program = compiled("slh_hpp", f"-std={standard}", "-O1", *STRICT, *folders, OF_CMAKE / "slh_hpp.cpp",
                       lib / "libslh.a", "-pthread", *WRAPPED, cc=cxx)
    passed_by(run(program, stdin=vectors))


@pytest.fixture
def without_exceptions(compiled, cxx, folders, lib):
    return compiled("without", "-std=c++17", "-O1", "-fno-exceptions", "-fno-rtti", *STRICT, *folders,
                    OF_CMAKE / "without_exceptions.cpp", lib / "libslh.a", cc=cxx)


def test_without_exceptions_it_signs_and_verifies(without_exceptions):
    assert run(without_exceptions)[:2] == (0, b"valid\n")


@pytest.mark.parametrize("error", ERRORS)
def test_without_exceptions_an_error_ends_the_program(without_exceptions, error):
    """By std::terminate, after the error is said."""
    done = run("sh", "-c", 'ulimit -c 0; exec "$0" "$@"', without_exceptions, error)
    assert done[:2] == (-signal.SIGABRT, b"") and f"slh: {ERRORS[error]}".encode() in done.errors, done


def compiles(cxx, statement, folders, folder):
    """The outcome of a compiler over a function with a statement that uses secret keys."""
    text = "#include <slh.hpp>\n#include <iostream>\nvoid it(slh::SecretKey key, slh::SecretKey other) { %s; }\n"
    (folder / "tried.cpp").write_text(text % statement)
    return run(cxx, "-std=c++17", "-Werror", "-fsyntax-only", *folders, folder / "tried.cpp")


@pytest.mark.parametrize("statement", TAKEN)
def test_key_can_be_used(cxx, folders, tmp_path, statement):
    done = compiles(cxx, statement, folders, tmp_path)
    assert done.status == 0, done


@pytest.mark.parametrize("statement", REFUSED)
def test_key_is_not_exposed_or_confused(cxx, folders, tmp_path, statement):
    done = compiles(cxx, statement, folders, tmp_path)
    assert done.status != 0 and b"tried.cpp" in done.errors and b"error" in done.errors, done
