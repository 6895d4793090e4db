"""The provider `slh` for OpenSSL through EVP, beside OpenSSL's default provider: the vectors of other implementations
and all refusals (provider_tests.c), junk for each parameter (provider_junk.c), and messages in pieces
(provider_pieces.c), also under sanitizers; many loads under valgrind; and what the module has.

Keys, certificates and CMS are in test_provider_certificates.py, configurations and broken installations in
test_provider_settings.py, TLS in test_provider_tls.py, and other programs in test_openssl_programs.py.
"""
import hashlib
import json
import os
import shutil
import struct

import pytest

from conftest import STRICT
from provider import FAST, Folder, succeeded
from support import HERE, TESTS, VECTORS, need, passed_by, run, succeed

SANITIZED = ["-g", "-fsanitize=address,undefined", "-fno-sanitize-recover=undefined"]
MOST_LINES = 770
# The last number of the identifier of a digest (FIPS 205, 10.2.2).
OIDS = {"224": 4, "256": 1, "384": 2, "512": 3, "512/224": 5, "512/256": 6}


@pytest.fixture(scope="module")
def compiles(provider, compiled):
    """Compiles a program of this folder over OpenSSL: compiles(NAME, WORD..) is its path. A word may be a library."""

    def makes(name, *words):
        headers, linked = provider.development[:2]
        return compiled(name, "-std=c11", "-pthread", *headers, TESTS / f"{name}.c", *words, *linked)

    return makes


@pytest.fixture(scope="module")
def evp(provider, compiles):
    return compiles("provider_tests", "-O2", *STRICT, provider.calls)


@pytest.fixture(scope="module")
def pieces(compiles):
    return compiles("provider_pieces", "-O2", *STRICT)


@pytest.fixture
def folder(provider, tmp_path):
    return Folder(provider, tmp_path)


# ---- the module


@pytest.mark.slow
@pytest.mark.parametrize("compiler", ["gcc", "clang"])
def test_no_warning(provider, compiler, tmp_path):
    need(compiler)
    words = ["-std=c11", "-O2", "-fPIC", *STRICT, "-I", provider.prefix / "include", *provider.development.headers]
    for source in (HERE / "bindings/openssl").glob("*.c"):
        succeed(compiler, *words, "-c", source, "-o", tmp_path / "object")


def test_exports_two_functions(provider):
    """OpenSSL calls one for a provider, and one for a section of a configuration."""
    need("nm")
    lines = succeed("nm", "-D", "--defined-only", provider.modules / "slh.so").decode().splitlines()
    assert sorted(it.split()[-1] for it in lines) == ["OPENSSL_init", "OSSL_provider_init"]


@pytest.mark.slow
def test_configuration_names_module(provider, tmp_path):
    """Also below a folder whose name has what sed takes for a command."""
    odd = tmp_path / "a & b|c"
    for name in ("include", "lib"):
        shutil.copytree(provider.prefix / name, odd / name, symlinks=True)
    provider.build(odd)
    assert f"module = {odd}/lib/ossl-modules/slh.so" in (odd / "etc/slh.cnf").read_text().splitlines()


@pytest.mark.slow
def test_keeps_nothing_outside_of_contexts(provider):
    """A compiler adds 8 bytes to .data of each module, and 8 to .bss."""
    need("size")
    rows = [it.split() for it in succeed("size", "-A", provider.modules / "slh.so").decode().splitlines()]
    sizes = {row[0]: int(row[1]) for row in rows if row[:1] in ([".data"], [".bss"])}
    assert sizes and sum(sizes.values()) <= 16, sizes


@pytest.mark.slow
def test_is_small():
    """The page says the number of lines of C."""
    files = [*(HERE / "bindings/openssl").glob("*.[ch]")]
    lines = sum(it.read_text().count("\n") for it in files)
    assert 0 < lines < MOST_LINES and f"have {lines} lines of C" in (HERE / "docs/OPENSSL.md").read_text()


@pytest.mark.slow
def test_earlier_openssl_refuses_it(provider, folder):
    need("openssl")
    version = succeed("openssl", "version").decode()
    if not version.startswith(tuple(f"OpenSSL 3.{it}." for it in range(5))):
        pytest.skip("the command openssl is none of OpenSSL 3.0 to 3.4")
    words = ["list", "-providers", "-provider-path", provider.modules, "-provider", "slh"]
    refusal = run("openssl", *words, env=provider.env, cwd=folder.path)
    assert refusal.status != 0 and b"it needs OpenSSL 3.5 or later" in refusal.errors


# ---- through EVP


def test_calls(provider, evp):
    assert passed_by(provider.runs(evp, "calls", provider.modules)) > 50


@pytest.mark.parametrize("steps", [200, pytest.param(3000, marks=pytest.mark.slow)])
def test_messages_in_pieces(provider, pieces, steps):
    assert passed_by(provider.runs(pieces, provider.modules, str(steps))) > 20


@pytest.fixture(scope="module")
def sane(provider, tmp_path_factory):
    """The modules of the provider that is built with sanitizers, which see it, and not libslh."""
    prefix = tmp_path_factory.mktemp("sane") / "prefix"
    for name in ("include", "lib"):
        shutil.copytree(provider.prefix / name, prefix / name, symlinks=True)
    provider.build(prefix, CFLAGS=" ".join([*SANITIZED, "-Wl,-z,undefs"]))
    return prefix / "lib/ossl-modules"


@pytest.mark.slow
def test_calls_under_sanitizers(provider, compiles, sane):
    program = compiles("provider_tests", "-O1", *SANITIZED, provider.calls)
    assert passed_by(provider.runs(program, "calls", sane)) > 50


@pytest.mark.slow
def test_junk_beside_the_default_provider(provider, compiles, sane):
    program = compiles("provider_junk", "-O1", *STRICT, *SANITIZED)
    assert passed_by(provider.runs(program, sane, ASAN_OPTIONS="symbolize=0")) >= 10


@pytest.mark.slow
def test_messages_in_pieces_under_sanitizers(provider, compiles, sane):
    program = compiles("provider_pieces", "-O1", *STRICT, *SANITIZED)
    assert passed_by(provider.runs(program, sane, "1000", ASAN_OPTIONS="symbolize=0")) >= 10


# ---- the vectors of other implementations


def message_of(test):
    """What OpenSSL is handed: whether it is the pure form, the message and the context. A pre-hash form goes as the
    internal form, whose M' is made here. None if the context is too long for that."""
    context, message = bytes.fromhex(test.get("context", "")), bytes.fromhex(test["message"])
    if test["form"] in ("pure", "internal"):
        return [str(int(test["form"] == "pure")), message.hex(), context.hex()]
    if len(context) > 255:
        return None
    name = test["form"].removeprefix("SHA2-")
    oid = bytes.fromhex("06096086480165030402") + bytes([OIDS[name]])
    digest = hashlib.new("sha" + name.replace("/", "_"), message).digest()
    return ["0", (bytes([1, len(context)]) + context + oid + digest).hex(), ""]


def fields_of(test):
    """The fields of a test of a vector file for provider_tests.c, or None."""
    if test["kind"] == "keygen":
        return [test["skSeed"] + test["skPrf"] + test["pkSeed"], test["sk"]]
    message = message_of(test)
    if message and test["kind"] == "sign":
        return [test["sk"], *message, test["random"], test.get("signature", "")]
    return message and [test["pk"], *message, test["signature"], str(int(test["valid"]))]


@pytest.mark.slow
def test_vectors_of_other_implementations(provider, evp):
    tests = [it for path in sorted(VECTORS.glob("s*.json")) for it in json.loads(path.read_text())]
    rows = [(it, fields) for it in tests for fields in [fields_of(it)] if fields]
    lines = [" ".join([it["kind"], it["set"], *(field or "-" for field in fields)]) for it, fields in rows]
    assert len(lines) > 200
    text = "".join(f"{it}\n" for it in lines).encode()
    assert passed_by(provider.runs(evp, "vectors", provider.modules, stdin=text)) == len(lines)


# ---- loads

# The loader reads $ORIGIN in words of eight bytes, which valgrind takes for a fault.
SUPPRESSED = "{\n loader\n Memcheck:Addr8\n fun:strncmp\n fun:is_dst\n}\n"
WEAK = """#include <stdlib.h>
long __isoc23_strtol(const char *text, char **end, int base);
long __isoc23_strtol(const char *text, char **end, int base) { return strtol(text, end, base); }
"""


def weak_of(library):
    """The bytes of a library for this system's C library: what it needs of a newer version is marked as weak."""
    data = bytearray(library.read_bytes())
    at, size, count = struct.unpack_from("<Q", data, 0x28)[0], *struct.unpack_from("<HH", data, 0x3A)
    sections = [struct.unpack_from("<IIQQQQIIQQ", data, at + i * size) for i in range(count)]
    for section in sections:
        if section[1] == 0x6FFFFFFE:  # SHT_GNU_verneed
            mark_as_weak(data, section[4], sections[section[6]][4])
    return data


def mark_as_weak(data, need_at, names_at):
    """Marks what is of GLIBC_2.38 in a table of needed versions: the places of the table and of its names."""
    while need_at is not None:
        _, count, _, first, following = struct.unpack_from("<HHIII", data, need_at)
        version = need_at + first
        for _ in range(count):
            _, flags, _, name, step = struct.unpack_from("<IHHII", data, version)
            if data[names_at + name:].startswith(b"GLIBC_2.38\0"):
                struct.pack_into("<H", data, version + 4, flags | 2)
            version += step
        need_at = need_at + following if following else None


def weakened(provider, folder):
    """The variables under which this system's loader runs a program with the OpenSSL of tools/setup.sh, since valgrind
    runs no loader whose symbols it can't read. The function that this C library lacks comes from weak.so."""
    libraries = provider.development.libraries
    if not libraries:
        return {}
    for library in [*libraries.glob("libz.so*"), *libraries.glob("libzstd.so*")]:
        shutil.copy2(library, folder / library.name, follow_symlinks=False)
    (folder / "libcrypto.so.3").write_bytes(weak_of(libraries / "libcrypto.so.3"))
    (folder / "weak.c").write_text(WEAK)
    (folder / "weak.map").write_text("GLIBC_2.38 { global: __isoc23_strtol; local: *; };\n")
    succeed("cc", "-shared", "-fPIC", folder / "weak.c", f"-Wl,--version-script={folder}/weak.map", "-o",
            folder / "weak.so")
    return {"LD_PRELOAD": str(folder / "weak.so"), "LD_LIBRARY_PATH": str(folder)}


@pytest.mark.slow
def test_loads_leave_nothing_allocated(provider, evp, tmp_path):
    need("valgrind", "cc")
    loads = 1000 if os.environ["SLH_SEED"] == "all" else 100
    (tmp_path / "suppressed").write_text(SUPPRESSED)
    tool = ["--leak-check=full", "--error-exitcode=9", f"--suppressions={tmp_path}/suppressed"]
    done = run("valgrind", *tool, evp, "loads", provider.modules, str(loads),
               env={**provider.env, **weakened(provider, tmp_path)})
    assert done.status == 0 and b"no leaks are possible" in done.errors, done.errors[-4000:].decode()


# ---- the command `openssl`


@pytest.mark.slow
def test_speed_runs(folder):
    succeeded(folder.ours("speed", "-seconds", "1", FAST))
    counted = folder.counted()
    assert counted["signatures"] > 5 and counted["verdicts"] > 5


@pytest.mark.slow
def test_dgst_ends_at_16_mib(folder):
    """It reads 16 MiB, whatever signs, and `pkeyutl` the whole message."""
    succeeded(folder.theirs("genpkey", "-algorithm", FAST, "-out", "leaf.key"))
    succeeded(folder.theirs("pkey", "-in", "leaf.key", "-pubout", "-out", "leaf.pub"))
    for name, size in ("most", 1 << 24), ("more", (1 << 24) + 1):
        folder.write(name, b"")
        os.truncate(folder.path / name, size)
    for by in folder.ours, folder.theirs:
        succeeded(by("dgst", "-sign", "leaf.key", "-out", "most.sig", "most"))
        assert by("dgst", "-sign", "leaf.key", "-out", "more.sig", "more").status != 0 and not folder.has("more.sig")
    succeeded(folder.ours("pkeyutl", "-sign", "-rawin", "-inkey", "leaf.key", "-in", "more", "-out", "more.sig"))
    succeeded(folder.theirs("pkeyutl", "-verify", "-rawin", "-pubin", "-inkey", "leaf.pub", "-in", "more", "-sigfile",
                            "more.sig"))
