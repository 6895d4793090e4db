"""The provider `slh` for OpenSSL (bindings/openssl, docs/OPENSSL.md), built for its tests, and the command `openssl`
over it. The fixture `provider` of conftest.py builds it."""
import collections
import os
import pathlib
import re
import shutil
import typing

import pytest

from support import HERE, TESTS, block_of, need, run, succeed

PAGE = "docs/OPENSSL.md"
FAST = "SLH-DSA-SHA2-128f"
SETS = [f"SLH-DSA-SHA2-{bits}{kind}" for bits in (128, 192, 256) for kind in "sf"]
LETTER = b"Dear reader,\n"
# What a certificate's commands need of a configuration, for `req` and `ca`.
CA_CONFIG = """
[req]
distinguished_name = name
[name]
[root]
basicConstraints = critical, CA:true
keyUsage = critical, keyCertSign, cRLSign
[ca]
default_ca = issuer
[issuer]
database = index.txt
new_certs_dir = .
rand_serial = yes
default_md = default
default_days = 30
default_crl_days = 30
policy = policy
x509_extensions = leaf
[policy]
commonName = supplied
[leaf]
basicConstraints = critical, CA:false
"""


class Development(typing.NamedTuple):
    """What compiles and runs programs over an OpenSSL: the words for headers and for libcrypto, and the loader's words
    before a program. tools/setup.sh unpacks an OpenSSL with a C library, which its loader finds in `libraries`."""

    headers: list
    linked: list
    loader: list = []
    libraries: pathlib.Path = None


def development_of(command):
    folder = pathlib.Path(command).resolve().parent
    if (folder / "include/openssl/opensslv.h").is_file():
        lib = folder / "lib"
        return Development(["-I", folder / "include"], [lib / "libcrypto.so", "-Wl,--allow-shlib-undefined"],
                           [lib / "ld-linux-x86-64.so.2", "--library-path", lib], lib)
    need("pkg-config")
    if run("pkg-config", "--atleast-version=3.5", "libcrypto").status:
        pytest.skip("there are no headers of OpenSSL 3.5 or later (tools/setup.sh installs them)")
    words = [succeed("pkg-config", it, "libcrypto").decode().split() for it in ("--cflags", "--libs")]
    return Development(*words)


def succeeded(outcome):
    """The outcome of a command that has to end with 0."""
    assert outcome.status == 0, (outcome.output + outcome.errors)[-4000:].decode(errors="replace")
    return outcome


class Provider:
    """A prefix with the library and the provider. `calls` is loaded before a program, and counts what it calls."""

    def __init__(self, prefix, openssl, development, calls):
        self.prefix, self.openssl, self.development, self.calls = prefix, openssl, development, calls
        self.modules, self.config = prefix / "lib/ossl-modules", prefix / "etc/slh.cnf"
        self.env = {name: it for name, it in os.environ.items() if name not in ("OPENSSL_CONF", "OPENSSL_MODULES")}
        if development.libraries:
            self.env["OPENSSL_PREFIX"] = str(development.libraries.parent)
        self.chosen = ["-provider-path", self.modules, "-provider", "default", "-provider", "slh",
                       "-propquery", "?provider=slh"]

    def build(self, prefix, **more):
        """Builds the module into a prefix that has the library."""
        return succeed(HERE / "bindings/openssl/build.sh", prefix, env={**self.env, **more})

    def runs(self, program, *words, **more):
        """Runs a program in C over the OpenSSL of the command."""
        options = {it: more.pop(it) for it in ("stdin",) if it in more}
        return run(*self.development.loader, program, *words, env={**self.env, **more}, **options)

    def changed_config(self, path, *changes):
        """Writes slh.cnf as it is installed, with changes: pairs of a pattern, which has to be there, and a text."""
        text = self.config.read_text()
        for pattern, new in changes:
            text, count = re.subn(pattern, new, text, flags=re.M)
            assert count, f"slh.cnf has no {pattern}"
        path.write_text(text)
        return path

    def page(self, heading, number=1):
        """A block of lines of the page, for this prefix."""
        return block_of(PAGE, heading, number).replace("/home/me/slh", str(self.prefix))


class Folder:
    """A folder in which `openssl` runs: by our provider, by the default one alone, or under a configuration."""

    def __init__(self, provider, path):
        self.provider, self.path = provider, path
        path.mkdir(parents=True, exist_ok=True)

    def theirs(self, *words, **options):
        return run(self.provider.openssl, *words, cwd=self.path, env=self.provider.env, **options)

    def ours(self, word, *words, **options):
        return self.counting(word, *self.provider.chosen, *words, **options)

    def counting(self, *words, config=None, **options):
        """Runs it and counts the calls of the library, under a configuration if one is given."""
        env = {**self.provider.env, "LD_PRELOAD": str(self.provider.calls), "SLH_CALLS": str(self.path / "calls")}
        env |= {"OPENSSL_CONF": str(config)} if config else {}
        return run(self.provider.openssl, *words, cwd=self.path, env=env, **options)

    def under(self, config, *words, **options):
        env = {**self.provider.env, "OPENSSL_CONF": str(config)}
        return run(self.provider.openssl, *words, cwd=self.path, env=env, **options)

    def lines(self, text, config=None, **more):
        """Runs lines of bash, in which `openssl` is the command, under a configuration if one is given."""
        (self.path / "bin").mkdir(exist_ok=True)
        if not (self.path / "bin/openssl").is_symlink():
            (self.path / "bin/openssl").symlink_to(shutil.which(self.provider.openssl))
        env = {**self.provider.env, "PATH": f"{self.path}/bin:{os.environ['PATH']}", **more}
        env |= {"OPENSSL_CONF": str(config)} if config else {}
        return run("bash", "-e", "-c", text, cwd=self.path, env=env)

    def counted(self):
        """The calls by kind, as keys, signatures, verdicts and jobs, since this was asked before."""
        calls, found = self.path / "calls", collections.Counter()
        for line in calls.read_text().splitlines() if calls.exists() else []:
            words = line.split()
            found.update(dict(zip(words[::2], map(int, words[1::2]))))
        calls.unlink(missing_ok=True)
        return found

    def read(self, name):
        return (self.path / name).read_bytes()

    def write(self, name, data):
        (self.path / name).write_bytes(data)
        return self.path / name

    def has(self, name):
        """Whether there is a file of this name that is not empty."""
        path = self.path / name
        return path.exists() and path.stat().st_size > 0

    def copy(self, path):
        """The same folder, with all files, at another path."""
        shutil.copytree(self.path, path)
        return Folder(self.provider, path)


def compiled_calls(compiled, include):
    return compiled("calls.so", "-std=gnu11", "-Wall", "-Wextra", "-Werror", "-O2", "-shared", "-fPIC", "-pthread",
                    "-I", include, TESTS / "provider_calls.c")
