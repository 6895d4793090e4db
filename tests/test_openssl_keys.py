"""Compares the program `slh` with the command `openssl` of version 3.5 or later, over keys that go from one to the
other by the table of examples/README.md, "Keys as PEM files".

A key that OpenSSL made is consistent, has the public key that OpenSSL says, and comes back as the same PEM. A key that
`slh` made is one to OpenSSL, with the public key that `slh` says. In both directions a deterministic signature is the
same bytes by both, a randomized one is valid, and a signature of another message is not. The commands of
examples/README.md for CI and for PEM files run as they are there, in a folder that has a secret key already.
"""
import base64
import os
import re

import pytest

from key_forms import KINDS, PREFIXES, drawn_files, verdict
from support import HERE, Outcome, block_of, need, run, succeed

PAGE_NAME = "examples/README.md"
PAGE = (HERE / PAGE_NAME).read_text()
CI, PEM = "Sign a release in CI", "Keys as PEM files"
VALID, INVALID, CONSISTENT = Outcome(0, b"valid\n"), Outcome(1, b"invalid\n"), Outcome(0, b"consistent\n")
QUICK = "128f"


class Keys:
    """The keys of a set, as files of `slh` and of OpenSSL in a folder."""

    def __init__(self, name, folder, slh, openssl):
        self.name, self.set, self.n = name, f"SLH-DSA-SHA2-{name}", int(name[:-1]) // 8
        self.folder, self.openssl_path = folder, openssl
        self.slh = lambda *words, **options: slh(*words, cwd=folder, **options)

    def openssl(self, *words, **options):
        return run(self.openssl_path, *words, cwd=self.folder, **options)

    def write(self, name, data):
        (self.folder / name).write_bytes(data)
        return data

    def keep(self, name, outcome):
        """Writes what a run gave that must have succeeded."""
        assert outcome.status == 0, outcome
        return self.write(name, outcome.output)

    def public_bytes(self):
        """The public key of public.key, which is made from secret.key."""
        self.keep("public.key", self.slh("public", "--key", "secret.key"))
        return bytes.fromhex((self.folder / "public.key").read_text().splitlines()[2])

    def openssl_public_bytes(self):
        """The public key that OpenSSL says of key.pem."""
        return self.openssl("pkey", "-in", "key.pem", "-pubout", "-outform", "DER").output[-2 * self.n:]

    def take_from_openssl(self):
        """Makes key.pem, and secret.key from it."""
        assert self.openssl("genpkey", "-algorithm", self.set, "-out", "key.pem").status == 0
        raw = self.openssl("pkey", "-in", "key.pem", "-outform", "DER").output[-4 * self.n:]
        self.write("secret.key", f"slh-dsa-secret 2\n{self.set}\n{raw.hex()}\n".encode())
        return raw

    def give_to_openssl(self):
        """Makes secret.key, and key.pem from it."""
        self.keep("secret.key", self.slh("keygen", "--set", self.set, stdin=os.urandom(3 * self.n).hex().encode()))
        raw = bytes.fromhex((self.folder / "secret.key").read_text().splitlines()[2])
        self.keep("key.pem", self.openssl("pkey", "-inform", "DER", stdin=PREFIXES[self.name][0] + raw))


@pytest.fixture(params=[pytest.param(it, marks=() if it == QUICK else pytest.mark.slow) for it in PREFIXES])
def keys(request, slh, oracle, tmp_path):
    return Keys(request.param, tmp_path, slh, oracle)


def test_page_has_prefixes_of_all_sets():
    assert sorted(PREFIXES) == sorted(f"{bits}{kind}" for bits in (128, 192, 256) for kind in "sf")


@pytest.mark.slow
def test_changed_keys_of_the_one_form_are_keys_to_openssl(oracle):
    """It writes each again as the same bytes."""
    taken = [(kind, form, file, said) for form, file in drawn_files() for kind in KINDS
             for said in [verdict(form, kind, file)] if said != "11"]
    assert len(taken) > 200
    for kind, form, file, said in taken[:: -(-len(taken) // 200)]:
        public = ["-pubin", "-pubout"] if kind == "public" else []
        again = succeed(oracle, "pkey", "-inform", form, "-outform", form, *public, stdin=file)
        assert again.hex() == said.split()[1], file


def test_key_from_openssl_and_back(keys):
    raw = keys.take_from_openssl()
    assert keys.slh("check", "--key", "secret.key") == CONSISTENT
    assert keys.public_bytes() == keys.openssl_public_bytes()
    back = keys.openssl("pkey", "-inform", "DER", stdin=PREFIXES[keys.name][0] + raw)
    assert back == Outcome(0, (keys.folder / "key.pem").read_bytes())


def test_key_to_openssl(keys):
    keys.give_to_openssl()
    assert keys.public_bytes() == keys.openssl_public_bytes()
    der = PREFIXES[keys.name][1] + keys.public_bytes()
    public = keys.openssl("pkey", "-pubin", "-inform", "DER", "-pubout", stdin=der)
    assert public == keys.openssl("pkey", "-in", "key.pem", "-pubout") and public.status == 0


@pytest.mark.parametrize("made_by", [Keys.take_from_openssl, Keys.give_to_openssl], ids=["openssl", "slh"])
def test_signatures_agree(keys, made_by):
    made_by(keys)
    keys.public_bytes()
    keys.write("message", b"Dear reader,\n")
    keys.write("other", b"Dear reader;\n")
    keys.keep("public.pem", keys.openssl("pkey", "-in", "key.pem", "-pubout"))
    theirs = keys.keep("theirs", keys.openssl("pkeyutl", "-sign", "-inkey", "key.pem", "-rawin", "-in", "message",
                                              "-pkeyopt", "deterministic:1"))
    sign = ["sign", "--key", "secret.key", "--message", "message"]
    assert keys.slh(*sign) == Outcome(0, theirs)
    assert keys.keep("ours", keys.slh(*sign, "--random", os.urandom(keys.n).hex())) != theirs
    verify = ["pkeyutl", "-verify", "-pubin", "-inkey", "public.pem", "-rawin", "-sigfile", "ours", "-in"]
    assert keys.openssl(*verify, "message").status == 0 and keys.openssl(*verify, "other").status != 0
    verify = ["verify", "--key", "public.key", "--signature", "theirs", "--message"]
    assert keys.slh(*verify, "message") == VALID and keys.slh(*verify, "other") == INVALID


# ---- pre-hash keys


def name_of(openssl, prefix, length):
    """The name that OpenSSL has for the identifier of a key with a prefix, whose bytes are zeros."""
    parsed = succeed(openssl, "asn1parse", "-inform", "DER", stdin=prefix + bytes(length)).decode()
    return re.search(r"OBJECT +:(.*)", parsed)[1]


@pytest.mark.parametrize("of_set", PREFIXES)
def test_page_names_prehash_keys_as_openssl(oracle, of_set):
    """By the page, the digits 0314 to 0319 of the prefixes become 0323 to 0328."""
    at, n = list(PREFIXES).index(of_set), int(of_set[:-1]) // 8
    name = f"SLH-DSA-SHA2-{of_set}-WITH-SHA{256 if n == 16 else 512}"
    for prefix, length in zip(PREFIXES[of_set], (4 * n, 2 * n)):
        plain, prehash = bytes.fromhex(f"031{4 + at}"), bytes.fromhex(f"032{3 + at}")
        assert prefix.count(plain) == 1 and name_of(oracle, prefix.replace(plain, prehash), length) == name


def test_page_has_the_prefix_of_a_prehash_key_in_a_command():
    prefix = PREFIXES["128s"][1].hex().replace("0314", "0323")
    assert f"\n    (echo {prefix}; sed -n 3p public.key)" in PAGE


# ---- the commands of the page


class Page:
    """A folder in which the page's commands run, with `slh` and `openssl` on the path and a secret key of CI's first
    block."""

    def __init__(self, folder, program, openssl):
        self.folder, self.openssl = folder, openssl
        (folder / "bin").mkdir()
        (folder / "bin/slh").symlink_to(program)
        (folder / "bin/openssl").symlink_to(openssl)
        (folder / "release.tar.gz").write_text("release\n")
        assert self.run(CI, 1).status == 0
        self.key = self.read("secret.key")

    def read(self, name):
        return (self.folder / name).read_bytes()

    def run(self, heading, number, secret=""):
        env = {**os.environ, "PATH": f"{self.folder}/bin:{os.environ['PATH']}", "SLH_SECRET_KEY": secret}
        return run("bash", "-c", block_of(PAGE_NAME, heading, number), cwd=self.folder, env=env)

    def is_kept(self):
        """Whether the secret key that was there is as it was, and the one of the CI is gone."""
        return self.read("secret.key") == self.key and not (self.folder / "ci.key").exists()


@pytest.fixture
def page(program, oracle, tmp_path):
    need("xxd", "sha256sum")
    return Page(tmp_path, program, oracle)


@pytest.fixture
def page_with_pem(page):
    """The same with the key as PEM, in secret.pem."""
    assert page.run(PEM, 2).status == 0
    return page


def test_page_signs_a_release_in_ci(page):
    assert page.run(CI, 2, page.key.decode().rstrip("\n")) == VALID
    succeed("sha256sum", "--check", "--ignore-missing", "SHA256SUMS", cwd=page.folder)
    assert page.is_kept()


@pytest.mark.parametrize("whose", ["another", "none"])
def test_page_publishes_nothing_under_another_secret(page, slh, whose):
    other = slh("keygen", "--set", "SLH-DSA-SHA2-128s", stdin=os.urandom(48).hex().encode()).output
    outcome = page.run(CI, 2, other.decode().rstrip("\n") if whose == "another" else "")
    assert outcome == INVALID if whose == "another" else outcome.status != 0
    assert page.is_kept()


# The lines for OpenSSL take the last bytes of a key, and make the same PEM of them.
def test_page_takes_a_key_from_openssl_and_back(page):
    succeed(page.openssl, "genpkey", "-algorithm", "SLH-DSA-SHA2-128f", "-out", "key.pem", cwd=page.folder)
    assert page.run(PEM, 1).status == 0
    assert len(page.read("secret")) == 64 and page.read("key.pem") == page.read("copy.pem")


def test_page_takes_a_key_to_pem_and_back(page_with_pem):
    page = page_with_pem
    checked = run(page.openssl, "pkey", "-in", "secret.pem", "-noout", "-check", cwd=page.folder)
    assert (checked.status, checked.output) == (0, b"Key is valid\n")
    assert page.run(PEM, 3) == CONSISTENT
    assert page.read("from_pem.key") == page.key and page.is_kept()


def test_page_names_the_command_that_sees_another_prefix(page_with_pem):
    page = page_with_pem
    lines = page.read("secret.pem").decode().splitlines()
    der = base64.b64decode("".join(it for it in lines if not it.startswith("-----")))
    right, other = PREFIXES["128s"][0], bytes.fromhex("3052020100300b06096086480165030403150440")
    assert der.startswith(right)
    checked = run(page.openssl, "pkey", "-inform", "DER", "-noout", "-check", stdin=other + der[len(right):])
    assert (checked.status, checked.output) == (1, b"")


@pytest.mark.parametrize("how", ["carriage-returns", "missing"])
def test_page_changes_no_key_by_a_bad_pem_file(page_with_pem, how):
    path = page_with_pem.folder / "secret.pem"
    path.write_bytes(path.read_bytes().replace(b"\n", b"\r\n"))
    if how == "missing":
        path.unlink()
    assert page_with_pem.run(PEM, 3).status != 0 and page_with_pem.is_kept()
