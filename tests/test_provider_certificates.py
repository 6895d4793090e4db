"""Keys, requests, certificates, revocations, CMS and PKCS #12 by the program `openssl`: one of the provider `slh` and
OpenSSL's default provider makes them, and the other verifies them. Damaged files are refused. The CA of two levels of
docs/OPENSSL.md runs as it is there.

Of the sets with small signatures one is drawn.
"""
import re

import pytest

from provider import CA_CONFIG, LETTER, Folder, succeeded
from support import HERE

SMALL = [pytest.param(it, marks=pytest.mark.drawn("certificates of small signatures", "of_set"))
         for it in ("128s", "192s", "256s")]
OF_SETS = pytest.mark.parametrize("of_set", ["128f", "192f", "256f", *SMALL])
OF_MAKERS = pytest.mark.parametrize("maker, other", [("ours", "theirs"), ("theirs", "ours")], ids=["slh", "default"])
ROOT = ["-cert", "root.pem", "-keyfile", "root.key"]
VERIFY = ["pkeyutl", "-verify", "-rawin", "-pubin", "-inkey", "leaf.pub", "-in", "letter", "-sigfile"]
SIGN = ["pkeyutl", "-sign", "-rawin", "-in", "letter"]
SIGN_CMS = ["cms", "-sign", "-binary", "-nodetach", "-outform", "DER", "-signer", "leaf.pem"]
VERIFY_CMS = ["cms", "-verify", "-binary", "-inform", "DER", "-CAfile", "root.pem", "-out", "read", "-in"]
pytestmark = pytest.mark.slow


def digest_of(of_set):
    """The digest of CMS for a set, by RFC 9814."""
    return "sha256" if of_set.startswith("128") else "sha512"


def make_all(folder, maker, of_set):
    """All that an issuer makes, in a folder."""
    folder.write("letter", LETTER)
    folder.write("ca.cnf", CA_CONFIG.encode())
    folder.write("index.txt", b"")
    req, ca = ["req", "-config", "ca.cnf", "-new"], ["ca", "-config", "ca.cnf", *ROOT]
    leaf = ["-inkey", "leaf.key"]
    commands = [
        ["genpkey", "-algorithm", f"SLH-DSA-SHA2-{of_set}", "-out", "root.key"],
        ["genpkey", "-algorithm", f"SLH-DSA-SHA2-{of_set}", "-out", "leaf.key"],
        [*req, "-x509", "-key", "root.key", "-subj", "/CN=root", "-extensions", "root", "-out", "root.pem"],
        [*req, "-key", "leaf.key", "-subj", "/CN=leaf", "-out", "leaf.csr"],
        [*ca, "-batch", "-notext", "-in", "leaf.csr", "-out", "leaf.pem"],
        [*ca, "-gencrl", "-out", "root.crl"],
        [*SIGN_CMS, "-md", digest_of(of_set), "-in", "letter", *leaf, "-out", "letter.cms"],
        ["pkcs12", "-export", *leaf, "-in", "leaf.pem", "-passout", "pass:secret", "-out", "leaf.p12"],
        [*SIGN, *leaf, "-pkeyopt", "deterministic:1", "-out", "letter.sig"],
        ["pkey", "-in", "leaf.key", "-aes256", "-passout", "pass:secret", "-out", "locked.key"],
        ["pkey", "-in", "leaf.key", "-pubout", "-out", "leaf.pub"],
        ["x509", "-req", "-in", "leaf.csr", "-CA", "root.pem", "-CAkey", "root.key", "-out", "other.pem"],
        ["dgst", "-sign", "leaf.key", "-out", "letter.dgst", "letter"],
    ]
    for words in commands:
        succeeded(getattr(folder, maker)(*words))
    return folder.counted()


@pytest.fixture(scope="module")
def made(provider, tmp_path_factory):
    """What one of the two makes of a set: made(MAKER, SET) is its folder, and the calls that were counted."""
    found = {}

    def makes(maker, of_set):
        if (maker, of_set) not in found:
            folder = Folder(provider, tmp_path_factory.mktemp(f"{of_set}-{maker}"))
            found[maker, of_set] = folder, make_all(folder, maker, of_set)
        return found[maker, of_set]

    return makes


@pytest.fixture
def fast(made, tmp_path):
    """A copy of what our provider made of 128f."""
    return made("ours", "128f")[0].copy(tmp_path / "fast")


# ---- one makes, the other takes


@OF_SETS
def test_slh_makes_all(made, of_set):
    _, counted = made("ours", of_set)
    assert (counted["keys"], counted["signatures"]) == (2, 8)


@OF_SETS
def test_default_makes_all_without_slh(made, of_set):
    assert not made("theirs", of_set)[1]


# What is verified, and the least number of signatures in it.
VERIFIED = {
    "root": (1, ["verify", "-CAfile", "root.pem", "-check_ss_sig", "root.pem"]),
    "certificate_and_crl": (2, ["verify", "-CAfile", "root.pem", "-crl_check", "-CRLfile", "root.crl", "leaf.pem"]),
    "x509": (1, ["verify", "-CAfile", "root.pem", "other.pem"]),
    "request": (1, ["req", "-verify", "-noout", "-in", "leaf.csr"]),
    "crl": (1, ["crl", "-CAfile", "root.pem", "-in", "root.crl", "-noout"]),
    "cms": (2, [*VERIFY_CMS, "letter.cms"]),
    "pkeyutl": (1, [*VERIFY, "letter.sig"]),
    "dgst": (1, ["dgst", "-verify", "leaf.pub", "-signature", "letter.dgst", "letter"]),
}


@OF_SETS
@OF_MAKERS
@pytest.mark.parametrize("what", VERIFIED)
def test_other_verifies(made, maker, other, of_set, what):
    folder, _ = made(maker, of_set)
    least, words = VERIFIED[what]
    succeeded(getattr(folder, other)(*words))
    verdicts = folder.counted()["verdicts"]
    assert verdicts >= least if other == "ours" else verdicts == 0
    assert what != "cms" or folder.read("read") == LETTER


LOCKED = ["-passin", "pass:secret"]
READ = {
    "pkcs12": (["pkcs12", "-in", "leaf.p12", *LOCKED, "-nodes", "-nocerts"], "leaf.key"),
    "encrypted_key": (["pkey", "-in", "locked.key", *LOCKED], "leaf.key"),
    "public_key": (["pkey", "-in", "leaf.key", "-pubout"], "leaf.pub"),
}


@OF_SETS
@OF_MAKERS
@pytest.mark.parametrize("what", READ)
def test_other_reads(made, maker, other, of_set, what):
    folder, _ = made(maker, of_set)
    words, wanted = READ[what]
    found = succeeded(getattr(folder, other)(*words)).output
    if what == "pkcs12":  # it has attributes before the key
        found = succeeded(getattr(folder, other)("pkey", stdin=found)).output
    assert found == folder.read(wanted) != b""


@OF_SETS
@OF_MAKERS
def test_both_print_the_same_of_a_key(made, maker, other, of_set):
    folder, _ = made(maker, of_set)
    texts = [succeeded(by("pkey", "-in", "leaf.key", "-text")).output for by in (folder.ours, folder.theirs)]
    assert texts[0] == texts[1] != b""


@OF_SETS
@OF_MAKERS
def test_deterministic_signature_is_the_same(made, maker, other, of_set):
    folder, _ = made(maker, of_set)
    succeeded(folder.ours(*SIGN, "-inkey", "leaf.key", "-pkeyopt", "deterministic:1", "-pkeyopt", "workers:2", "-out",
                          "same.sig"))
    assert folder.read("same.sig") == folder.read("letter.sig")
    assert folder.counted()["signatures"] == 1


# ---- damaged files


def with_a_wrong_byte(data, at):
    """The same bytes with one changed: AT from the end."""
    return data[:-at] + bytes([data[-at] ^ 1]) + data[len(data) - at + 1:]


# The signature has 17,088 bytes at the end, and before these are the bytes that are signed.
@pytest.mark.parametrize("at", [1, 8000, 17000, 17200])
def test_damaged_certificate_is_refused(fast, at):
    """It is still a certificate."""
    data = succeeded(fast.ours("x509", "-in", "leaf.pem", "-outform", "DER")).output
    succeeded(fast.ours("verify", "-CAfile", "root.pem", "leaf.pem"))
    succeeded(fast.ours("x509", "-inform", "DER", "-out", "bad.pem", stdin=with_a_wrong_byte(data, at)))
    refusal = fast.ours("verify", "-CAfile", "root.pem", "bad.pem")
    assert refusal.status != 0 and b"certificate signature failure" in refusal.errors


@pytest.mark.parametrize("at", [1, 8000, 17000, 17200])
def test_damaged_cms_is_refused(fast, at):
    succeeded(fast.ours(*VERIFY_CMS, "letter.cms"))
    fast.write("bad.cms", with_a_wrong_byte(fast.read("letter.cms"), at))
    assert fast.ours(*VERIFY_CMS, "bad.cms").status != 0


@pytest.mark.parametrize("change", [
    *(pytest.param(lambda it, at=at: with_a_wrong_byte(it, at), id=f"wrong-byte-{at}") for at in (1, 8000, 17088)),
    pytest.param(lambda it: it[:-1], id="short"),
    pytest.param(lambda it: it + b"x", id="long"),
])
def test_damaged_signature_is_refused(fast, change):
    succeeded(fast.ours(*VERIFY, "letter.sig"))
    fast.write("bad.sig", change(fast.read("letter.sig")))
    assert fast.ours(*VERIFY, "bad.sig").status != 0


def test_dgst_of_another_message_is_refused(fast):
    words = ["dgst", "-verify", "leaf.pub", "-signature", "letter.dgst"]
    assert fast.ours(*words, "letter").status == 0 and fast.ours(*words, "letter.sig").status != 0


def der(tag, body):
    return bytes([tag, len(body)]) + body


def damaged_keys(key):
    """Copies of a private key of 128f: cut, with another length inside, and of another set or of none."""
    at = key.index(b"\x04\x40")
    head, bytes_of_key, identifier = key[2:at], key[at + 2:], bytes.fromhex("0304031504")
    return {"cut": key[:80], "short": der(0x30, head + der(4, bytes_of_key[:-1])),
            "half": der(0x30, head + der(4, bytes_of_key[:32])), "long": der(0x30, head + der(4, bytes_of_key + b"x")),
            "of_no_set": key.replace(identifier, bytes.fromhex("0304031304")),
            "of_another_set": key.replace(identifier, bytes.fromhex("0304031804"))}


def signs_with(folder, key, *words):
    """What came of signing with a key in DER, into made.sig."""
    folder.write("key.der", key)
    return folder.ours(*SIGN, "-inkey", "key.der", "-keyform", "DER", *words, "-out", "made.sig")


@pytest.fixture
def key(fast):
    """The private key of 128f in DER, which signs."""
    data = succeeded(fast.ours("pkey", "-in", "leaf.key", "-outform", "DER")).output
    succeeded(signs_with(fast, data))
    return data


@pytest.mark.parametrize("how", ["cut", "short", "half", "long", "of_no_set", "of_another_set"])
def test_damaged_key_is_refused(fast, key, how):
    damaged = damaged_keys(key)[how]
    assert damaged and damaged != key and signs_with(fast, damaged).status != 0


def test_key_with_a_wrong_seed_is_of_no_use(fast, key):
    """Two computations and several workers refuse to sign. Its public key takes no signature of one computation."""
    wrong = with_a_wrong_byte(key, 60)
    assert signs_with(fast, wrong).status != 0
    succeeded(signs_with(fast, wrong, "-pkeyopt", "twice:0"))
    assert fast.ours(*VERIFY, "made.sig").status != 0
    assert signs_with(fast, wrong, "-pkeyopt", "twice:0", "-pkeyopt", "workers:2").status != 0


@pytest.mark.parametrize("change", [
    pytest.param(lambda lines: [lines[0], lines[1][:8] + "*" + lines[1][9:], *lines[2:]], id="wrong-character"),
    pytest.param(lambda lines: [*lines[:2], *lines[3:]], id="missing-line")])
def test_damaged_pem_is_refused(fast, change):
    succeeded(fast.ours("pkey", "-in", "leaf.key", "-noout"))
    lines = fast.read("leaf.key").decode().splitlines()
    fast.write("bad.key", "".join(f"{it}\n" for it in change(lines)).encode())
    assert fast.ours("pkey", "-in", "bad.key", "-noout").status != 0


def test_revoked_certificate_is_refused(fast):
    """By the list that our provider signed."""
    ca = ["ca", "-config", "ca.cnf", *ROOT]
    succeeded(fast.ours(*ca, "-revoke", "leaf.pem"))
    succeeded(fast.ours(*ca, "-gencrl", "-out", "revoked.crl"))
    verify = ["verify", "-CAfile", "root.pem"]
    succeeded(fast.theirs(*verify, "leaf.pem"))
    refusal = fast.theirs(*verify, "-crl_check", "-CRLfile", "revoked.crl", "leaf.pem")
    assert refusal.status != 0 and b"certificate revoked" in refusal.errors


@pytest.mark.parametrize("maker", ["ours", "theirs"])
def test_no_digest_is_signed(fast, maker):
    """A digest is no message to either provider. With SIGN_INIT in its table ours would sign one, in CMS without signed
    attributes: if such CMS is made, it has to be valid."""
    by, leaf = getattr(fast, maker), ["-inkey", "leaf.key", "-in", "letter"]
    made = by(*SIGN_CMS, "-noattr", "-md", "sha512", *leaf, "-out", "digest.cms")
    assert made.status != 0 or fast.theirs(*VERIFY_CMS, "digest.cms").status == 0
    assert by("dgst", "-sha256", "-sign", "leaf.key", "-out", "bad.sig", "letter").status != 0
    assert by("pkeyutl", "-sign", *leaf, "-out", "bad.sig", "-pkeyopt", "digest:sha256").status != 0


# ---- the CA of two levels


def copy_ca(folder):
    folder.write("ca.cnf", (HERE / "examples/ca.cnf").read_bytes())
    folder.write("letter.txt", LETTER)


def run_ca(folder, config):
    calls = {"LD_PRELOAD": str(folder.provider.calls), "SLH_CALLS": str(folder.path / "calls")}
    return folder.lines(f"bash -x '{HERE}/examples/ca.sh'", config, **calls)


@pytest.fixture(scope="module")
def issued(provider, tmp_path_factory):
    """What examples/ca.sh issues, in its folder, with the calls that were counted."""
    folder = Folder(provider, tmp_path_factory.mktemp("ca"))
    copy_ca(folder)
    succeeded(run_ca(folder, provider.config))
    return folder, folder.counted()


@pytest.fixture(scope="module")
def accepted(issued, provider):
    """The same after the page's lines, by which an unchanged OpenSSL verifies all of it."""
    folder, _ = issued
    calls = {"LD_PRELOAD": str(provider.calls), "SLH_CALLS": str(folder.path / "calls")}
    succeeded(folder.lines(provider.page("A CA of two levels"), **calls))
    return folder


def test_ca_of_the_page_issues_by_slh(issued):
    _, counted = issued
    assert (counted["keys"], counted["signatures"]) == (6, 16)


def test_ca_of_the_page_is_accepted_by_an_unchanged_openssl(accepted):
    assert accepted.counted()["verdicts"] == 0
    assert accepted.read("letter.txt") == accepted.read("read.txt") == LETTER


def test_ca_overwrites_no_key(issued, provider):
    folder, _ = issued
    names = [it.name for pattern in ("*.key", "*.number") for it in folder.path.glob(pattern)]
    before = {it: folder.read(it) for it in names}
    assert len(names) > 6 and run_ca(folder, provider.config).status != 0
    assert {it: folder.read(it) for it in names} == before


def test_ca_issues_nothing_without_slh(provider, tmp_path):
    folder = Folder(provider, tmp_path)
    copy_ca(folder)
    assert run_ca(folder, "/dev/null").status != 0
    assert folder.has("root.key") and not folder.has("root.pem")


# What a CA's readers look for: the words that print a file, and texts of it, some with the line after them.
TEXTS = {
    "crl": (["crl", "-in", "issuing.crl", "-noout", "-text"],
            ["Version 2", r"X509v3 CRL Number: *\n +\d", "X509v3 Authority Key Identifier",
             r"Reason Code: *\n +Key Compromise"]),
    "leaf": (["x509", "-in", "www.pem", "-noout", "-text"],
             [r"Key Usage: critical\n +Digital Sig", r"Alternative Name: *\n +DNS:localhost", "Subject Key Identifier",
              "Authority Key Identifier", "OCSP - URI"]),
    "issuing": (["x509", "-in", "issuing.pem", "-noout", "-text"], ["CA:TRUE, pathlen:0"]),
    "time_stamp": (["ts", "-reply", "-in", "letter.tsr", "-text"], [r"(?m)^Policy OID: 1\.3\.6\.1\.4\.1\.32473\."]),
}


@pytest.mark.parametrize("what", TEXTS)
def test_ca_issues_what_readers_look_for(accepted, what):
    words, patterns = TEXTS[what]
    text = succeeded(accepted.theirs(*words)).output.decode()
    missing = [it for it in patterns if not re.search(it, text)]
    assert not missing, text


def test_ca_revokes_and_locks(accepted):
    assert b"revoked" in accepted.read("status") and b"BEGIN ENCRYPTED PRIVATE KEY" in accepted.read("locked.key")


@pytest.mark.parametrize("name", ["issuing", "root"])
def test_ca_issues_whole_subjects(issued, name):
    """A certificate has each field of the request, in its order, and a request is signed again to renew one."""
    folder, _ = issued
    fields = ["C=DE", "O=Ours", "OU=x", "CN=www.example", "DC=y", "emailAddress=a@example"]
    request = f"whole-{name}.csr"
    succeeded(folder.ours("req", "-config", "ca.cnf", "-new", "-key", "www.key", "-subj", "/" + "/".join(fields),
                          "-out", request))
    for made in f"whole-{name}.pem", f"again-{name}.pem":
        succeeded(folder.ours("ca", "-config", "ca.cnf", "-name", name, "-batch", "-notext", "-in", request, "-out", made))
        said = succeeded(folder.theirs("x509", "-in", made, "-noout", "-subject")).output
        assert said.decode() == f"subject={', '.join(fields)}\n"


def test_ca_renews_a_certificate(issued):
    folder, _ = issued
    succeeded(folder.theirs("verify", "-CAfile", "root.pem", "-untrusted", "issuing.pem", "signer.pem", "renewed.pem"))
