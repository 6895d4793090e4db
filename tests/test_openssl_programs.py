"""Tries the packages libslh1 and slh-openssl with programs that nobody here wrote, in a new Debian 13. The CA of two
levels of docs/OPENSSL.md issues the certificates. Each row of that page's table of programs is tried. nginx, Apache,
HAProxy, lighttpd, stunnel, Python, Node and `openssl s_server` speak TLS 1.3 with curl, Python, Node and `openssl
s_client`. Installations are broken under servers, clients, `openssl ca` and languages.

    pytest --all tests/test_openssl_programs.py
    pytest --all tests/test_openssl_programs.py -k nginx

The cases are functions of openssl_programs.sh. It takes 1.3 GB in out/tests and some minutes, and downloads 220 MB the
first time.
"""
import re
import shutil
import typing

import pytest

from support import HERE, free_port, need, succeed

PROGRAMS = ["openssl", "nginx-light", "apache2", "haproxy", "lighttpd", "lighttpd-mod-openssl", "stunnel4", "curl",
            "wget", "python3", "python3-cryptography", "nodejs", "php-cli", "ruby", "osslsigncode", "sbsigntool",
            "systemd-boot-efi", "ima-evm-utils", "valgrind", "tshark", "xxd", "procps"]
COPIED = ["tests/openssl_programs.sh", "examples/ca.sh", "examples/ca.cnf", "docs/OPENSSL.md"]
WHOLE, PKCS7 = "SLH-DSA hashes the message itself", "PKCS #7 has no SLH-DSA"
USE_CMS, AS_FILE = "`openssl cms -sign -md sha256`", "`openssl cms -sign -md sha256`, a separate file"
SERVERS = {"nginx": "nginx", "Apache": "apache", "HAProxy": "haproxy", "lighttpd": "lighttpd", "stunnel": "stunnel",
           "Python": "python", "Node": "node", "`openssl s_server`": "s_server"}
CLIENTS = {"curl": "curl", "Python": "python", "Node": "node", "`openssl s_client`": "s_client"}


class Row(typing.NamedTuple):
    """A row of the page: a program, by its group; the words of a case; if it does not sign, why, and what does."""

    program: str
    case: str
    why: str = ""
    instead: str = ""
    config: str = "slh.cnf"

    def signs(self):
        return not self.why


ROWS = [
    Row("`openssl`: `genpkey`, `req`, `x509`, `ca`, `crl`, `verify`", "ca"),
    Row("`openssl`: `ocsp`", "ocsp"),
    Row("`openssl`: `pkcs12 -export`", "pkcs12"),
    Row("`openssl`: `pkeyutl -sign -rawin`", "openssl pkeyutl -rawin"),
    Row("`openssl`: `dgst -sign`", "dgst"),
    Row("`openssl`: `cms -sign -md sha256`", "cms -md sha256"),
    Row("`openssl`: `dgst -sha256 -sign`", "dgst -sha256", WHOLE, "leave out `-sha256`"),
    Row("`openssl`: `dgst -sign` of over 16 MiB", "dgst_of_more", "`dgst` reads no more", "`pkeyutl -sign -rawin`"),
    Row("`openssl`: `cms -sign` without `-md`", "cms", "it finds no digest for the key", "`-md sha256`"),
    Row("`openssl`: `cms -sign -noattr`", "cms -noattr -md sha256", "it would sign a digest", "leave out `-noattr`"),
    Row("`openssl`: `smime -sign`", "smime", PKCS7, USE_CMS),
    Row("`openssl`: `ts -reply` with an SLH-DSA key", "ts", f"{PKCS7}; status 0", "an ECDSA key"),
    Row("languages: Node `crypto.sign(null, ..)`", "node"),
    Row("languages: Ruby `OpenSSL::PKey#sign(nil, ..)`", "ruby"),
    Row("languages: PHP `openssl_sign` with algorithm 0", "php 0"),
    Row("languages: Node `crypto.sign` of more than `max_message`", "long_node", "it says `invalid data`",
        "raise `max_message`"),
    Row("languages: PHP `openssl_sign` with a digest", "php sha256", WHOLE, "algorithm 0"),
    Row("languages: Python `cryptography` 43", "cryptography", "it has no SLH-DSA keys",
        "[our package](../bindings/README.md)"),
    Row("`sign-file` of Linux 6.12", "sign_file", "it signs CMS without attributes", "an ECDSA key"),
    Row("`evmctl ima_sign`", "evmctl", "its format has room for 1 KB; status 0", "an ECDSA key"),
    Row("PE files: `osslsigncode`", "osslsigncode", PKCS7, AS_FILE),
    Row("PE files: `sbsign`", "sbsign", PKCS7, AS_FILE),
    *(Row(f"TLS 1.3 servers: {name}", f"server {word}", config="tls.cnf") for name, word in SERVERS.items()),
    *(Row(f"TLS 1.3 clients: {name}", f"client {word}", config="tls.cnf") for name, word in CLIENTS.items()),
    Row("TLS 1.3 clients: wget", "client wget", "it has GnuTLS", "curl", "tls.cnf"),
]
OF_TLS = ["code_points_are_wiresharks", "each_set_serves", "chains_of_256f", "nginx_reloads", "two_certificates",
          "others_are_refused", "valgrind_sees_nothing"]
# How an installation is broken, and the cases that run before and after it.
WAYS = ["at_a_wrong_path", "without_the_library", "with_an_older_library", "with_a_lesser_library",
        "with_an_unreadable_module", "with_lost_settings"]
FEW_WAYS = ["without_the_library", "with_lost_settings"]
BROKEN = [f"{way} runs_{it}" for way in WAYS for it in ("nginx", "ca", "python")]
BROKEN += [f"{way} runs_server {it}" for way in FEW_WAYS for it in SERVERS.values() if it not in ("nginx", "python")]
BROKEN += [f"{way} {it}" for way in FEW_WAYS for it in ("runs_curl", "by_php 0", "by_ruby")]


# ---- the page


def table():
    """The page's table. Programs of a group that differ in nothing else share a row."""
    rows = {}
    for number, it in enumerate(ROWS):
        group, colon, name = it.program.rpartition(": ")
        rest = f"| {'yes' if it.signs() else 'no'} | {it.why} | {it.instead} |"
        rows.setdefault((group or number, rest), []).append(name if rows.get((group or number, rest)) else it.program)
    return [f"| {', '.join(names)} {rest}" for (_, rest), names in rows.items()]


def test_page_has_the_table_of_programs():
    section = re.search(r"^## Programs\n(.*?)^## ", (HERE / "docs/OPENSSL.md").read_text(), re.M | re.S)[1]
    head = ["| program | signs by `slh` | why not | instead |", "|---|---|---|---|"]
    assert [it for it in section.splitlines() if it.startswith("|")] == head + table()


# ---- a Debian 13 with these programs


def make_wrong_libraries(package, work, folder):
    """A libslh.so.1 of an earlier version, and one in which a call is missing."""
    need("cc", "nm")
    succeed("dpkg", "-x", package, work)
    module, = work.glob("usr/lib/*/ossl-modules/slh.so")
    calls = sorted({*re.findall(r" U (slh_[a-z_]*)", succeed("nm", "-D", "--undefined-only", module).decode())})
    for name, some in {"older": calls, "lesser": [it for it in calls if it != "slh_sign_join"]}.items():
        (folder / name).mkdir()
        text = "".join(f"unsigned {it}(void) {{ return 9000; }}\n" for it in some)
        succeed("cc", "-shared", "-fPIC", "-Wl,-soname,libslh.so.1", "-x", "c", "-", "-o", folder / name / "libslh.so.1",
                stdin=text.encode())


def install_packages(root, debs):
    """Installs libslh1, slh-openssl and the newest sign-file of Linux."""
    root.succeed("apt-get", "-q", "update")
    said = root.succeed("apt-cache", "search", "--names-only", "^linux-kbuild-6").decode()
    kbuild = max((it.split()[0] for it in said.splitlines()), key=lambda it: [*map(int, re.findall(r"\d+", it))])
    (root.top / "slh/debs").mkdir()
    for it in debs:
        shutil.copy(it, root.top / "slh/debs")
    root.install(kbuild, *(f"/slh/debs/{it.name}" for it in debs))


@pytest.fixture(scope="module")
def root(debian, oracle, release, tmp_path_factory):
    """A Debian 13 with the packages, the programs and what the page's CA issues."""
    work = tmp_path_factory.mktemp("packages")
    succeed(HERE / "tools/debian.sh", release, work / "debs")
    debs = [it for name in ("libslh1", "slh-openssl") for it in (work / "debs").glob(f"{name}_*.deb")]
    if len(debs) < 2:
        pytest.skip("tools/debian.sh made no slh-openssl (it takes OpenSSL 3.5, which tools/setup.sh installs)")
    made = debian("trixie", *PROGRAMS)
    for it in COPIED:
        (made.top / "slh" / it).parent.mkdir(exist_ok=True)
        shutil.copy(HERE / it, made.top / "slh" / it)
    make_wrong_libraries(debs[1], work / "unpacked", made.top / "slh")
    install_packages(made, debs)
    made.succeed("tests/openssl_programs.sh", "makes_certificates")
    return made


@pytest.fixture
def passes(root):
    """Runs a case by its words."""

    def runs(*words):
        return root.succeed("env", f"PORT={free_port()}", "tests/openssl_programs.sh", *words)

    return runs


# ---- the cases


@pytest.mark.parametrize("row", ROWS, ids=[it.case for it in ROWS])
def test_program(passes, row):
    """It signs, or does not, as the page says."""
    passes("signs" if row.signs() else "signs_not", row.config, *f"by_{row.case}".split())


def test_words_of_node_for_a_message_above_max_message(passes):
    passes("node_says_invalid_data")


@pytest.mark.parametrize("case", OF_TLS)
def test_tls(passes, case):
    passes(case)


@pytest.mark.parametrize("case", BROKEN)
def test_program_stops_over_a_broken_installation(passes, case):
    """Under slh.cnf. Under a configuration that only activates the provider it goes on."""
    passes("stops", *case.split())


@pytest.mark.parametrize("program", ["nginx", "ca", "python"])
def test_program_stops_by_openssl_cnf(passes, program):
    """By the page's line, for programs that are told of no other configuration."""
    passes("stops_by_openssl_cnf", program)
