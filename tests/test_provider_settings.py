"""How OpenSSL chooses the provider `slh`, and the configuration slh.cnf: it sets workers, twice and the limit of
messages in pieces. A wrong value is refused. If the installation is broken, no program starts, and none signs by the
default provider. The lines of docs/OPENSSL.md run as they are there.
"""
import hashlib
import os
import re
import shutil

import pytest

from provider import CA_CONFIG, FAST, LETTER, Folder, succeeded
from support import need, run, succeed

SIGN = ["pkeyutl", "-sign", "-rawin", "-inkey", "leaf.key", "-in", "letter"]
SURE = "Be sure that it signs"
slow = pytest.mark.slow


@pytest.fixture(scope="module")
def made(provider, tmp_path_factory):
    """Keys of 128f, a certificate, a request, and the deterministic signature of a letter, all by the default one."""
    folder = Folder(provider, tmp_path_factory.mktemp("keys"))
    folder.write("letter", LETTER)
    folder.write("ca.cnf", CA_CONFIG.encode())
    req = ["req", "-config", "ca.cnf", "-new"]
    for words in [
        ["genpkey", "-algorithm", FAST, "-out", "root.key"], ["genpkey", "-algorithm", FAST, "-out", "leaf.key"],
        ["pkey", "-in", "leaf.key", "-pubout", "-out", "leaf.pub"],
        [*req, "-x509", "-key", "root.key", "-subj", "/CN=root", "-extensions", "root", "-out", "root.pem"],
        [*req, "-key", "leaf.key", "-subj", "/CN=leaf", "-out", "leaf.csr"],
        [*SIGN, "-pkeyopt", "deterministic:1", "-out", "letter.sig"],
    ]:
        succeeded(folder.theirs(*words))
    return folder


@pytest.fixture
def folder(made, tmp_path):
    return made.copy(tmp_path / "folder")


def known_by(folder, *added, config=None):
    """The calls that are counted while the known signature is made: the library's, if it is the provider that signs."""
    (folder.path / "known.sig").unlink(missing_ok=True)
    folder.counted()
    words = [SIGN[0], *added, *SIGN[1:], "-pkeyopt", "deterministic:1", "-out", "known.sig"]
    succeeded(folder.counting(*words, config=config))
    assert folder.read("known.sig") == folder.read("letter.sig")
    return folder.counted()


def says(folder, config):
    """What the provider says of its settings under a configuration, or None."""
    listed = succeeded(folder.under(config, "list", "-providers", "-verbose")).output.decode()
    found = re.search("build info: (workers=.*)", listed)
    return found and found[1]


# ---- it is chosen


@slow
def test_chosen_as_the_page_says(folder, provider):
    succeeded(folder.lines(provider.page("Choose it")))
    succeeded(folder.theirs("pkey", "-in", "key.pem", "-noout", "-check"))


@slow
def test_chosen_by_a_query(folder, provider):
    assert known_by(folder, *provider.chosen)["signatures"] == 1


def test_chosen_by_a_configuration(folder, provider):
    assert known_by(folder, config=provider.config)["signatures"] == 1


# A configuration that has it behind the default provider needs a query, as the command line does.
BEHIND = """openssl_conf = main
[main]
providers = all
{query}
[all]
default = the_default
slh = slh
[the_default]
activate = 1
[slh]
activate = 1
module = {modules}/slh.so
[query]
default_properties = ?provider=slh
"""


@slow
@pytest.mark.parametrize("query, signatures", [("alg_section = query", 1), ("", 0)], ids=["query", "no-query"])
def test_chosen_behind_the_default_one(folder, provider, query, signatures):
    config = folder.write("behind.cnf", BEHIND.format(query=query, modules=provider.modules).encode())
    assert known_by(folder, config=config)["signatures"] == signatures


@slow
@pytest.mark.parametrize("order, signatures", [("slh default", 1), ("default slh", 0)], ids=["first", "second"])
def test_chosen_by_its_place(folder, provider, order, signatures):
    words = [word for name in order.split() for word in ("-provider", name)]
    assert known_by(folder, "-provider-path", provider.modules, *words)["signatures"] == signatures


# A program that asks OpenSSL for any other provider has them sorted by name, so that the default one is first. The last
# section of slh.cnf has slh sign for it, too.
@slow
@pytest.mark.parametrize("added, without, signatures", [
    pytest.param([], [], 1, id="slh.cnf"),
    pytest.param([], [(r"^alg_section.*\n", "")], 0, id="without-its-query"),
    pytest.param(["-propquery", "provider!=fips"], [], 1, id="another-query"),
])
def test_chosen_beside_others(folder, provider, added, without, signatures):
    config = provider.changed_config(folder.path / "sorted.cnf", *without)
    assert known_by(folder, "-provider", "base", *added, config=config)["signatures"] == signatures


# ---- the settings


def settings(provider, path, workers, twice):
    """A configuration with these settings, which it also requires."""
    return provider.changed_config(path, (r"^workers = .*", f"workers = {workers}"),
                                   (r"^twice = .*", f"twice = {twice}"),
                                   (r"^settings = .*", f"settings = workers={workers} twice={twice}"))


@slow
@pytest.mark.parametrize("workers, twice", [(4, 0), (1, 1), (64, 0)])
def test_configuration_sets_workers_and_twice(folder, provider, workers, twice):
    """By `twice` each job is done two times."""
    config = settings(provider, folder.path / "set.cnf", workers, twice)
    counted = known_by(folder, config=config)
    assert counted["signatures"] == 1 and counted["jobs"] >= 50
    assert says(folder, config).startswith(f"workers={workers} twice={twice} tls=none")


@slow
def test_configuration_as_installed_does_each_job_two_times(folder, provider):
    counted = known_by(folder, config=provider.config)
    assert (counted["signatures"], counted["jobs"]) == (1, 110)


@slow
@pytest.mark.parametrize("line", [
    "workers = 0", "workers = 65", "workers = -1", "workers = 4x", "workers = four", "workers = +1",
    "workers = 99999999999999999999", "twice = 2", "twice = yes", "tls = yes", "tls = 1", "tls = drafts",
    "max_message = 1099511627777", "max_message = 64M", "max_message = -1"])
def test_configuration_with_a_wrong_value_is_refused(folder, provider, line):
    """Nothing is signed, by the default provider neither. Verifying goes on. Here no settings are required."""
    name = line.split()[0]
    replaced = [(rf"^{name} = .*\n", "")] if name in ("workers", "twice") else []
    config = provider.changed_config(folder.path / "set.cnf", (r"^slh_required = .*\n", ""), *replaced,
                                     (r"^(module = .*)", rf"\1\n{line}"))
    refusal = folder.counting(*SIGN, "-out", "new.sig", config=config)
    assert refusal.status != 0 and not folder.has("new.sig") and folder.counted()["signatures"] == 0
    assert b"slh: in the configuration workers is" in refusal.errors
    succeeded(folder.under(config, "pkeyutl", "-verify", "-rawin", "-pubin", "-inkey", "leaf.pub", "-in", "letter",
                           "-sigfile", "letter.sig"))


@slow
def test_limit_of_messages_in_pieces_is_set(folder, provider):
    """provider_pieces.c tests what the limit does."""
    config = provider.changed_config(folder.path / "set.cnf", (r"^# max_message = .*", "max_message = 0"))
    assert says(folder, config).endswith(" max_message=0")


# ---- installations that are broken


class Installation:
    """An installation that can be broken, and two configurations of it: `closed`, which is slh.cnf, and `open`, which
    only activates it, as OpenSSL's own pages say."""

    def __init__(self, folder, provider):
        self.folder, self.provider, self.lib = folder, provider, folder.path / "broken/lib"
        self.module = self.lib / "ossl-modules/slh.so"
        shutil.copytree(provider.modules, self.lib / "ossl-modules")
        for it in provider.prefix.glob("lib/libslh.so*"):
            shutil.copy2(it, self.lib / it.name, follow_symlinks=False)
        moved = (re.escape(str(provider.modules)), str(self.lib / "ossl-modules"))
        self.closed = provider.changed_config(folder.path / "closed.cnf", moved)
        self.open = provider.changed_config(folder.path / "open.cnf", moved, (r"^slh_required = .*\n", ""),
                                            (r"^config_diagnostics.*\n", ""))

    def signs(self, config):
        """Whether a letter is signed. A refusal writes nothing."""
        return self.writes("new.sig", self.folder.under(config, *SIGN, "-out", "new.sig"))

    def issues(self, config, *words):
        """Whether a certificate is issued. A refusal writes nothing."""
        self.folder.write("index.txt", b"")
        return self.writes("new.pem", self.folder.under(
            config, "ca", "-config", "ca.cnf", "-batch", "-cert", "root.pem", "-keyfile", "root.key", "-in", "leaf.csr",
            "-out", "new.pem", "-notext", *words))

    def writes(self, name, outcome):
        is_written = self.folder.has(name)
        (self.folder.path / name).unlink(missing_ok=True)
        assert is_written == (outcome.status == 0), outcome
        return is_written

    # The ways to break it

    def without_the_module(self):
        self.module.unlink()

    def with_an_empty_module(self):
        self.module.write_bytes(b"")

    def with_another_module(self):
        shutil.copy(self.provider.calls, self.module)

    def without_the_library(self):
        for it in self.lib.glob("libslh.so*"):
            it.unlink()

    def with_an_older_library(self, *without):
        """A library of version 0.9.0, or one that lacks calls."""
        listed = succeed("nm", "-D", "--undefined-only", self.module).decode()
        calls = [it for it in re.findall(r" U (slh_\w+)", listed) if it not in without]
        assert calls
        text = "".join(f"unsigned {it}(void) {{ return 9000; }}\n" for it in calls).encode()
        succeed("cc", "-shared", "-fPIC", "-Wl,-soname,libslh.so.1", "-x", "c", "-", "-o", self.lib / "libslh.so.1",
                stdin=text)

    def with_a_lesser_library(self):
        self.with_an_older_library("slh_sign_join")

    def with_lost_settings(self):
        """The CA asks for four workers, by a misspelt name, so its provider does not get this."""
        for config in self.closed, self.open:
            text = config.read_text().replace("\nworkers = 1", "\nworkres = 4")
            config.write_text(re.sub("(?m)^settings = .*", "settings = workers=4 twice=1", text))
            assert "workres" in config.read_text()


@pytest.fixture
def installation(folder, provider):
    need("nm", "cc")
    return Installation(folder, provider)


@pytest.mark.parametrize("way", [
    "without_the_library",
    *(pytest.param(it, marks=slow) for it in (
        "without_the_module", "with_an_empty_module", "with_another_module", "with_an_older_library",
        "with_a_lesser_library", "with_lost_settings")),
])
def test_nothing_starts(installation, way):
    """Programs go on under the open configuration, which shows that there is something to close."""
    assert installation.signs(installation.open) and installation.signs(installation.closed)
    getattr(installation, way)()
    assert installation.signs(installation.open) and installation.issues(installation.open)
    assert not installation.signs(installation.closed) and not installation.issues(installation.closed)
    assert installation.folder.under(installation.closed, "list", "-providers").status != 0


# ---- configurations that are lost


def is_sure(folder, config):
    """Whether the page's line for scripts says that slh signs under a configuration."""
    return folder.lines(folder.provider.page(SURE).splitlines()[0], config).status == 0


def starts(folder, config):
    """Whether the page's lines have systemd start a service under a configuration: the command of ExecStartPre."""
    lines = folder.provider.page("Before a service starts")
    assert lines.startswith("[Service]\n") and "\nEnvironment=OPENSSL_CONF=" in lines
    return folder.lines(lines.split("\nExecStartPre=")[1], config).status == 0


@slow
def test_lost_configuration_is_told_by_the_page(folder, provider):
    assert is_sure(folder, provider.config) and not is_sure(folder, folder.path / "none.cnf")


@slow
def test_lost_configuration_refuses_workers_of_ca(installation, provider):
    """OpenSSL goes on if it can't read the file, but the default provider does not know this parameter."""
    lost, words = installation.folder.path / "none.cnf", ["-sigopt", "workers:1"]
    assert installation.issues(lost) and installation.issues(provider.config, *words)
    assert not installation.issues(lost, *words)


@slow
@pytest.mark.parametrize("words", [
    ["req", "-config", "ca.cnf", "-x509", "-new", "-key", "leaf.key", "-subj", "/CN=x", "-sigopt"],
    ["dgst", "-sign", "leaf.key", "-sigopt"],
    ["x509", "-req", "-in", "leaf.csr", "-CA", "root.pem", "-CAkey", "root.key", "-sigopt"],
    [*SIGN, "-pkeyopt"],
], ids=lambda it: it[0])
def test_lost_configuration_refuses_workers(folder, provider, words):
    words = [*words, "workers:1"]
    assert succeeded(folder.under(provider.config, *words, stdin=LETTER)).output
    lost = folder.under(folder.path / "none.cnf", *words, stdin=LETTER)
    assert lost.status != 0 and lost.output == b""


SYNTAX = [(r"^# tls = draft", "tls draft"), (r"^\[slh_settings\]", "[slh_settings"), (r"^\[default\]", "[default")]


@slow
@pytest.mark.parametrize("way", SYNTAX, ids=["setting", "section", "first-section"])
def test_syntax_error_is_told(folder, provider, way):
    """It has OpenSSL ignore all of the file, so the default provider signs."""
    config = provider.changed_config(folder.path / "syntax.cnf", way)
    assert known_by(folder, config=config)["signatures"] == 0
    assert not is_sure(folder, config) and not starts(folder, config)


@slow
def test_cut_configuration_is_told(folder, provider):
    """The page's line succeeds only if slh signs, after each 29th cut, from a place on that SLH_SEED draws."""
    data, cut = provider.config.read_bytes(), folder.path / "cut.cnf"
    first = hashlib.sha256(os.environ["SLH_SEED"].encode()).digest()[0] % 29
    assert len(data) > 1000
    for length in range(first, len(data), 29):
        cut.write_bytes(data[:length])
        assert not is_sure(folder, cut) or known_by(folder, config=cut)["signatures"] == 1, length


@slow
def test_service_does_not_start_without_it(folder, provider):
    assert starts(folder, provider.config) and not starts(folder, folder.path / "none.cnf")


@slow
def test_service_is_one_to_systemd(folder, provider):
    need("systemd-analyze")
    text = provider.page("Before a service starts") + "\nExecStart=/bin/true\n"
    succeed("systemd-analyze", "verify", folder.write("page.service", text.encode()))


@slow
def test_appended_to_openssl_cnf_it_is_closed(installation, folder):
    """By the page's line, to a file as it is installed."""
    config = folder.write("openssl.cnf", b"openssl_conf = openssl_init\n[openssl_init]\nproviders = provider_sect\n"
                          b"[provider_sect]\ndefault = default_sect\n[default_sect]\nactivate = 1\n[req]\n")
    line = folder.provider.page(SURE).splitlines()[1]
    assert "/etc/ssl/slh.cnf" in line and "/etc/ssl/openssl.cnf" in line
    line = line.replace("/etc/ssl/slh.cnf", str(installation.closed)).replace("/etc/ssl/openssl.cnf", str(config))
    succeeded(run("bash", "-e", "-c", line))
    assert installation.signs(config) and is_sure(folder, config)
    installation.without_the_library()
    assert not installation.signs(config) and not installation.issues(config)
