"""Runs the commands of docs/RELEASES.md, each block after those that make its files, and tools/show.sh. The commands
that have to fail do so: a second run overwrites no key, and another secret publishes nothing. A program that accepts a
damaged letter fails tools/show.sh. Each block of a page that makes a key has `set -C`, and each line that signs has
`--twice`.
"""
import os
import pathlib
import pty
import re
import select
import shutil
import signal

import pytest

from support import HERE, block_of, blocks_of, need, run

PAGE = "docs/RELEASES.md"
# The pages whose blocks are read for `set -C` and `--twice`.
PAGES_THAT_SIGN = ["README.md", "SECURITY.md", "bindings/README.md", "examples/README.md",
                   *sorted(f"docs/{it.name}" for it in HERE.glob("docs/*.md"))]
PASS_PHRASE = b"correct horse battery staple\n"
MOST_SECONDS = 120
PROMPT = re.compile(rb"(pass ?(phrase|word))[^\n]*: ?$", re.I)
MAKE, KEEP, ROOT, CI = "Make the key", "Keep the key", "An offline root, and new keys", "Sign in CI"
slow = pytest.mark.slow


# ---- the texts of pages


def test_releases_has_a_test_of_each_block():
    """Those below: a block that is added to the page needs one."""
    tested = [MAKE, *(5 * [KEEP]), ROOT, "Sign by hand", CI, "The device", "The receivers"]
    assert [heading for heading, _ in blocks_of(PAGE)] == tested


def test_releases_has_the_lines_of_languages():
    """Each line of the table for a language is in the page or the header that the row links to."""
    rows = re.findall(r"^\| \[[^]]*\]\(\.\./([^)]+)\) \| `(.+?)`", (HERE / PAGE).read_text(), re.M)
    assert len(rows) == 7 and not [row for row in rows if row[1] not in (HERE / row[0]).read_text()]


def test_readme_begins_with_two_commands():
    """The first shows the whole job, and the second is the test command."""
    assert [text for _, text in blocks_of("README.md")][:2] == ["tools/show.sh", "tools/test.sh"]


def test_blocks_that_make_keys_overwrite_none():
    blocks = [(page, *it) for page in PAGES_THAT_SIGN for it in blocks_of(page)]
    makers = [it for it in blocks if re.search(r"\bslh keygen\b.*>", it[2])]
    assert len(makers) >= 3 and not [it for it in makers if not re.search("set -e?C", it[2])]


def test_lines_that_sign_do_so_twice():
    lines = [(page, line) for page in PAGES_THAT_SIGN for _, text in blocks_of(page)
             for line in re.sub(r"\\\n\s*", "", text).split("\n") if re.search(r"\bslh sign\b", line)]
    assert len(lines) >= 4 and not [it for it in lines if "--twice" not in it[1]]


# ---- tools/show.sh

# A program that the show is run with, and the status that the show has to end with: $PROGRAM is the right one.
SHOWN = {
    "right": (0, 'exec "$PROGRAM" "$@"'),
    "accepts-damaged-letters": (1, '[ "$1" != verify ] || { echo valid; exit 0; }; exec "$PROGRAM" "$@"'),
    "says-invalid-with-status-0": (1, '"$PROGRAM" "$@"; exit 0'),
    "accepts-nothing": (1, '[ "$1" != verify ] || { echo invalid; exit 1; }; exec "$PROGRAM" "$@"'),
    "writes-no-signature": (1, '[ "$1" != sign ] || exit 0; exec "$PROGRAM" "$@"'),
    "finds-a-fault": (1, '[ "$1" != sign ] || { echo "slh: 38 Fault" >&2; exit 2; }; exec "$PROGRAM" "$@"'),
}


def write_script(path, text):
    path.write_text(f"#!/bin/bash\n{text}\n")
    path.chmod(0o755)


@pytest.fixture
def show(program, tmp_path):
    """Runs tools/show.sh of a copy with a script as its program: the outcome, and the files that it made."""

    def runs(text):
        copy = tmp_path / "copy"
        (copy / "tools").mkdir(parents=True)
        shutil.copy(HERE / "tools/show.sh", copy / "tools")
        write_script(copy / "slh", text)
        done = run(copy / "tools/show.sh", tmp_path / "shown", env={**os.environ, "PROGRAM": program})
        return done, {it.name for it in (tmp_path / "shown").iterdir()}

    return runs


@pytest.mark.parametrize("which", SHOWN)
def test_show_ends_with_its_status(show, which):
    """And says why it failed."""
    wanted, text = SHOWN[which]
    done, _ = show(text)
    assert done.status == wanted and bool(done.errors) == (wanted != 0), done


def test_show_prints_each_command_with_its_time(show):
    done, made = show(SHOWN["right"][1])
    commands = re.findall(r"^\$ (.*)\n((?:.*\n)*?) +\d+ ms$", done.output.decode(), re.M)
    assert len(commands) >= 8 and "letter.sig" in made


# ---- the commands of RELEASES


def run_in_terminal(words, folder, environment):
    """The status and the output of a command in a terminal. Each question for a pass phrase gets one. A command that
    is silent for too long is ended."""
    child, terminal = pty.fork()
    if child == 0:
        os.chdir(folder)
        os.execvpe(words[0], words, environment)
    output = b""
    try:
        while select.select([terminal], [], [], MOST_SECONDS)[0]:
            output += os.read(terminal, 4096)
            if PROMPT.search(output):
                output += b"\n"
                os.write(terminal, PASS_PHRASE)
    except OSError:  # The terminal of a child that has ended.
        pass
    else:
        os.kill(child, signal.SIGKILL)
    status = os.waitstatus_to_exitcode(os.waitpid(child, 0)[1])
    os.close(terminal)  # Not before: the child would be hung up.
    return status, output.decode(errors="replace").replace("\r\n", "\n")


class Releases:
    """The commands of the page in a folder, with `slh` on the path."""

    def __init__(self, folder, program):
        self.folder = folder
        tools = folder / "bin"
        tools.mkdir(exist_ok=True)
        if not (tools / "slh").is_symlink():
            (tools / "slh").symlink_to(program)
            if openssl := shutil.which("openssl-3.5"):
                (tools / "openssl").symlink_to(openssl)
            # The machine's own keys are not made for a test: systemd's null key takes their place.
            write_script(tools / "systemd-creds", 'word=$1; shift; [ "$word" = decrypt ] || '
                         f'set -- --with-key=auto-initrd "$@"\nexec {shutil.which("systemd-creds")} "$word" "$@"')
        self.environment = {**os.environ, "PATH": f"{tools}:{os.environ['PATH']}"}
        self.environment.pop("SLH_SECRET_KEY", None)

    def run(self, heading, number=1, after="", **more):
        """Runs the block of a heading, and commands after it: the status, and the lines that it printed."""
        words = ["bash", "--norc", "-e", "-o", "pipefail", "-c", f"{block_of(PAGE, heading, number)}\n{after}"]
        status, output = run_in_terminal(words, self.folder, {**self.environment, **more})
        return status, output.split("\n")

    def succeed(self, *asked, **more):
        """The lines of a block that has to end with 0."""
        status, lines = self.run(*asked, **more)
        assert status == 0, lines
        return lines

    def read(self, name):
        return (self.folder / name).read_text()


@pytest.fixture(scope="module")
def keyed(program, tmp_path_factory):
    """A folder in which the page's first block has made a key, in memory."""
    need("openssl", "xxd")
    if not pathlib.Path("/dev/shm").is_dir():
        pytest.skip("there is no /dev/shm (mount a tmpfs there)")
    try:
        for it in pty.openpty():
            os.close(it)
    except OSError:
        pytest.skip("there are no pseudo-terminals (mount /dev/pts)")
    folder = tmp_path_factory.mktemp("releases")
    Releases(folder, program).succeed(MAKE, after=f'! : > secret.key; cp secret.key public.key {folder}; rm -r "$PWD"')
    return folder


@pytest.fixture
def page(keyed, program, tmp_path):
    """The page's commands in a folder of their own, which has a key."""
    shutil.copytree(keyed, tmp_path / "page", symlinks=True)
    return Releases(tmp_path / "page", program)


@pytest.fixture
def root(page):
    """The same after the block that makes another key, the root, which signs the first."""
    assert "valid" in page.succeed(ROOT)
    return page


@pytest.fixture
def by_hand(page):
    """The same after an image is signed by hand."""
    (page.folder / "firmware.bin").write_bytes(b"firmware" * 1000)
    assert "valid" in page.succeed("Sign by hand")
    return page


@pytest.fixture
def listed(by_hand):
    """The same after a list is signed in CI."""
    assert "valid" in by_hand.succeed(CI, SLH_SECRET_KEY=by_hand.read("secret.key").rstrip("\n"))
    return by_hand


def test_releases_makes_a_key_that_others_can_not_read(page):
    assert page.read("secret.key").startswith("slh-dsa-secret ")
    assert (page.folder / "secret.key").stat().st_mode & 0o77 == 0


@slow
@pytest.mark.parametrize("number, tool", [(1, "openssl"), (2, "age"), (3, "systemd-creds")], ids=lambda it: str(it))
def test_releases_encrypts_and_restores(page, number, tool):
    """The encrypted file does not have the digits of the key, and the restored one is the key."""
    need(tool)
    before = set(page.folder.iterdir())
    page.succeed(KEEP, number)
    made = [it.read_bytes() for it in set(page.folder.iterdir()) - before if it.name != "restored.key"]
    digits = page.read("secret.key").split("\n")[2].encode()
    assert len(made) == 1 and digits not in made[0]
    assert page.read("restored.key") == page.read("secret.key")


@slow
def test_releases_tries_a_copy(page):
    shutil.copy(page.folder / "secret.key", page.folder / "restored.key")
    assert "consistent" in page.succeed(KEEP, 4)
    head, name, digits, *rest = page.read("secret.key").split("\n")
    damaged = "%x" % (int(digits[0], 16) ^ 1) + digits[1:]
    (page.folder / "restored.key").write_text("\n".join([head, name, damaged, *rest]))
    assert page.run(KEEP, 4)[0] != 0


@slow
def test_releases_splits_a_key_into_shares(page):
    need("ssss-split")
    page.succeed(KEEP, 5)
    assert page.read("joined.key") == page.read("secret.key") and len(page.read("shares").splitlines()) == 3


@slow
def test_releases_makes_a_root_once(root):
    made = root.read("root.key")
    assert root.run(ROOT)[0] != 0 and root.read("root.key") == made


@slow
def test_releases_signs_by_hand(by_hand):
    assert (by_hand.folder / "firmware.sig").stat().st_size > 7000


@slow
def test_releases_signs_nothing_in_ci_without_a_key(by_hand):
    assert by_hand.run(CI)[0] != 0 and not (by_hand.folder / "SHA256SUMS.sig").exists()


@slow
def test_releases_publishes_nothing_in_ci_under_another_key(root, by_hand):
    status, lines = by_hand.run(CI, SLH_SECRET_KEY=root.read("root.key").rstrip("\n"))
    assert status == 1 and "invalid" in lines


@slow
def test_releases_signs_once_in_ci(listed):
    assert not (listed.folder / "ci.key").exists()
    before = (listed.folder / "SHA256SUMS.sig").read_bytes()
    assert listed.run(CI, SLH_SECRET_KEY=listed.read("secret.key").rstrip("\n"))[0] != 0
    assert (listed.folder / "SHA256SUMS.sig").read_bytes() == before


@slow
def test_releases_writes_the_key_as_c(page):
    page.succeed("The device")
    numbers = bytes(int(it, 16) for it in re.findall("0x..", page.read("public_key.h")))
    assert numbers.hex() == page.read("public.key").split("\n")[2]


@slow
def test_releases_verifies_by_openssl(listed):
    need("openssl-3.5")
    assert "Signature Verified Successfully" in listed.succeed("The receivers")
    (listed.folder / "public.pem").unlink()
    with open(listed.folder / "SHA256SUMS", "a") as file:
        file.write("\n")
    assert listed.run("The receivers")[0] != 0
