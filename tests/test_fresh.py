"""Tests the repository on new machines: a minimal Debian 12, which has the files of `git archive`, and a minimal Debian
13, which has a clone. Interactive shells (dash, bash and zsh) run README's commands one by one, as if they were pasted.
Then a user without rights runs the test command, which has to name the missing tools and skip. Then root runs it, and it
has to install them. Nothing may fail.

    pytest --all tests/test_fresh.py               both, and there all tests
    pytest tests/test_fresh.py -k "12 and zsh"     one case

The gate makes Debian 12 alone. There the test command installs the tools of --few, and runs one test of each file: the
others show no more there. A system takes up to 7 GB of the folder for temporary files while it is tested.
"""
import os
import re
import shutil

import pytest

from conftest import skip_unless_asked
from support import HERE, block_of, run, succeed

NAMES = {"12": "bookworm", "13": "trixie"}
SHELLS = ["dash -i", "bash --norc -i", "zsh -f -i"]
MADE = ["letter.txt", "letter.sig", "public.key", "secret.key"]
AS_NOBODY = ["setpriv", "--reuid=65534", "--regid=65534", "--clear-groups", "env", "-u", "HOME"]
OF_DEBIAN = [pytest.mark.debian, pytest.mark.slow]


def blocks_under(heading):
    """README's blocks of lines under a heading, as one text."""
    text, number = "", 1
    while True:
        try:
            text, number = text + block_of("README.md", heading, number) + "\n", number + 1
        except IndexError:
            return text


# ---- README


def test_readme_names_one_test_command():
    assert blocks_under("Test") == "tools/test.sh\n"


def test_readme_begins_with_the_command_that_shows_the_job():
    assert re.search(r"^    (.*)$", (HERE / "README.md").read_text(), re.M)[1] == "tools/show.sh"


# ---- new machines


def commit():
    """The commit to test: the last one, with later changes of its files."""
    words = ["git", "-C", HERE, "-c", "user.name=It", "-c", "user.email=it@example.org", "stash", "create"]
    return run(*words).output.decode().strip() or "HEAD"


def copy_to(folder, name):
    """Copies the repository: as a clone to Debian 13, else without .git."""
    if not (HERE / ".git").exists():
        return shutil.copytree(HERE, folder, symlinks=True, ignore=shutil.ignore_patterns("out"), dirs_exist_ok=True)
    if name == "trixie":
        succeed("git", "clone", "-q", HERE, folder)
    return succeed("tar", "-C", folder, "-xf", "-", stdin=succeed("git", "-C", HERE, "archive", commit()))


@pytest.fixture(scope="module", params=[pytest.param(it, marks=OF_DEBIAN) for it in NAMES])
def fresh(request, pytestconfig):
    """A new Debian with the repository in its folder /slh."""
    is_gate = os.environ.get("SLH_MODE") == "whole"
    if is_gate and request.param == "13" and not pytestconfig.option.all:
        pytest.skip("the gate makes Debian 12 alone (pytest --all)")
    if not is_gate:
        skip_unless_asked(pytestconfig)
    made = request.getfixturevalue("debians")(NAMES[request.param], "openssl", "zsh")
    copy_to(made.top / "slh", NAMES[request.param])
    yield made
    shutil.rmtree(made.top / "slh")


def told_commands():
    """README's commands that sign and verify, and after each a line that tells if its status was not 0."""
    lines = blocks_under("Sign and verify").splitlines()
    told = [it if it.endswith("\\") else f'{it}\n[ $? = 0 ] || echo "line {at} failed"' for at, it in enumerate(lines)]
    return "\n".join([*told, ""])


@pytest.mark.parametrize("shell", SHELLS, ids=[it.split()[0] for it in SHELLS])
def test_pasted_commands_of_readme(fresh, shell):
    """Each ends with 0, the signature is valid, and only its owner can read the secret key."""
    folder = fresh.top / "slh"
    for it in MADE:
        (folder / it).unlink(missing_ok=True)
    (folder / "pasted").write_text(told_commands())
    done = fresh.run("sh", "-c", 'env PS1= PS2= "$@" <pasted', "sh", *shell.split())
    assert done.output == b"valid\n", done
    assert (folder / "secret.key").stat().st_mode & 0o777 == 0o600


def test_command_that_shows_the_job(fresh):
    """It needs no other tool than a minimal Debian has."""
    done = fresh.run("env", "PATH=/usr/bin:/bin", "tools/show.sh")
    assert done.status == 0 and b"invalid" in (done.output + done.errors).splitlines(), done


def passed_in(done):
    """The lines of the test command, which ended with 0, counted no failure, and ran something."""
    lines = (done.errors + done.output).decode(errors="replace").splitlines()
    end = lines[lines.index("failed:"):] if "failed:" in lines else lines[-20:]
    assert done.status == 0 and re.fullmatch(r"[1-9]\d* passed, 0 failed, \d+ skipped", lines[-1]), end
    return lines


def test_test_command_as_a_user(fresh):
    """A user without rights gets one line that names the missing tools and how to get them. The tests are skipped."""
    lines = passed_in(fresh.run(*AS_NOBODY, "tools/test.sh", "--release", "--few"))
    assert any(re.match(r"missing: .*python3.*tools/setup.sh installs them, as root on Debian", it) for it in lines)
    assert any("SKIPPED, since there is no pytest" in it for it in lines)


def test_test_command_as_root(pytestconfig, fresh):
    """Root reads the size of the download before it begins, and no tool is missing afterwards."""
    few, one = ([], "") if pytestconfig.option.all else (["--few"], "--one")
    release = ["--release"] if few else []
    lines = passed_in(fresh.run("env", f"PYTEST_ADDOPTS={one}", "tools/test.sh", *release, *few))
    assert any(re.fullmatch(r"It downloads .* MB, takes .* MB on disk, and about [0-9]* min\.", it) for it in lines)
    fresh.succeed("tools/setup.sh", "--missing", *few)
