"""Tests the four commands of docs/VERSIONS.md, "Check a release", as a stranger runs them, without the kit: each kind of
damage is found by the command that the page names. Also the text of a tag (tools/tag_text.py)."""
import hashlib
import re
import shutil

import pytest

from copies import WITHOUT_KIT
from support import HERE, block_of, run, succeed

TAG = HERE / "tools/tag_text.py"


@pytest.fixture(scope="module")
def clone(copy_of_module, program):
    """A copy of the repository, whose release has a bill of materials and a signed list. Its HOME has the key."""
    clone, home = copy_of_module, copy_of_module.work
    (home / "bin").mkdir()
    (home / "bin/slh").symlink_to(program)
    secret = succeed(program, "keygen", "--set", "SLH-DSA-SHA2-128f", stdin=b"07" * 48)
    (home / "secret.key").write_bytes(secret)
    (home / "release.key").write_bytes(succeed(program, "public", "--key", home / "secret.key"))
    succeed(clone.path / "tools/sbom.py", clone.dist)
    clone.list_anew()
    listed = (clone.dist / "SHA256SUMS").read_bytes().splitlines(keepends=True)
    (clone.dist / "SHA256SUMS").write_bytes(b"".join(sorted(listed, key=lambda it: it.split()[1])))
    succeed(clone.path / "tools/sign_release.sh", clone.dist, home / "secret.key")
    shutil.copytree(clone.dist, home / "whole")
    return clone


def append(path):
    with open(path, "ab") as file:
        file.write(b"\n")


def omit(dist, name):
    """Takes a file out of the list, which others have signed anew."""
    lines = (dist / "SHA256SUMS").read_text().splitlines(keepends=True)
    kept = [it for it in lines if it.split()[1] != name]
    assert len(kept) == len(lines) - 1
    (dist / "SHA256SUMS").write_text("".join(kept))


def link(path):
    """Puts a link to a file's bytes elsewhere in its place."""
    shutil.copy(path, path.parents[2] / "elsewhere")
    path.unlink()
    path.symlink_to(path.parents[2] / "elsewhere")


def list_again(dist, name):
    """Lists a changed file by its new hash."""
    old = re.search(rf"^(\w+)  {re.escape(name)}$", (dist / "SHA256SUMS").read_text(), re.M)[1]
    append(dist / name)
    new = hashlib.sha256((dist / name).read_bytes()).hexdigest()
    (dist / "SHA256SUMS").write_text((dist / "SHA256SUMS").read_text().replace(old, new))


# Each kind of damage: the change to dist/, whether the maintainer signs the list again, and which of the four commands
# of docs/VERSIONS.md fail.
DAMAGE = {
    "nothing": (lambda dist: None, False, set()),
    "a changed file": (lambda dist: append(dist / "include/slh.h"), False, {2, 4}),
    "a missing file": (lambda dist: (dist / "x86-64/libslh.a").unlink(), False, {2, 4}),
    "a changed bill": (lambda dist: append(dist / "SBOM.spdx.json"), False, {2, 4}),
    "a changed list": (lambda dist: list_again(dist, "include/slh.h"), False, {3, 4}),
    "a changed signature": (lambda dist: append(dist / "SHA256SUMS.sig"), False, {3}),
    "no signature": (lambda dist: (dist / "SHA256SUMS.sig").unlink(), False, {3}),
    "an additional file": (lambda dist: (dist / "x86-64/more.h").touch(), False, {4}),
    "an additional link": (lambda dist: (dist / "x86-64/more.h").symlink_to("/etc/passwd"), False, {4}),
    "a link to a file": (lambda dist: link(dist / "include/slh.h"), False, {4}),
    "an omitted file": (lambda dist: omit(dist, "include/slh.h"), True, {4}),
    "a bill of other files": (lambda dist: list_again(dist, "include/slh.h"), True, {4}),
}


@pytest.mark.drawn("damage of a release", "name")
@pytest.mark.parametrize("name", DAMAGE)
def test_damage_is_found(clone, name):
    damage, is_signed, wanted = DAMAGE[name]
    shutil.rmtree(clone.dist)
    shutil.copytree(clone.work / "whole", clone.dist)
    damage(clone.dist)
    if is_signed:
        succeed(clone.path / "tools/sign_release.sh", clone.dist, clone.work / "secret.key")
    lines = block_of("docs/VERSIONS.md", "Check a release").splitlines()
    assert len(lines) == 4 and lines[0].startswith("git clone ")
    done = {number: clone.run("bash", "-c", line, path=f"{clone.work}/bin:{WITHOUT_KIT}")
            for number, line in enumerate(lines[1:], 2)}
    assert {number for number, it in done.items() if it.status not in (0, 3 * (number == 4))} == wanted
    said = "SHA256SUMS lists no other file: no\n" in done[4].output.decode()
    assert said == (name in ("a missing file", "an additional file", "a link to a file", "an omitted file"))
    last = done[4].output.decode().splitlines()[-1]
    assert (", 0 failed" in last) == (4 not in wanted)
    assert 4 in wanted or "SKIPPED, since rt is not on the path" in done[4].output.decode()


# ---- the text of a tag


def test_tag_has_the_entry_and_the_hash_of_the_list(release):
    text = succeed(TAG, release).decode()
    version = re.search("^version (.*)$", (release / "BUILD").read_text(), re.M)[1]
    assert text.startswith(f"Pipitscreen {version}\n\nReleased on ")
    assert hashlib.sha256((release / "SHA256SUMS").read_bytes()).hexdigest() in text
    entries = (HERE / "CHANGELOG.md").read_text().split("\n## ")
    (entry,) = (it for it in entries if it.startswith(f"{version}, "))
    plain = re.sub(r"\[([^]]+)\]\([^)]+\)", r"\1", entry.partition("\n")[2]).replace("**", "").split()
    assert text.split()[-len(plain):] == plain and "](" not in text and not re.search("^#", text, re.M)


@pytest.mark.parametrize("old, new, said", [
    ("version ", "version 9", b"has another hash of BUILD"), ("", "", b"has no entry of 99.1.1")])
def test_no_tag_of_another_release(release, tmp_path, old, new, said):
    build = (release / "BUILD").read_text()
    sums = (release / "SHA256SUMS").read_text()
    if old:
        build = build.replace(old, new, 1)
    else:
        changed = re.sub("^version .*$", "version 99.1.1", build, flags=re.M)
        hashes = [hashlib.sha256(it.encode()).hexdigest() for it in (build, changed)]
        build, sums = changed, sums.replace(*hashes)
    (tmp_path / "BUILD").write_text(build)
    (tmp_path / "SHA256SUMS").write_text(sums)
    outcome = run(TAG, tmp_path)
    assert outcome.status == 1 and said in outcome.errors and outcome.output == b""
