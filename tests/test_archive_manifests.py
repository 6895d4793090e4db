"""Changes archives that examples/archive.py has signed, in each way that verifying them has to tell: by the manifest,
the signatures, or the report."""
import base64
import contextlib
import hashlib
import json
import os
import re
import shutil
import signal
import sqlite3
import subprocess
import time

import pytest

from archives import PROGRAM, Manifests, Runs, flip, lines_of, with_times
from support import PYTHON, succeed

pytestmark = pytest.mark.slow


@pytest.fixture(scope="module")
def them(python_package, tmp_path_factory):
    return Manifests(Runs(tmp_path_factory.mktemp("manifests"), python_package))


def test_removed_file(them):
    folder = them.signed()
    them.pair(folder / "b")
    them.verifies(1, folder, b="removed")


def test_renamed_file(them):
    folder = them.signed()
    them.pair(folder / "a", folder / "below" / "z")
    out = them.verifies(1, folder, a="renamed", below_z="added")
    assert 'renamed "a" "below/z"' in out, out


def test_added_file(them):
    folder = them.signed()
    for it in "", ".sig":
        shutil.copy(folder / f"a{it}", folder / f"y{it}")
    for name in "evil.sig.part", ".slh-archive-abcdefgh.part", "slh-manifest-00000000.jsonl":
        (folder / name).write_text("evil")
    them.verifies(1, folder, y="added", evil_sig_part="unreadable", _slh_archive_abcdefgh_part="unreadable",
                  slh_manifest_00000000_jsonl="unreadable")


def test_file_rolled_back(them):
    """A file, with a signature that is valid, has an older content."""
    folder = them.signed()
    older = {it: (folder / it).read_bytes() for it in ("a", "a.sig")}
    (folder / "a").write_text("newer")
    (folder / "a.sig").unlink()
    them.signs(1, folder)
    them.verifies(1, folder, a="unreadable")
    them.signs(0, folder, "--accept")
    them.verifies(0, folder)
    for it, data in older.items():
        (folder / it).write_bytes(data)
    them.verifies(1, folder, a="changed")


def test_contradicted_manifest(them):
    """A file that the manifest lists with another content, or as a link, is signed only if that is accepted; by a
    list, too."""
    folder = them.new()
    (folder / "link").symlink_to("b")
    them.signs(0, folder)
    (folder / "link").unlink()
    (folder / "link").write_text("b")
    (folder / "a").write_text("altered")
    (folder / "a.sig").unlink()
    listed = them.work / "contradicted"
    listed.write_text("a\nlink\n")
    for more in [], ["--list", listed]:
        out = them.signs(1, folder, *more)
        assert out.count("it is not signed") == 2 and "no manifest" not in out, out
        assert not list(folder.glob("[al]*.sig")), "it was signed"
    (folder / "a").write_text("a")
    them.signs(1, folder, "--list", listed)
    assert [it.name for it in folder.glob("[al]*.sig")] == ["a.sig"], "a lost signature was not made again"
    them.signs(0, folder, "--accept")
    them.verifies(0, folder)


def test_nothing_under_a_bad_manifest(them):
    """If the manifest is damaged, or an older one, nothing is signed, and the folder stays as it is."""
    folder = them.signed()
    manifest = folder / "slh-manifest-00000001.jsonl"
    (folder / "new").write_text("new")
    names, whole = sorted(os.listdir(folder)), manifest.read_bytes()
    manifest.write_bytes(flip(whole, 99))
    for more in [], ["--accept"]:
        out = them.signs(1, folder, *more)
        assert "nothing is signed: the manifest can't be relied on" in out, out
    manifest.write_bytes(whole)
    assert "number 2 or a later one is wanted" in them.signs(1, folder, "--least", 2), "an older manifest"
    assert sorted(os.listdir(folder)) == names, "something was signed"
    them.signs(0, folder)
    them.verifies(0, folder)


def test_changed_while_read(them):
    """A file that is written to while it is read and signed has no signature, and is not valid."""
    folder = them.new("a", "log")
    (folder / "log").write_bytes(bytes(40 << 20))
    them.signs(0, folder)
    signature = (folder / "log.sig").read_bytes()
    (folder / "log.sig").unlink()
    begun = (folder / "log").stat().st_mtime_ns
    code = "import sys\nwhile True:\n    with open(sys.argv[1], 'r+b') as it: it.write(bytes(1))"
    with subprocess.Popen([PYTHON, "-c", code, folder / "log"]) as writer:
        try:
            while (folder / "log").stat().st_mtime_ns == begun:
                time.sleep(0.01)
            out = them.signs(1, folder)
            assert 'unreadable "log" log changed while it was read' in out, out
            assert not (folder / "log.sig").exists(), "it was signed"
            (folder / "log.sig").write_bytes(signature)
            assert "changed while it was read" in them.verifies(1, folder, log="unreadable"), "it was verified"
        finally:
            writer.kill()
    them.verifies(0, folder, report="after it")


def test_names_and_contents_alone(them):
    """Modes, times and empty folders are not listed, as the page says."""
    folder = them.signed()
    (folder / "a").chmod(0o755)
    os.utime(folder / "b", ns=(0, 0))
    (folder / "empty").mkdir()
    them.verifies(0, folder)


def test_all_rolled_back(them):
    """All files and the manifest are as before: the report tells it, or the number that is asked for."""
    folder = them.signed()
    older = them.work / "older"
    shutil.copytree(folder, older)
    (folder / "new").write_text("new")
    them.signs(0, folder)
    them.verifies(0, folder)
    them.verifies(0, folder, "--least", 2, report="second")
    shutil.rmtree(folder)
    older.rename(folder)
    told = {"slh_manifest_00000001_jsonl": "invalid"}
    assert "number 2 or a later one" in them.verifies(1, folder, **told), "the report has seen 2"
    them.verifies(1, folder, "--least", 2, report="third", **told)
    assert "number 2 or a later one" in them.signs(1, folder), "the report of signing has seen 2"
    them.verifies(0, folder, report="fourth")


def test_another_manifest_of_the_number(them):
    """Another manifest of the same number, of the same key."""
    folder, other = them.signed(), them.signed("other")
    shutil.rmtree(folder)
    other.rename(folder)
    them.verifies(1, folder, slh_manifest_00000001_jsonl="invalid")


def test_missing_or_damaged_manifest(them):
    folder, told = them.signed(), {"slh_manifest_00000001_jsonl": "invalid"}
    manifest = folder / "slh-manifest-00000001.jsonl"
    signature = manifest.with_name(manifest.name + ".sig")
    kept = signature.read_bytes()
    signature.unlink()
    them.verifies(1, folder, **told)
    signature.write_bytes(flip(kept, 99))
    them.verifies(1, folder, **told)
    signature.write_bytes(kept)
    them.verifies(0, folder)
    manifest.write_bytes(manifest.read_bytes().replace(b'"below/c"', b'"below/d"'))
    them.verifies(1, folder, **told)
    them.pair(manifest)
    them.verifies(1, folder, report="first", slh_manifest_00000000_jsonl="invalid")
    them.verifies(0, folder, "--no-manifest", report="none")


def test_manifest_of_a_higher_number(them):
    """A manifest under a higher number, and one that was signed as a file."""
    folder = them.signed()
    manifest = folder / "slh-manifest-00000001.jsonl"
    them.pair(manifest, folder / "slh-manifest-00000002.jsonl")
    them.verifies(1, folder, slh_manifest_00000002_jsonl="invalid")
    them.pair(folder / "slh-manifest-00000002.jsonl", manifest)
    folder = them.new("a")
    (folder / "evil").write_bytes(manifest.read_bytes().replace(b'"number": 1', b'"number": 2'))
    them.signs(0, folder)
    them.pair(folder / "slh-manifest-00000001.jsonl")
    planted = folder / "slh-manifest-00000002.jsonl"
    them.pair(folder / "evil", planted)
    them.verifies(1, folder, slh_manifest_00000002_jsonl="invalid")
    hash_sign(them, planted, b"")
    them.verifies(1, folder, slh_manifest_00000002_jsonl="invalid")
    hash_sign(them, planted, b"slh archive manifest")
    them.verifies(1, folder, b="removed", below_c="removed")


def hash_sign(them, path, context):
    """Signs a file in the pre-hash form, with the package."""
    code = """import pathlib, slh, sys
secret, path = slh.SecretKey.load(sys.argv[1]), pathlib.Path(sys.argv[2])
path.with_name(path.name + ".sig").write_bytes(secret.hash_sign(4, path.read_bytes(), sys.argv[3].encode()))"""
    succeed(PYTHON, "-c", code, them.runs.secret, path, context.decode(), env=them.runs.env)


def test_older_manifest_beside(them):
    """An older manifest beside the latest one is a file that was added."""
    folder = them.signed()
    kept = {it: it.read_bytes() for it in folder.glob("slh-manifest*")}
    (folder / "new").write_text("new")
    them.signs(0, folder)
    for it, data in kept.items():
        assert not it.exists(), "the manifest before was left"
        it.write_bytes(data)
    them.verifies(1, folder, slh_manifest_00000001_jsonl="added")
    them.signs(0, folder)
    them.verifies(0, folder)


def test_manifest_is_as_the_page_says(them):
    """The manifest says what the page says of it, and the program slh would verify it."""
    folder = them.new()
    (folder / "link").symlink_to("below/c")
    them.signs(0, folder, "--comment", "first")
    path = folder / "slh-manifest-00000001.jsonl"
    data, (head, *entries) = path.read_bytes(), map(json.loads, path.read_text().splitlines())
    digest = hashlib.sha256(them.runs.archive.pk).digest()
    wanted = {"manifest": 1, "number": 1, "before": None, "set": "SLH-DSA-SHA2-128f", "comment": "first",
              "files": 4, "key": "SHA256:" + base64.b64encode(digest).decode().rstrip("="), "time": head["time"]}
    assert head == wanted and re.fullmatch(r"\d{4}-\d\d-\d\dT\d\d:\d\d:\d\d\+00:00", head["time"]), str(head)
    files = [{"path": it, "length": len(it), "sha512": hashlib.sha512(it.encode()).hexdigest()}
             for it in ("a", "b", "below/c")]
    assert entries == [*files, {"path": "link", "link": "below/c"}], str(entries)
    (folder / "new").write_text("new")
    them.signs(0, folder)
    head = json.loads((folder / "slh-manifest-00000002.jsonl").read_text().splitlines()[0])
    assert head["before"] == {"number": 1, "sha512": hashlib.sha512(data).hexdigest()}, str(head)
    them.signs(0, folder)
    assert not (folder / "slh-manifest-00000003.jsonl").exists(), "a manifest of no change"


def test_signing_tells(them):
    """Signing tells what was removed, renamed and changed, and writes no manifest over it."""
    folder = them.signed("a", "b", "c", "d")
    them.pair(folder / "a")
    them.pair(folder / "b", folder / "z")
    (folder / "c").write_text("changed")
    out = them.signs(1, folder)
    assert all(it in out for it in ('removed "a"', 'renamed "b" "z"', 'invalid "c"')), out
    them.verifies(1, folder, a="removed", b="renamed", c="invalid", z="added")
    (folder / "c.sig").unlink()
    them.signs(0, folder, "--accept")
    them.verifies(0, folder)


def test_links_lead_nowhere(them):
    """Links are not followed in signing: neither of files, nor of folders, nor in a list."""
    outside = them.new("file", "below/file")
    folder = them.new("a")
    (folder / "link").symlink_to(outside / "file")
    (folder / "folder").symlink_to(outside / "below")
    (folder / "other").symlink_to("a")
    listed = them.work / "outside"
    listed.write_text("folder/file\n")
    them.signs(0, folder)
    them.signs(1, folder, "--list", listed)
    names = {str(it.relative_to(folder)) for it in folder.rglob("*")}
    assert names >= {"link", "folder"} and "link.sig" not in names, str(names)
    assert not list(outside.rglob("*.sig")), "a file outside was signed"
    them.verifies(0, folder)
    (folder / "link").unlink()
    (folder / "link").symlink_to("a")
    (folder / "other").unlink()
    for it in "", ".sig":
        shutil.copy(folder / f"a{it}", folder / f"other{it}")
    them.verifies(1, folder, link="changed", other="changed")
    shutil.copy(folder / "a.sig", folder / "link.sig")
    (folder / "a.sig").rename(outside / "a.sig")
    (folder / "a.sig").symlink_to(outside / "a.sig")
    them.verifies(1, folder, link="unreadable", other="changed", a="unreadable")


def test_leftovers_are_cleared(them):
    folder = them.new()
    for it in ".slh-archive-abcdefgh.part", "below/.slh-archive-abc_defg.part", "slh-manifest-00000001.jsonl":
        (folder / it).write_text("left")
    them.signs(0, folder)
    them.verifies(0, folder)
    assert len(list(folder.rglob("*"))) == 3 + 1 + 3 + 2, str(list(folder.rglob("*")))


def test_faults_pass(them):
    """A file that could not be read is tried again."""
    folder = them.signed()
    for it in "a.sig", "b":
        (folder / it).rename(them.work / it)
    them.verifies(1, folder, a="unreadable", b="unreadable")
    for it in "a.sig", "b":
        (them.work / it).rename(folder / it)
    them.verifies(0, folder)


def test_changes_are_seen(them):
    """What changed is verified again, also if its time is set back, and nothing else, but by --all."""
    folder = them.signed()
    time.sleep(2.1)
    them.verifies(0, folder)
    assert "; 3 not read again" in them.verifies(0, folder), "all are as they were"
    seen = (folder / "a").stat()
    (folder / "a").write_text("z")
    os.utime(folder / "a", ns=(seen.st_atime_ns, seen.st_mtime_ns))
    assert "; 2 not read again" in them.verifies(1, folder, a="invalid"), "one changed"
    (folder / "a").write_text("a")
    them.verifies(0, folder)
    time.sleep(2.1)
    them.verifies(0, folder)
    (folder / "b").write_text("z")
    states = [(folder / it).stat() for it in ("b", "b.sig")]
    with contextlib.closing(sqlite3.connect(them.work / f"{folder.name} verified")) as db, db:
        db.execute("UPDATE files SET state = ? WHERE name = ?", (" ".join(
            f"{it.st_ino} {it.st_size} {it.st_mtime_ns} {it.st_ctime_ns}" for it in states), b"b"))
    time.sleep(2.1)
    them.verifies(0, folder)
    them.verifies(1, folder, "--all", b="invalid")


def test_just_changed_is_not_known(them):
    """A file that changed just now has no state: one more change might not show in its times."""
    code = """import pathlib, runpy, sys, time
state_of, path = runpy.run_path(sys.argv[1])["state_of"], pathlib.Path(sys.argv[2])
path.write_text("new")
now = state_of(path.stat())
time.sleep(2.1)
print(now, state_of(path.stat()) is not None)"""
    assert succeed(PYTHON, "-c", code, PROGRAM, them.new() / "a", env=them.runs.env) == b"None True\n"


def test_rights_are_those_of_files(them):
    folder = them.new()
    (folder / "a").chmod(0o600)
    (folder / "b").chmod(0o755)
    them.signs(0, folder)
    rights = [(folder / it).stat().st_mode & 0o777 for it in ("a.sig", "b.sig")]
    assert rights == [0o600, 0o644], str(rights)


def test_signature_of_another_program(them):
    """A signature that another program writes after the look for one is not written over."""
    folder = them.signed()
    before = (folder / "a.sig").read_bytes()
    code = """import runpy, sys
it = runpy.run_path(sys.argv[1])
with it["folder_of"](sys.argv[2], "a") as (at, name):
    print(it["write_signature"](b"a", at, "a.sig", 0o644)[0])"""
    assert succeed(PYTHON, "-c", code, PROGRAM, folder, env=them.runs.env) == b"unwritable\n"
    assert (folder / "a.sig").read_bytes() == before
    them.verifies(0, folder)


def test_two_runs_at_once(them):
    """A second run that signs in the same folder, or has the same report, is refused while the first one runs."""
    folder = them.new(*(f"{at}" for at in range(300)))
    report, other = (them.work / f"{folder.name} {it}" for it in ("signed", "other"))
    key = them.runs.secret
    process = them.runs.start(report, "--threads", 1, command="sign", key=key, folder=folder)
    while not list(folder.glob("*.sig")):
        assert process.poll() is None, "it ended too early"
        time.sleep(0.002)
    os.kill(process.pid, signal.SIGSTOP)
    try:
        said = them.runs.ends(2, other, command="sign", key=key, folder=folder)
        assert "another run signs in" in said, said
        said = them.runs.ends(2, report, command="sign", key=key, folder=them.new())
        assert "another run writes" in said, said
    finally:
        os.kill(process.pid, signal.SIGCONT)
    them.runs.is_ended(process, 0)
    them.verifies(0, folder)


def test_stopped_run_writes_no_manifest(them):
    """A run that is stopped writes no manifest, since files are not done."""
    folder = them.new(*(f"{at}" for at in range(300)))
    report = them.work / f"{folder.name} signed"
    process = them.runs.start(report, "--threads", 1, command="sign", key=them.runs.secret, folder=folder)
    while not list(folder.glob("*.sig")):
        assert process.poll() is None, "it ended too early"
        time.sleep(0.002)
    process.send_signal(signal.SIGINT)
    assert "no manifest" in them.runs.is_ended(process, 3), "a manifest"
    assert not list(folder.glob("slh-manifest*")), "a manifest of a part"


def test_report_inside_is_refused(them):
    folder = them.new()
    said = them.runs.ends(2, folder / "report", command="sign", key=them.runs.secret, folder=folder)
    assert "is in the folder" in said and not (folder / "report").exists(), said


def test_full_outputs(them):
    """If the lines of a run can't be written, it does all the same, and its status is 3."""
    with open("/dev/full", "w") as full:
        for out, err in (full, None), (None, full), (full, full):
            folder = them.new()
            report = them.work / f"{folder.name} signed"
            process = them.runs.start(report, command="sign", key=them.runs.secret, folder=folder, out=out, err=err)
            process.communicate(timeout=600)
            assert process.returncode == 3, f"status {process.returncode}"
            them.verifies(0, folder)
            them.signs(0, folder)


@pytest.fixture
def disk(file_system):
    """A small file system."""
    return file_system("128k")


@pytest.mark.parametrize("rows", ["now and then", "at the end"])
def test_full_disk(them, disk, rows):
    """A report on it. The status is 3, the lines that are not in the report are named, and none is lost."""
    late = them.work / "late.py"
    late.write_text(with_times(PROGRAM, "1000, 1000"))
    folder, report = them.new(*(f"{200 * 'n'}{at}" for at in range(150))), disk / "report"
    signs = {"command": "sign", "key": them.runs.secret, "folder": folder}
    filler = disk / "filler"
    filler.write_bytes(bytes(disk_free(disk) - 44_000))
    said = them.runs.ends(3, report, "--threads", 1, **signs, program=late if rows == "at the end" else None)
    named = set(re.findall(r'report can.t be written .*: signed "(n+\d+)" is not in it', said))
    signed = {it.stem for it in folder.glob("*.sig")}
    noted = {name for _, name in lines_of(report)}
    assert named and signed <= named | noted, f"{signed - named - noted} are lost: {said}"
    with open("/dev/full", "w") as full:
        process = them.runs.start(report, **signs, err=full)
        process.communicate(timeout=600)
    assert process.returncode == 3, f"status {process.returncode}, if the lines can't be written either"
    filler.unlink()
    them.runs.ends(0, report, **signs)
    them.verifies(0, folder)


def disk_free(path):
    found = os.statvfs(path)
    return found.f_bavail * found.f_bsize
