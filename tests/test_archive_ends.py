"""Ends runs of examples/archive.py that sign, each at one place: a call that changes a file. It is ended by force, by a
full disk, by a fault and by Ctrl-C, at 10 or 20 places, and with --all at 100 or 200. With --all alone power is cut, at
100 places: by a shutdown of ext4, on a file that is mounted, for root alone. After that the report, the signatures and
what the next run says have to be right. As many places are tried at once as there are processors."""
import concurrent.futures
import contextlib
import ctypes
import json
import os
import pathlib
import queue
import re
import shutil
import sqlite3
import subprocess
import tempfile

import pytest

from archives import PROGRAM, Runs, lines_of, with_times
from conftest import STRICT
from support import PYTHON, TESTS, run, succeed

CLONE_NEWNS = 0x20000
FILES = 34
# At how many places something happens: of each a few, without an option, and with --all.
PLACES = {"kill": (2, 20, 200), "full": (2, 10, 200), "once": (2, 10, 100), "int": (2, 10, 100), "cut": (0, 0, 100)}
# The statuses that a run may end with.
ENDS = {"kill": [-9], "cut": [-9], "int": [-2, 0, 3], "full": [0, 1, 2, 3], "once": [0, 1, 2, 3]}


def pytest_generate_tests(metafunc):
    is_all = metafunc.config.option.all
    metafunc.parametrize("act, most", [
        pytest.param(act, numbers[at], id=f"{act} at {numbers[at]} places", marks=pytest.mark.slow if at else ())
        for act, numbers in PLACES.items() for at in (0, 2 if is_all else 1) if numbers[at]])


@pytest.fixture(scope="module")
def own_mounts():
    """Nobody else sees the mounts of the tests from here on, if this user may do that. Another process that begins a
    namespace of its own, as a container does, would get a copy of each mount, which umount does not end: a disk whose
    power was cut would then stay as it is, and all reads of it would fail."""
    if ctypes.CDLL(None).unshare(CLONE_NEWNS) == 0 and run("mount", "--make-rprivate", "/").status:
        pytest.skip("mounts can't be made private (/ has to be a mount point, and is none behind chroot)")


class Forks:
    """A process of archive_forks.py, which has loaded the program, and forks for each run."""

    def __init__(self, shim, program, env):
        words = [PYTHON, TESTS / "archive_forks.py", program]
        pipes = {"stdin": subprocess.PIPE, "stdout": subprocess.PIPE, "text": True}
        self.process = subprocess.Popen(words, env={**env, "LD_PRELOAD": str(shim)}, **pipes)

    def run(self, words, out, settings):
        """Runs the program. Its status, and what it wrote."""
        settings = {name: str(value) for name, value in settings.items()}
        given = {"words": list(map(str, words)), "out": str(out), "settings": settings}
        print(json.dumps(given), file=self.process.stdin, flush=True)
        status = self.process.stdout.readline()
        assert status, "the process that forks ended"
        return int(status), out.read_text()

    def end(self):
        self.process.stdin.close()
        self.process.wait()


class Disk:
    """An ext4 in a file, of which the power is cut."""

    def __init__(self, folder):
        self.image, self.folder = folder / "image", folder / "disk"
        self.folder.mkdir(parents=True)
        with open(self.image, "wb") as file:
            file.truncate(24 << 20)

    def can_be_made(self):
        """Whether this user can mount an ext4, which is mounted then."""
        return shutil.which("mkfs.ext4") and run("mkfs.ext4", "-q", "-F", self.image).status == 0 and self.mounts()

    def mounts(self):
        return run("mount", "-o", "loop", self.image, self.folder).status == 0

    def comes_back(self):
        """After a cut: what the disk has is what was synced."""
        succeed("umount", self.folder)
        assert self.mounts(), "the file system is lost"
        try:
            os.listdir(self.folder)
        except OSError as fault:
            raise AssertionError(f"the disk was not unmounted, since others have it mounted, too: {fault}") from None

    def end(self):
        run("umount", self.folder)


class Places:
    """Runs that sign, to each of which something happens at one place."""

    def __init__(self, runs, shim):
        memory = pathlib.Path("/dev/shm")  # syncing takes long elsewhere, beside other work
        self.runs = runs
        self.work = pathlib.Path(tempfile.mkdtemp(dir=memory if os.access(memory, os.W_OK) else runs.work))
        self.begun, program = self.work / "begun", self.work / "archive.py"
        # The disk keeps the report after each file.
        program.write_text(with_times(PROGRAM, "0, 0"))
        self.forks, self.disks = queue.SimpleQueue(), []
        self.all_forks = [Forks(shim, program, runs.env) for _ in os.sched_getaffinity(0)]
        for it in self.all_forks:
            self.forks.put(it)
        self.begin(self.begun)

    def end(self):
        for it in self.all_forks + self.disks:
            it.end()
        shutil.rmtree(self.work)

    def begin(self, to):
        """An archive that was signed, and then got more files."""
        folder = to / "files"
        folder.mkdir(parents=True)
        for at in range(3):
            (folder / f"old {at}").write_text(f"old {at}")
        self.ends(0, to)
        for at in range(FILES):
            (folder / f"new {at}").write_text(f"new {at}")

    def run(self, to, command="sign", **settings):
        """One run, by a process that forks and is free. Its status, and what it wrote."""
        name = to.name if command == "sign" else f"verified {to.name}"
        key = self.runs.secret if command == "sign" else self.runs.key
        words = [command, "--key", key, "--report", self.report_of(name), "--folder", to / "files", "--threads", 1]
        free = self.forks.get()
        try:
            return free.run(words, self.runs.work / f"said {name}", {"SLH_PLACE": 0, "SLH_COUNT": "", **settings})
        finally:
            self.forks.put(free)

    def ends(self, wanted, to, command="sign", why=""):
        status, out = self.run(to, command)
        assert status == wanted, f"{why}: status {status}: {out[-2000:]}"

    def report_of(self, name):
        """The report of an archive is on another disk than it, of which no power is cut."""
        return self.work / f"report {name}"

    def count(self, has_report=True):
        """How many places there are, with those of the report, or without."""
        to = self.copy(self.work / "counted")
        told = self.work / "count"
        status, out = self.run(to, SLH_COUNT=told, SLH_BELOW=self.work if has_report else to)
        assert status == 0, out
        shutil.rmtree(to)
        return int(told.read_text())

    def copy(self, to):
        """A copy of the archive and its report at another path, which the report then has."""
        shutil.copytree(self.begun, to)
        report = self.report_of(to.name)
        shutil.copy(self.report_of(self.begun.name), report)
        with contextlib.closing(sqlite3.connect(report)) as db, db:
            db.execute("UPDATE head SET line = replace(line, ?, ?)", (str(self.begun), str(to)))
        return to

    def at(self, act, place, folder, after=lambda: None):
        """One run. What it says, its status, and what the next run says, have to be right."""
        to, why = self.copy(folder / f"{act} {place}"), f"{act} at {place}"
        if act == "cut":
            succeed("sync", "-f", to)
        status, out = self.run(to, SLH_BELOW=folder if act == "cut" else self.work, SLH_PLACE=place, SLH_ACT=act)
        assert status in ENDS[act], f"{why}: status {status}: {out}"
        after()
        if status == 0:
            self.is_whole(to, f"{why}, after status 0: {out}")
        if status >= 0:
            self.all_is_told(to, why, out)
        self.nothing_is_lost(to)
        self.ends(0, to, why=f"after {why}: {out}")
        self.is_whole(to, f"{why}: {out}")
        shutil.rmtree(to)

    def nothing_is_lost(self, to):
        """What the report has as signed has its signature, whole."""
        for word, name in lines_of(self.report_of(to.name)):
            if word in ("signed", "valid"):
                path = to / "files" / f"{name}.sig"
                assert path.exists() and path.stat().st_size == 17088, f"{to.name}: {word} {name} without a signature"
        with contextlib.closing(sqlite3.connect(self.report_of(to.name))) as db:
            (number,) = db.execute("SELECT number FROM seen").fetchone()
        name = f"slh-manifest-{number:08}.jsonl"
        is_there = {name, name + ".sig"} <= set(os.listdir(to / "files"))
        assert is_there, f"{to.name}: manifest {number} was seen, and is not there"

    def all_is_told(self, to, why, out):
        """Each signature that was made is in the report, or the run named its line."""
        made = {it.name.removesuffix(".sig") for it in (to / "files").glob("new *.sig")}
        told = {name for _, name in lines_of(self.report_of(to.name))}
        told |= set(re.findall(r'signed "(new \d+)" is not in it', out))
        assert made <= told, f"{why}: {made - told} are lost: {out}"

    def is_whole(self, to, why):
        """All is signed, there is a manifest, and nothing else is left."""
        self.ends(0, to, "verify", why)
        names = sorted(os.listdir(to / "files"))
        assert len(names) == 2 * (3 + FILES) + 2, f"{why}: {names}"
        self.report_of(f"verified {to.name}").unlink()

    def each(self, act, places):
        """Each place, in as many threads as there are processes that fork."""
        with concurrent.futures.ThreadPoolExecutor(len(self.all_forks)) as pool:
            for it in [pool.submit(self.at, act, place, self.work) for place in places]:
                it.result()

    def each_cut(self, places):
        """Power cuts. Each thread has a disk of its own, and every so many places."""
        def on(disk, first):
            for place in places[first :: len(self.disks)]:
                self.at("cut", place, disk.folder, disk.comes_back)

        with concurrent.futures.ThreadPoolExecutor(len(self.disks)) as pool:
            for it in [pool.submit(on, disk, first) for first, disk in enumerate(self.disks)]:
                it.result()

    def can_cut(self):
        """Whether there is a disk for each process that forks."""
        self.disks = [Disk(self.work / f"disk {number}") for number in range(len(self.all_forks))]
        return all(it.can_be_made() for it in self.disks)


@pytest.fixture(scope="module")
def them(own_mounts, compiled, python_package, tmp_path_factory):
    runs = Runs(tmp_path_factory.mktemp("ends"), python_package)
    strict = [it for it in STRICT if it != "-pedantic"]
    shim = compiled("places.so", "-shared", "-fPIC", "-O1", *strict, TESTS / "archive_places.c", "-ldl")
    them = Places(runs, shim)
    yield them
    them.end()


def test_run_that_ends(them, act, most):
    total = them.count(act != "cut")
    assert total > 200
    places = [1 + at * (total - 1) // (most - 1) for at in range(most)]
    if act != "cut":
        them.each(act, places)
    elif them.can_cut():
        them.each_cut(places)
    else:
        pytest.skip("this user can't mount an ext4 (run it as root, with the package e2fsprogs)")
