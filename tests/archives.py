"""What the tests of examples/archive.py share: an archive in which each file's verdict is known, runs of the program
over it, its reports, and folders with a signed manifest."""
import contextlib
import json
import os
import pathlib
import re
import sqlite3
import subprocess
import time

import pytest

from support import HERE, PYTHON, VECTORS, run

PROGRAM = HERE / "examples/archive.py"


def need_module(name, package):
    """Skips the test if Debian's Python has not a module."""
    if run(PYTHON, "-c", f"import {name}").status:
        pytest.skip(f"there is no module {name} (to be had by the package {package})")


def vectors(label, **wanted):
    """The tests of a set's vector file that have these members, in the pure form under the empty context."""
    wanted.update(form="pure", context="")
    tests = json.loads((VECTORS / f"slh-dsa-sha2-{label}.json").read_text())
    return [it for it in tests if wanted.items() <= it.items()]


def flip(data, bit):
    """The same bytes with another bit."""
    return data[: bit // 8] + bytes([data[bit // 8] ^ (1 << bit % 8)]) + data[bit // 8 + 1 :]


class Archive:
    """A folder of files and signatures, and what is so of each by the way it was made."""

    def __init__(self, folder):
        self.folder, self.wanted = folder, {}
        test, other = [it for it in vectors("128f", kind="sign") if it["message"]][:2]
        self.message, self.sig, self.other = (bytes.fromhex(it) for it in
                                              (test["message"], test["signature"], other["signature"]))
        self.pk = bytes.fromhex(test["sk"])[32:]
        names = [f"{at % 7}/file {at}" for at in range(1000)]
        for name in names + ["two\nlines", 'a " and a \\', os.fsdecode(b"no UTF-8 \xff")]:
            self.put(name, "valid", self.message, self.sig)
        for at in range(10):
            self.put(f"{at}/longer message", "invalid", self.message + b"x", self.sig)
            self.put(f"{at}/other bit in the message", "invalid", flip(self.message, at), self.sig)
            self.put(f"{at}/other bit in the signature", "invalid", self.message, flip(self.sig, 13000 * at + at))
            self.put(f"{at}/short", "invalid", self.message, self.sig[:-1])
            self.put(f"{at}/long", "invalid", self.message, self.sig + b"x")
            self.put(f"{at}/empty", "invalid", self.message, b"")
            self.put(f"{at}/of another message", "invalid", self.message, self.other)
            self.put(f"{at}/no signature", "unreadable", self.message, None)
            self.put(f"{at}/no file", "unreadable", None, self.sig)
            self.put(f"{at}/a folder", "unreadable", None, self.sig).mkdir()
            os.mkfifo(self.put(f"{at}/a pipe", "unreadable", None, self.sig))
            self.put(f"{at}/a link to nothing", "unreadable", None, self.sig).symlink_to("nothing")

    def put(self, name, word, message, sig):
        path = self.folder / name
        path.parent.mkdir(parents=True, exist_ok=True)
        for at, data in (path, message), (path.with_name(path.name + ".sig"), sig):
            if data is not None:
                at.write_bytes(data)
        self.wanted[name] = word
        return path


def key_file(path, kind, label, data):
    path.write_text(f"slh-dsa-{kind} 2\nSLH-DSA-SHA2-{label}\n{data.hex()}\n")
    return path


def lines_of(report):
    """The words and names of a report."""
    with contextlib.closing(sqlite3.connect(report)) as db:
        return [(word, os.fsdecode(name)) for word, name in db.execute("SELECT word, name FROM files")]


def has_lines(report):
    """Whether a report has files that is being written: it can't be read then."""
    return report.exists() and report.stat().st_size > 60_000


def has_each_once(report, wanted):
    """Whether a report has just what is wanted of each file, and each file once."""
    found = lines_of(report)
    names = {name for _, name in found}
    assert names == wanted.keys(), f"{names ^ wanted.keys()} is lost, or too much"
    wrong = [(word, name, wanted[name]) for word, name in found if word != wanted[name]]
    assert not wrong, f"wrong words: {wrong[:3]}"


class Runs:
    """Runs of archive.py over one archive."""

    def __init__(self, work, package):
        need_module("tqdm", "python3-tqdm")
        self.work, self.env = work, {**os.environ, "PYTHONPATH": str(package)}
        self.archive = Archive(work / "archive")
        self.key = key_file(work / "public.key", "public", "128f", self.archive.pk)
        sk = bytes.fromhex(vectors("128f", kind="sign")[0]["sk"])
        assert sk[32:] == self.archive.pk, "another key"
        self.secret = key_file(work / "secret.key", "secret", "128f", sk)

    def start(self, report, *more, command="verify", key=None, folder=None, out=None, err=None, program=None,
              **settings):
        words = [PYTHON, program or PROGRAM, command, "--key", key or self.key, "--report", report]
        words += ["--folder", folder or self.archive.folder, *more, *([] if folder else ["--no-manifest"])]
        settings = {**self.env, **{name: str(value) for name, value in settings.items()}}
        return subprocess.Popen(list(map(str, words)), stdout=out or subprocess.PIPE, stderr=err or subprocess.PIPE,
                                text=True, env=settings)

    def ends(self, status, *words, **more):
        """Runs it to its end, which is to have this status. What it wrote."""
        return self.is_ended(self.start(*words, **more), status)

    def is_ended(self, process, status):
        out, err = process.communicate(timeout=600)
        assert process.returncode == status, f"status {process.returncode}: {out}{err[-2000:]}"
        return out + err

    def in_the_middle(self, process, report, act):
        """Acts when the report has some files, and not yet all."""
        while not has_lines(report):
            assert process.poll() is None, "it ended before the middle"
            time.sleep(0.002)
        act()


class Manifests:
    """Folders that were signed, then changed, and the words that verifying them has to give."""

    def __init__(self, runs):
        self.runs, self.work, self.number = runs, runs.work, 0

    def new(self, *names):
        """A folder with these files, of which each has its name as content."""
        self.number += 1
        folder = self.work / f"manifest {self.number}"
        for it in names or ("a", "b", "below/c"):
            (folder / it).parent.mkdir(parents=True, exist_ok=True)
            (folder / it).write_text(it)
        return folder

    def signs(self, status, folder, *more):
        report = self.work / f"{folder.name} signed"
        return self.runs.ends(status, report, *more, command="sign", key=self.runs.secret, folder=folder)

    def verifies(self, status, folder, *more, report="verified", **wanted):
        """Verifies, and compares the words of some files, by their names with _ for what no name of Python has."""
        report = self.work / f"{folder.name} {report}"
        out = self.runs.ends(status, report, *more, folder=folder)
        found = {name: word for word, name in lines_of(report) if word not in ("valid", "link")}
        named = {re.sub(r"\W", "_", name): word for name, word in found.items()}
        assert named == wanted, f"{found}, wanted {wanted}: {out[-500:]}"
        return out

    def signed(self, *names):
        folder = self.new(*names)
        self.signs(0, folder)
        self.verifies(0, folder)
        return folder

    def pair(self, name, other=None):
        """Moves, or removes, a file with its signature."""
        for it in "", ".sig":
            path = name.with_name(name.name + it)
            path.rename(other.with_name(other.name + it)) if other else path.unlink()


def with_times(program, seconds_and_pending):
    """The text of archive.py, where the disk keeps the report after other times and numbers of files."""
    text, line = pathlib.Path(program).read_text(), "\nSECONDS, PENDING = 0.5, 500\n"
    assert line in text, "the program has other times"
    return text.replace(line, f"\nSECONDS, PENDING = {seconds_and_pending}\n")
