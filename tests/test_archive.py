"""Tries examples/archive.py and examples/sign_cluster.py, by threads and on a cluster of two workers on this machine.

The archive has over a thousand signatures of the vectors, some damaged, and some that can't be read. A worker is killed
in the middle, and runs are stopped and ended by force in the middle: each file then has to be once in the report, with
what is so of it."""
import collections
import json
import os
import re
import signal
import subprocess
import time

import pytest

from archives import Runs, flip, has_each_once, key_file, lines_of, need_module, vectors
from support import HERE, PATIENCE, PYTHON, run

slow = pytest.mark.slow


@pytest.fixture(scope="module")
def runs(python_package, tmp_path_factory):
    return Runs(tmp_path_factory.mktemp("archive"), python_package)


@pytest.fixture(scope="module")
def by_threads(runs):
    """The report of a run by threads, and what it wrote."""
    report = runs.work / "threads"
    return report, runs.ends(1, report, "--threads", 2)


def test_archive_by_threads(runs, by_threads):
    report, out = by_threads
    has_each_once(report, runs.archive.wanted)
    counts = collections.Counter(runs.archive.wanted.values())
    said = ", ".join(f"{counts[it]} {it}" for it in ("invalid", "unreadable", "valid"))
    assert f"{said}; 0 not read again; 0 not done" in out
    number = len(runs.archive.wanted)
    progress = rf"{number}/{number} \[[0-9:]+<[0-9:]+, [0-9.]+file/s, {counts['invalid']} invalid, "
    assert re.search(progress, out)


# ---- runs that end early


def check_stopped(runs, name, *more):
    """A run that is stopped in the middle has a report that is right as far as it goes, and goes on: it does not look
    again at what was done, and at all else. A file of the last two seconds is read again: so these pass first."""
    time.sleep(2.1)
    report = runs.work / name
    process = runs.start(report, *more)
    runs.in_the_middle(process, report, lambda: process.send_signal(signal.SIGINT))
    assert "not done" in runs.is_ended(process, 3)
    done = lines_of(report)
    assert 100 <= len(done) < len(runs.archive.wanted)
    has_each_once(report, {it: runs.archive.wanted[it] for _, it in done})
    check_goes_on(runs, report, done, *more)


def check_goes_on(runs, report, done, *more):
    """The same command goes on. Meanwhile one file that was done is damaged, and one that was not."""
    names = {name for word, name in done if word == "valid"}
    first = min(names)
    second = min(it for it, word in runs.archive.wanted.items() if word == "valid" and it not in names)
    for it in first, second:
        (runs.archive.folder / it).write_bytes(b"damaged")
    try:
        out = runs.ends(1, report, *more)
    finally:
        for it in first, second:
            (runs.archive.folder / it).write_bytes(runs.archive.message)
    has_each_once(report, {**runs.archive.wanted, first: "invalid", second: "invalid"})
    assert f"; {len(names) - 1} not read again" in out


@slow
def test_stopped_run_goes_on(runs):
    check_stopped(runs, "stopped", "--threads", 1)


@slow
def test_run_that_is_ended_by_force_goes_on(runs):
    report = runs.work / "force"
    process = runs.start(report, "--threads", 2)
    runs.in_the_middle(process, report, process.kill)
    process.communicate()
    runs.ends(1, report, "--threads", 2)
    has_each_once(report, runs.archive.wanted)


# ---- reports, lists and keys


@pytest.fixture(scope="module")
def other_key(runs):
    return key_file(runs.work / "other.key", "public", "128f", flip(runs.archive.pk, 0))


@slow
def test_reports_are_not_mixed(runs, by_threads, other_key):
    report, before, whole = by_threads[0], by_threads[0].read_bytes(), runs.key.read_bytes()
    assert "of another command, key or folder" in runs.ends(2, report, key=other_key)
    assert "of another command, key or folder" in runs.ends(2, report, folder=runs.archive.folder / "0")
    assert "file is not a database" in runs.ends(2, runs.key)
    assert runs.key.read_bytes() == whole and report.read_bytes() == before


@slow
def test_files_of_a_list(runs, other_key):
    """Of a list just its files are done, and the status is 0 if all are valid; under another key none are."""
    names = [it for it, word in runs.archive.wanted.items() if word == "valid" and "\n" not in it][-40:]
    listed, report = runs.work / "listed", runs.work / "list"
    listed.write_bytes(b"".join(os.fsencode(runs.archive.folder / it) + b"\n" for it in names[:20])
                       + b"".join(os.fsencode(it) + b"\n" for it in names[20:]))
    for key, status, word in (runs.key, 0, "valid"), (other_key, 1, "invalid"):
        report.unlink(missing_ok=True)
        runs.ends(status, report, "--list", listed, key=key)
        has_each_once(report, {it: word for it in names})
    listed.write_text("../threads\n")
    assert "is not in the folder" in runs.ends(2, report, "--list", listed, key=other_key)


@pytest.fixture
def refuses_key(runs, tmp_path):
    """What a run says of a key that it refuses."""
    (tmp_path / "empty").mkdir()
    return lambda key, **more: runs.ends(2, tmp_path / "report", key=key, folder=tmp_path / "empty", **more)


@slow
@pytest.mark.parametrize("kind", ["empty", "named secret", "secret"])
def test_key_of_another_kind_is_refused(runs, refuses_key, tmp_path, kind):
    """The package's own tests have the others."""
    texts = {"empty": "", "secret": runs.secret.read_text()}
    odd = tmp_path / "odd.key"
    odd.write_text(texts.get(kind, runs.key.read_text().replace("public", "secret")))
    assert "11 NotAKeyFile" in refuses_key(odd)


@slow
def test_missing_key_is_told(refuses_key, tmp_path):
    assert "No such file" in refuses_key(tmp_path / "none")


@slow
def test_inconsistent_secret_key_is_refused(refuses_key, tmp_path):
    sk = bytes.fromhex(vectors("128f", kind="sign")[0]["sk"])
    odd = key_file(tmp_path / "odd.key", "secret", "128f", flip(sk, 8 * 48))
    assert "whose root is not that of its seeds" in refuses_key(odd, command="sign")


# ---- signing


def check_signs(runs, name, *more):
    """Each file is signed, and none whose signature is there: neither a valid nor a damaged one is written over."""
    folder, report = runs.work / f"{name} files", runs.work / name
    folder.mkdir()
    kept = {"kept.sig": runs.archive.sig, "damaged.sig": flip(runs.archive.sig, 0)}
    for it, data in {"kept": runs.archive.message, "damaged": runs.archive.message, **kept}.items():
        (folder / it).write_bytes(data)
    for at in range(20):
        (folder / f"{at}").write_text(f"file {at}")
    runs.ends(1, report, *more, command="sign", key=runs.secret, folder=folder)
    words = {f"{at}": "signed" for at in range(20)}
    has_each_once(report, {**words, "kept": "valid", "damaged": "invalid"})
    assert {it: (folder / it).read_bytes() for it in kept} == kept
    (folder / "damaged.sig").unlink()
    verified = runs.work / f"{name} verified"
    runs.ends(1, verified, folder=folder)
    has_each_once(verified, {**dict.fromkeys(words, "valid"), "kept": "valid", "damaged": "unreadable"})
    assert len(list(folder.iterdir())) == 2 * 20 + 3 + 2


@slow
def test_files_are_signed_by_threads(runs):
    check_signs(runs, "signed", "--threads", 2)


# ---- memory


def link(runs, folder, numbers):
    """Makes files that are one in truth: ext4 has no more than 65,000 of these."""
    for at in numbers:
        for end, data in ("", runs.archive.message), (".sig", runs.archive.sig):
            if at % 50_000 == 0:
                (folder / f"{at}{end}").write_bytes(data)
            else:
                os.link(folder / f"{at - at % 50_000}{end}", folder / f"{at}{end}")


def peak(runs, name, folder):
    """The most megabytes of memory that a run takes which signs a folder."""
    with open(runs.work / f"{name} said", "w+") as out:
        process = runs.start(runs.work / name, "--threads", 2, command="sign", key=runs.secret, folder=folder, out=out,
                             err=out)
        _, status, usage = os.wait4(process.pid, 0)
        process.returncode = os.waitstatus_to_exitcode(status)
        out.seek(0)
        assert process.returncode == 0, out.read()[-2000:]
    return usage.ru_maxrss // 1024


@pytest.fixture
def many(request):
    """How many files the most memory is measured with: --all takes more."""
    if request.param and request.config.option.all:
        return 100_000
    return request.param or 1000


@pytest.mark.parametrize("many", [pytest.param(0, id="few"), pytest.param(5000, id="many", marks=slow)], indirect=True)
def test_memory_does_not_grow_with_the_files(runs, many, tmp_path):
    link(runs, tmp_path, range(500))
    few = peak(runs, f"few of {many}", tmp_path)
    link(runs, tmp_path, range(500, many))
    most = peak(runs, f"{many} files", tmp_path)
    assert most < few + 6, f"{few} MB for 500 files, {most} MB for {many}"


# ---- on a cluster


class Cluster:
    """A scheduler and two workers of one thread each. Only these processes are ended."""

    def __init__(self, folder, env):
        self.folder, self.env, self.workers = folder, env, []
        place = folder / "scheduler.json"
        self.scheduler = self.start("scheduler", "--host", "127.0.0.1", "--port", "0", "--no-dashboard",
                                    "--scheduler-file", place)
        self.wait_for(lambda: place.exists() and place.read_text().rstrip().endswith("}"))
        self.address = json.loads(place.read_text())["address"]

    def start(self, what, *words):
        command = [PYTHON, "-m", f"distributed.cli.dask_{what}", *map(str, words)]
        with open(self.folder / f"{what}.log", "a") as log:
            return subprocess.Popen(command, stdout=log, stderr=log, cwd=self.folder, env=self.env)

    def has_two_workers(self):
        """Starts workers that are missing, and waits until the scheduler has them."""
        before, missing = self.log().count("Register worker"), 2 - len(self.workers)
        for _ in range(missing):
            self.workers.append(self.start("worker", self.address, "--no-nanny", "--nthreads", 1, "--no-dashboard",
                                           "--local-directory", self.folder))
        self.wait_for(lambda: self.log().count("Register worker") == before + missing)

    def log(self):
        return (self.folder / "scheduler.log").read_text()

    def wait_for(self, is_so):
        end = time.monotonic() + PATIENCE
        while not is_so():
            assert time.monotonic() < end, self.log()[-2000:]
            time.sleep(0.05)

    def kill_worker(self):
        worker = self.workers.pop()
        worker.kill()
        worker.wait()

    def end(self):
        for it in [*self.workers, self.scheduler]:
            it.kill()
            it.wait()


@pytest.fixture(scope="module")
def started_cluster(runs, tmp_path_factory):
    need_module("distributed", "python3-distributed")
    cluster = Cluster(tmp_path_factory.mktemp("cluster"), runs.env)
    yield cluster
    cluster.end()


@pytest.fixture
def cluster(started_cluster):
    """The cluster, with as many workers as at first."""
    started_cluster.has_two_workers()
    return started_cluster


@pytest.fixture
def by_jobs(runs, cluster, tmp_path):
    """Signs a letter of the vectors by jobs on the cluster, with a key: the outcome, the signature that was made or
    none, and OpenSSL's."""
    test = next(it for it in vectors("256s", kind="sign") if not it["random"])
    letter, made = tmp_path / "letter", tmp_path / "letter.sig"
    letter.write_bytes(bytes.fromhex(test["message"]))

    def signs(change=lambda sk: sk):
        (tmp_path / "key").write_bytes(change(bytes.fromhex(test["sk"])))
        words = [HERE / "examples/sign_cluster.py", cluster.address, tmp_path / "key", letter]
        outcome = run(PYTHON, *words, env=runs.env)
        return outcome, made.read_bytes() if made.exists() else None, bytes.fromhex(test["signature"])

    return signs


@slow
def test_signature_by_jobs_on_a_cluster(by_jobs):
    outcome, made, wanted = by_jobs()
    assert outcome.status == 0, outcome.errors[-2000:]
    assert made == wanted


@slow
def test_damaged_key_makes_no_signature_on_a_cluster(by_jobs):
    outcome, made, _ = by_jobs(lambda sk: flip(sk, 8 * 127))
    assert (outcome.status, made) == (1, None) and b"25 AnswersDisagree" in outcome.errors


@slow
def test_stopped_run_on_a_cluster_goes_on(runs, cluster):
    check_stopped(runs, "stopped on it", "--cluster", cluster.address)


@slow
def test_files_are_signed_on_a_cluster(runs, cluster):
    check_signs(runs, "signed on it", "--cluster", cluster.address)


@slow
def test_archive_on_a_cluster_that_loses_a_worker(runs, cluster):
    report = runs.work / "cluster"
    process = runs.start(report, "--cluster", cluster.address)
    runs.in_the_middle(process, report, cluster.kill_worker)
    runs.is_ended(process, 1)
    has_each_once(report, runs.archive.wanted)
    assert "Remove worker" in cluster.log()


@slow
def test_lost_worker_leaves_no_part(runs, cluster):
    """Of a signature that it writes, in the folder, when the run ends."""
    folder, report = runs.work / "lost files", runs.work / "lost"
    (folder / "below").mkdir(parents=True)
    for at in range(60):
        (folder / f"{at}").write_text(f"file {at}")
    process = runs.start(report, "--cluster", cluster.address, command="sign", key=runs.secret, folder=folder)
    while not list(folder.glob("*.sig")):
        assert process.poll() is None, "it ended too early"
        time.sleep(0.002)
    for it in "", "below":
        (folder / it / ".slh-archive-abcdefgh.part").write_text("what a lost worker leaves")
    cluster.kill_worker()
    runs.is_ended(process, 0)
    assert not list(folder.rglob("*.part"))
    runs.ends(0, runs.work / "lost verified", folder=folder)
