"""Tries the examples that sign a queue: in C, Python and Go.

Each example signs files that a pipe names, while its counters are read by the parser of Debian's
python3-prometheus-client. Then the package slh verifies the signatures. A process that is ended by force has to be
told. After SIGTERM each name is signed, named as a failure, or still in the queue. Folders are synced, which strace
shows. systemd-analyze looks at the units. The service does not start by a program that fails its self-test."""
import contextlib
import fcntl
import os
import pathlib
import re
import shlex
import shutil
import signal
import socket
import struct
import subprocess
import termios
import time
import urllib.request

import pytest

from conftest import STRICT
from packages import with_another_root
from support import HERE, PATIENCE, PYTHON, free_port, need, run, succeed

EXAMPLES = HERE / "examples"
PROCESSES, FILES = 2, 40
# Run by Debian's python3, which has the packages: it makes a key, verifies signatures, and parses counters.
MAKE_KEY = """import pathlib, slh, sys
secret = slh.SecretKey.generate("SLH-DSA-SHA2-128f")
secret.dump("key"), secret.public().dump("key.pub"), pathlib.Path("key.raw").write_bytes(secret.to_bytes())"""
VERIFY = """import pathlib, slh, sys
public = slh.PublicKey.load(sys.argv[1])
for it in map(pathlib.Path, sys.argv[2:]):
    public.verify(message=it.read_bytes(), signature=pathlib.Path(f"{it}.sig").read_bytes())"""
PARSE = """import sys
from prometheus_client.parser import text_string_to_metric_families
for it in text_string_to_metric_families(sys.stdin.read()):
    for sample in it.samples:
        if sample.name.startswith("slh_"): print(it.type, sample.name, sample.value)"""


# ---- processes, ports and pipes


def waits_until(is_so, what):
    end = time.monotonic() + PATIENCE
    while not is_so():
        assert time.monotonic() < end, what
        time.sleep(0.02)


def is_free(port):
    """Whether a server could have this port."""
    with socket.socket() as it:
        it.setsockopt(socket.SOL_SOCKET, socket.SO_REUSEADDR, 1)
        try:
            it.bind(("127.0.0.1", port))
        except OSError:
            return False
        return True


def has_ended(group):
    """Whether no process of a group is left."""
    try:
        os.killpg(group, 0)
    except ProcessLookupError:
        return True
    return False


def bytes_in(pipe):
    return struct.unpack("i", fcntl.ioctl(pipe, termios.FIONREAD, bytes(4)))[0]


class Pipe:
    """A queue that stays open, so that what a program leaves in it can be read at last."""

    def __enter__(self):
        self.out, self.into = os.pipe()
        return self

    def __exit__(self, *_):
        os.close(self.out)
        os.close(self.into)

    def put(self, *lines):
        os.write(self.into, b"".join(os.fsencode(it) for it in lines))

    def left(self):
        size = bytes_in(self.out)
        return os.read(self.out, size).splitlines() if size else []


def children_of(process):
    """The processes that any thread of a process has started."""
    lists = pathlib.Path(f"/proc/{process}/task").glob("*/children")
    return [int(it) for each in lists for it in each.read_text().split()]


def end_signers(process):
    for child in children_of(process.pid):
        with contextlib.suppress(OSError):
            if b"resource_tracker" not in pathlib.Path(f"/proc/{child}/cmdline").read_bytes():
                os.kill(child, signal.SIGKILL)


# ---- the examples


@pytest.fixture(scope="module")
def env(python_package):
    """The environment of Python's programs, which have the package slh."""
    env = {**os.environ, "PYTHONPATH": str(python_package)}
    if run(PYTHON, "-c", "import prometheus_client", env=env).status:
        pytest.skip("there is no prometheus_client (to be had by the package python3-prometheus-client)")
    return env


@pytest.fixture(scope="module")
def keys(env, tmp_path_factory):
    """A folder with a key pair in each form that an example takes."""
    folder = tmp_path_factory.mktemp("keys")
    succeed(PYTHON, "-c", MAKE_KEY, cwd=folder, env=env)
    return folder


@pytest.fixture(scope="module")
def in_python():
    """The command of an example, and the name of the key that it takes."""
    return [PYTHON, EXAMPLES / "sign_queue.py"], "key"


@pytest.fixture(scope="module")
def in_c(compiled, installed_as_is):
    return [compiled("sign_queue", "-std=c11", "-O2", *STRICT, "-I", installed_as_is / "include",
                     EXAMPLES / "sign_queue.c", installed_as_is / "lib/libslh.a")], "key.raw"


@pytest.fixture(scope="module")
def in_go(installed, tmp_path_factory):
    need("go", "gcc")
    prefix, work = installed, tmp_path_factory.mktemp("go")
    settings = {"CGO_ENABLED": "1", "CGO_CFLAGS": f"-I{prefix}/include", "CGO_LDFLAGS": f"-L{prefix}/lib",
                "GOCACHE": str(work / "cache"), "GOPATH": str(work / "path"), "GOFLAGS": "-mod=readonly",
                "GOPROXY": "off"}
    succeed("go", "build", "-o", work / "sign_queue", "./examples/sign_queue", cwd=HERE / "bindings/go",
            env={**os.environ, **settings}, timeout=1800)
    return [work / "sign_queue"], "key"


class Example:
    """An example that signs a queue: a command, and the key that it takes."""

    def __init__(self, folder, keys, env, words, key):
        self.folder, self.keys, self.env, self.words, self.key = folder, keys, env, words, keys / key
        self.port = free_port()
        self.folder.mkdir()

    @contextlib.contextmanager
    def start(self, *before, queue=subprocess.PIPE):
        """The running example. At the end of the block all its processes are ended by force."""
        words = [*before, *self.words, self.key, self.port, PROCESSES]
        with subprocess.Popen(list(map(str, words)), stdin=queue, stdout=subprocess.PIPE, stderr=subprocess.PIPE,
                              start_new_session=True, env=self.env) as process:
            try:
                yield process
            finally:
                with contextlib.suppress(ProcessLookupError):
                    os.killpg(process.pid, signal.SIGKILL)

    def feed(self, process, *paths):
        process.stdin.write(b"".join(os.fsencode(it) + b"\n" for it in paths))
        process.stdin.flush()

    def files(self, numbers):
        made = [self.folder / f"{at}" for at in numbers]
        for it in made:
            it.write_text(it.name)
        return made

    def verify(self, files):
        assert run(PYTHON, "-c", VERIFY, self.keys / "key.pub", *files, env=self.env) == (0, b"", b"")

    def scrape(self):
        """The counters, as a parser that nobody here wrote reads them; none before the port is open."""
        try:
            with urllib.request.urlopen(f"http://127.0.0.1:{self.port}/metrics", timeout=10) as answer:
                kind, text = answer.headers["Content-Type"], answer.read()
        except OSError:
            return {}
        assert kind.startswith("text/plain; version=")
        lines = succeed(PYTHON, "-c", PARSE, stdin=text, env=self.env).decode().splitlines()
        return {name: float(value) for kind, name, value in map(str.split, lines) if kind == "counter"}

    def scraped(self, process, signed, failed):
        """Scrapes until all is done."""
        end = time.monotonic() + PATIENCE
        while True:
            found = self.scrape()
            if found.get("slh_signatures_total") == signed and found.get("slh_failures_total") == failed:
                return found
            assert process.poll() is None and time.monotonic() < end, f"{found}: not {signed} and {failed}"
            time.sleep(0.1)

    def ended(self, process, status, said):
        """What it wrote to standard error. Its status and its last line have to be these."""
        out, err = process.communicate(timeout=PATIENCE)
        assert (process.returncode, out.decode().strip()) == (status, said), err[-900:]
        return err.decode()

    def all_are_ended(self, process):
        """The number of files that a program says it signed, which was stopped: all its processes and its port end."""
        out, err = process.communicate(timeout=PATIENCE)
        assert process.returncode == 0 and out.endswith(b" signed, 0 failed\n") and b"it was stopped" in err, err
        waits_until(lambda: has_ended(process.pid) and is_free(self.port), "processes, or the port, live on")
        return int(out.split()[0])


@pytest.fixture(params=["python", *(pytest.param(it, marks=pytest.mark.slow) for it in ("c", "go"))])
def example(request, keys, env, tmp_path):
    return Example(tmp_path / "files", keys, env, *request.getfixturevalue(f"in_{request.param}"))


def test_each_file_is_signed(example):
    """What can't be signed is counted and named. Two processes do it."""
    files, kept = example.files(range(FILES)), example.folder / "kept.sig"
    (example.folder / "kept").write_text("kept")
    kept.write_text("there")
    with example.start() as process:
        example.feed(process, *files[1:], example.folder / "kept", example.folder / "none")
        found = example.scraped(process, FILES - 1, 2)
        assert found["slh_signing_seconds_total"] > 0
        assert len(children_of(process.pid)) >= PROCESSES
        example.feed(process, files[0])
        assert example.scraped(process, FILES, 2)["slh_signing_seconds_total"] > found["slh_signing_seconds_total"]
        err = example.ended(process, 1, f"{FILES} signed, 2 failed")
    assert f"{example.folder / 'kept'}: " in err and f"{example.folder / 'none'}: " in err
    assert "nil" not in err and len(err.splitlines()) == 2
    assert kept.read_text() == "there"
    example.verify(files)
    assert len(list(example.folder.iterdir())) == 2 * FILES + 2


def test_end_of_the_queue_ends_it(example):
    with example.start() as process:
        example.feed(process, *example.files(["last"]))
        example.ended(process, 0, "1 signed, 0 failed")


def test_loss_of_its_processes_is_told(example):
    """The status is 1, also if many names follow."""
    files = example.files(range(400))
    with example.start() as process:
        example.feed(process, files[0])
        example.scraped(process, 1, 0)
        end_signers(process)
        with contextlib.suppress(BrokenPipeError):
            example.feed(process, *files[1:])
        out, err = process.communicate(timeout=PATIENCE)
        assert process.returncode == 1, out + err[-900:]


@pytest.mark.parametrize("example", ["python", pytest.param("go", marks=pytest.mark.slow)], indirect=True)
def test_no_file_is_lost_with_its_processes(example):
    """Each is signed, named, or left in the queue. The example in C says only that a process was lost."""
    files = example.files(range(10))
    with Pipe() as pipe, example.start(queue=pipe.out) as process:
        pipe.put(f"{files[0]}\n")
        example.scraped(process, 1, 0)
        end_signers(process)
        pipe.put(*(f"{it}\n" for it in files[1:]))
        _, err = process.communicate(timeout=PATIENCE)
        left = pipe.left()
    lost = [it.name for it in files if not it.with_name(it.name + ".sig").exists()
            and f"{it}: " not in err.decode() and os.fsencode(it) not in left]
    assert (process.returncode, lost) == (1, []), err[-300:]


@pytest.mark.parametrize("kill", [os.kill, os.killpg], ids=["it alone", "all its processes"])
def test_sigterm_drains(example, kill):
    """Each name is signed or still in the queue."""
    files = example.files(range(700))
    with Pipe() as pipe, example.start(queue=pipe.out) as process:
        pipe.put(*(f"{it}\n" for it in files))
        waits_until(lambda: example.scrape().get("slh_signatures_total", 0) > 3, "nothing is signed")
        kill(process.pid, signal.SIGTERM)
        signed, left = example.all_are_ended(process), pipe.left()
    there = [it for it in files if it.with_name(it.name + ".sig").exists()]
    assert [*map(os.fsencode, files[len(there):])] == left
    assert 3 < signed == len(there) < len(files)
    example.verify(there)


def test_sigterm_ends_it_while_it_waits(example):
    with Pipe() as pipe, example.start(queue=pipe.out) as process:
        waits_until(example.scrape, "there is no port")
        process.send_signal(signal.SIGTERM)
        assert example.all_are_ended(process) == 0


def test_part_of_a_name_is_named(example):
    """It was taken from the queue, which then is empty, before SIGTERM."""
    with Pipe() as pipe, example.start(queue=pipe.out) as process:
        pipe.put("half a na")
        waits_until(lambda: not bytes_in(pipe.out) and example.scrape(), "it takes nothing")
        process.send_signal(signal.SIGTERM)
        assert "half a na: " in example.ended(process, 1, "0 signed, 1 failed")


def test_sigterm_in_a_name_lets_it_be_read_on(example):
    """What is behind a part of a name would be another name in the queue. This one is too long to be a file's."""
    with Pipe() as pipe, example.start(queue=pipe.out) as process:
        waits_until(example.scrape, "there is no port")
        pipe.put(f"{60_000 * 'x'}\n")
        while bytes_in(pipe.out) > 60_000:
            pass
        process.send_signal(signal.SIGTERM)
        example.ended(process, 1, "0 signed, 1 failed")
        assert pipe.left() == []


def test_no_process_outlives_the_first(example):
    """If that is ended by force, the port is free, and no process with a key lives on."""
    with example.start() as process:
        example.feed(process, *example.files(["before it"]))
        example.scraped(process, 1, 0)
        process.kill()
        process.wait()
        waits_until(lambda: is_free(example.port), "the port is not free")
        waits_until(lambda: has_ended(process.pid), "processes live on")


def test_no_other_file_is_signed(example):
    """A pipe is not waited for. A name with a zero, or with the carriage return of Windows, is no other file's."""
    (letter,), pipe = example.files(["letter"]), example.folder / "pipe"
    os.mkfifo(pipe)
    with example.start() as process:
        example.feed(process, pipe, f"{letter}\r", f"{letter}\0x")
        err = example.ended(process, 1, "0 signed, 3 failed")
    assert f"{pipe}: " in err and not letter.with_name("letter.sig").exists()


def test_folder_is_synced(example, tmp_path):
    """The disk has the signature, and then its name, before it is counted."""
    need("strace")
    if run("strace", "-o", os.devnull, "true").status:
        pytest.skip("strace may not trace here (a container needs the capability SYS_PTRACE)")
    (file,), log = example.files(["synced"]), tmp_path / "trace"
    with example.start("strace", "-f", "-y", "-e", "trace=fsync", "-o", log) as process:
        example.feed(process, file)
        example.ended(process, 0, "1 signed, 0 failed")
    synced = [it.split("<", 1)[1].split(">")[0] for it in log.read_text().splitlines() if " fsync(" in it]
    assert synced == [f"{file}.sig", str(example.folder)]


@pytest.mark.parametrize("kind", ["empty", "public"])
def test_key_of_another_kind_is_refused(example, tmp_path, kind):
    bad = tmp_path / "bad"
    bad.write_text("" if kind == "empty" else (example.keys / "key.pub").read_text())
    outcome = run(*map(str, [*example.words, bad, example.port]), env=example.env)
    assert outcome.status == 2 and outcome.errors


@pytest.fixture
def small_disk(file_system):
    """A file system without room for a signature."""
    return file_system("12k")


def test_no_part_is_left_on_a_full_disk(example, small_disk):
    (small_disk / "letter").write_text("letter")
    with example.start() as process:
        example.feed(process, small_disk / "letter")
        err = example.ended(process, 1, "0 signed, 1 failed")
    assert f"{small_disk / 'letter'}: " in err and os.listdir(small_disk) == ["letter"]


# ---- the units of systemd

# The command of the service that runs the self-test.
SELF_TEST = "/usr/local/bin/sign_queue --self-test ${CREDENTIALS_DIRECTORY}/key"


@pytest.fixture
def unit(tmp_path):
    """Says of the service, in which lines are changed, what systemd says: the outcome. Its programs are there."""
    need("systemd-analyze")
    shutil.copy(EXAMPLES / "sign_queue.socket", tmp_path)
    for name in "slh", "sign_queue":
        (tmp_path / name).symlink_to("/bin/true")
    file, text = tmp_path / "sign_queue.service", (EXAMPLES / "sign_queue.service").read_text()

    def outcome_of(line="", by=""):
        assert not line or f"\n{line}\n" in text
        changed = text.replace(f"\n{line}\n", f"\n{by}\n") if line else text
        file.write_text(changed.replace("/usr/local/bin/", f"{tmp_path}/"))
        return run("systemd-analyze", "verify", file)

    return file, outcome_of


@pytest.mark.slow
def test_systemd_takes_the_service(unit):
    """Without a word."""
    assert unit[1]() == (0, b"", b"")


@pytest.mark.slow
@pytest.mark.parametrize("line, by", [
    ("LimitCORE=0", "LimitCore=0"),
    ("Requires=sign_queue.socket", "Requires=none.socket"),
    ("ProtectSystem=strict", "ProtectSystem=stricter"),
    (f"ExecStartPre={SELF_TEST}", f"ExecStartPre={SELF_TEST.replace('/sign_queue', '/none')}"),
], ids=["another word", "no socket", "another value", "no self-test"])
def test_systemd_finds_a_change_of_the_service(unit, line, by):
    assert unit[1](line, by) != (0, b"", b"")


def commands_of(kind):
    """The commands of the service's lines of this kind."""
    lines = (EXAMPLES / "sign_queue.service").read_text().splitlines()
    return [it.partition("=")[2] for it in lines if it.startswith(f"{kind}=")]


def test_service_runs_the_self_test_first():
    """By the program that signs then, with its key. A failure is not ignored, as it would be after a minus."""
    assert commands_of("ExecStartPre")[0] == SELF_TEST
    (signs,) = commands_of("ExecStart")
    program, option, key = shlex.split(SELF_TEST)
    assert (shlex.split(signs)[:2], option) == ([program, key], "--self-test")


@pytest.mark.slow
def test_damaged_program_fails_the_self_test_of_the_service(in_go, keys, tmp_path):
    """So the service does not start. Nor does it with a key that can't be read."""
    (program,), key = in_go
    another = tmp_path / "another"
    another.write_bytes(with_another_root(program.read_bytes()))
    another.chmod(0o755)

    def said_by(path, key):
        words = {"/usr/local/bin/sign_queue": path, "${CREDENTIALS_DIRECTORY}/key": key}
        return run(*(words.get(it, it) for it in shlex.split(SELF_TEST)))

    assert said_by(program, keys / key) == (0, b"", b"")
    status, output, errors = said_by(another, keys / key)
    assert (status, output) == (2, b"") and errors.startswith(b"slh: 40 SelfTestFailed")
    assert said_by(program, tmp_path / "none").status == 2


def test_strangers_name_no_files():
    """Whoever writes into the pipe has files signed: the user and the group of the service alone."""
    lines = (EXAMPLES / "sign_queue.socket").read_text().splitlines()
    assert {"SocketUser=sign-queue", "SocketGroup=sign-queue", "SocketMode=0660"} <= set(lines)


def test_page_shows_lines_of_the_service():
    """The page of examples explains those that matter for the key."""
    lines = (EXAMPLES / "sign_queue.service").read_text().splitlines()
    shown = re.findall(r"^\| (`[A-Z]\w+=.*?`) \|", (EXAMPLES / "README.md").read_text(), re.M)
    found = [it for cell in shown for it in re.findall("`(.*?)`", cell)]
    assert len(found) >= 8 and [it for it in found if it not in lines] == []


@pytest.mark.slow
def test_sandbox_of_the_service(unit):
    """systemd rates it at most 1.5 of 10."""
    unit[1]()
    succeed("systemd-analyze", "security", "--offline=true", "--threshold=15", unit[0])
