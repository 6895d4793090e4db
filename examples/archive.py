"""Signs, or verifies, each file of a folder, and a manifest of all of them.

usage: archive.py sign|verify --key KEY --report REPORT --folder FOLDER [--list LIST] [--threads N | --cluster ADDRESS]
                  [--all] [--no-manifest] [--least NUMBER] [--comment TEXT] [--accept]

It needs tqdm and the package slh, which bindings/README.md says how to install. KEY is a key file of the program
`slh`: a secret one to sign, a public one to verify. The signature of FILE is FILE.sig, of the pure form and under the
empty context. The folder's manifest is slh-manifest-NUMBER.jsonl, with a signature (examples/README.md, "Manifest").

Each file gets one word. The first three are right:

  valid       the signature beside the file is valid, and the manifest lists the file as it is
  signed      there was no signature: it was made, verified, and is on the disk
  link        a symbolic link, which is not followed: the manifest lists where it leads
  invalid     the signature beside the file is not valid, or the manifest is not, or is an older one than before
  unreadable  the file or its signature could not be read, or there is none, or a folder could not be read
  unwritable  the signature could not be written
  added, changed, removed, renamed    the file is otherwise than the manifest lists it

`sign` writes over no signature, and signs no file that the manifest lists with another content. If the manifest can't
be relied on, it signs nothing, and its status is 1. At its end it writes the next manifest, unless nothing changed. If
files of the manifest before are removed, renamed or changed, it ends with status 1, and signs changed files and writes
a manifest only with --accept. A signature is written whole or not at all, and the disk has it and its name before the
report does. A file whose times or length change while it is read and signed gets no signature.

`verify` fails without a manifest. With --no-manifest both commands see to signatures alone. A manifest tells that a
file was removed, renamed, added or rolled back. That all was rolled back, with the manifest, is told by a REPORT that
has seen a later number, or by --least, the least number to take. A manifest lists names, contents and symbolic links.
It lists no owners, modes, times, hard links or empty folders: sign a tar archive to have these signed.

REPORT is an SQLite database, outside of the folder. Its table `files` has the word for each file and a reason. It
belongs to a command, a key and a folder, and is refused for others. After a stop (Ctrl-C, or an end by force) the same
command goes on. A file that was valid is verified again if the system says that it or its signature changed. --all
verifies all again, which also finds what a disk changed by itself.

--list names files of the folder, one a line: then only these are looked at, and entries of others stay in the manifest.
--threads is the number of threads (without it one for each processor), --cluster the scheduler of a cluster of
dask.distributed, whose workers have the package slh, and see the files and, to sign, the secret key under the same
paths. What they answer is believed. A batch of files whose worker is lost goes to another one. Each file is held in
memory whole.

The status is 0 if all is right, 1 if something is not, and 2 if the command is refused. It is 3 if the run was stopped,
a batch failed or the report could not be written, so that some files are not done. It is also 3 if standard output or
error could not be written, as on a full disk.
"""
import argparse
import collections
import concurrent.futures
import contextlib
import dataclasses
import datetime
import fcntl
import hashlib
import itertools
import json
import os
import re
import signal
import sqlite3
import stat
import sys
import tempfile
import threading
import time

import slh
import tqdm

# The name of a file while it is written. One that a run left is cleared when the next one signs.
PREFIX, SUFFIX = ".slh-archive-", ".part"
LEFTOVER = re.compile(r"\.slh-archive-\w{8}\.part")
MANIFEST = re.compile(r"slh-manifest-(\d{8})\.jsonl(\.sig)?", re.ASCII)
# Manifests are signed in the pre-hash form under this context, so that no signature of a file is one of a manifest.
CONTEXT = b"slh archive manifest"
HASH = slh.Function.SLH_SHA2_512
FOLDER = os.O_RDONLY | os.O_DIRECTORY | os.O_CLOEXEC
# How many files are verified, or signed, at a time: so many are done again if a run is ended by force.
FILES = {"verify": 32, "sign": 1}
# A change within so many nanoseconds before a file was read may not show in its times.
SETTLED = 2_000_000_000
# The report is written at least after so many seconds, and after so many files.
SECONDS, PENDING = 0.5, 500
RIGHT = "valid", "signed", "link"
# The names without a row.
LEFT = "(SELECT name FROM found WHERE name NOT IN (SELECT name FROM files))"

TABLES = """
CREATE TABLE IF NOT EXISTS head (line TEXT NOT NULL);
CREATE TABLE IF NOT EXISTS seen (number INTEGER NOT NULL, sha512 BLOB NOT NULL);
CREATE TABLE IF NOT EXISTS files (name BLOB PRIMARY KEY, word TEXT NOT NULL, why TEXT, length INTEGER, sha512 BLOB,
                                  state TEXT) WITHOUT ROWID;
CREATE TEMP TABLE found (name BLOB PRIMARY KEY, state TEXT) WITHOUT ROWID;
CREATE TEMP TABLE manifest (name BLOB PRIMARY KEY, link TEXT, length INTEGER, sha512 BLOB) WITHOUT ROWID;
CREATE TEMP VIEW good AS SELECT name, iif(word = 'link', why, NULL) AS link, length, sha512 FROM files
    WHERE word IN ('valid', 'signed', 'link');
"""


@dataclasses.dataclass
class Task:
    """What is done with each file."""

    public: slh.PublicKey
    secret: str  # the path of the secret key to sign with, or None
    root: str


# ---- what workers do ----


@contextlib.contextmanager
def folder_of(root, name):
    """A descriptor of the folder that has a file, and the file's name there. No link is followed below the root, so
    that nothing is outside of it."""
    *folders, last = name.split("/")
    at = os.open(root, FOLDER)
    try:
        for it in folders:
            below = os.open(it, FOLDER | os.O_NOFOLLOW, dir_fd=at)
            os.close(at)
            at = below
        yield at, last
    finally:
        os.close(at)


@contextlib.contextmanager
def opened(at, name):
    """A file to read, and what the system says of it. A pipe is refused, since it may have no end. One that is not the
    same when the caller has done with it is refused, too."""
    number = os.open(name, os.O_RDONLY | os.O_NOFOLLOW | os.O_NONBLOCK | os.O_CLOEXEC, dir_fd=at)
    try:
        seen = os.fstat(number)
        if not stat.S_ISREG(seen.st_mode):
            raise OSError(f"{name} is no file")
        with open(number, "rb", closefd=False) as file:
            yield file, seen
        if stamp_of(os.fstat(number)) != stamp_of(seen):
            raise OSError(f"{name} changed while it was read")
    finally:
        os.close(number)


def read(at, name, most=-1):
    with opened(at, name) as (file, seen):
        return file.read(most), seen


def new_part(at):
    """A file that is not yet under its name, and is removed when it is closed."""
    return tempfile.NamedTemporaryFile(dir=f"/proc/self/fd/{at}", prefix=PREFIX, suffix=SUFFIX)


def keep(part, at, name, mode):
    """Gives a file its name once the disk has its bytes. No file is written over. The caller syncs the folder."""
    part.flush()
    os.fchmod(part.fileno(), mode)
    os.fsync(part.fileno())
    os.link(part.name, name, dst_dir_fd=at)


def write_signature(signature, at, name, mode):
    """Writes a signature, which the disk then has. Returns the word, and the reason if it could not be written."""
    try:
        with new_part(at) as part:
            part.write(signature)
            keep(part, at, name, mode)
        os.fsync(at)
    except OSError as fault:
        return "unwritable", str(fault)
    return "signed", None


def stamp_of(it):
    """What shows whether a file changed."""
    return it.st_ino, it.st_size, it.st_mtime_ns, it.st_ctime_ns


def state_of(*seen):
    """What shows whether files changed, or None if they changed just now: then one more change might not show."""
    if max(it.st_ctime_ns for it in seen) > time.time_ns() - SETTLED:
        return None
    return " ".join(str(number) for it in seen for number in stamp_of(it))


def row(name, word, why=None, content=None, state=None):
    """A row of the report."""
    about = (None, None) if content is None else (len(content), hashlib.sha512(content).digest())
    return os.fsencode(name), word, why, *about, state


def is_there(at, name):
    try:
        return bool(os.lstat(name, dir_fd=at))
    except FileNotFoundError:
        return False


def judge_link(name, at, last):
    if is_there(at, last + ".sig"):
        raise OSError("a link has no signature")
    target = os.readlink(last, dir_fd=at)
    return row(name, "link", json.dumps(target), os.fsencode(target))


def sign_in(secret, name, listed, at, last):
    """The row of a file without a signature. It is signed two times, with fresh random bytes, and verified, unless the
    manifest lists another content of it."""
    with opened(at, last) as (file, seen):
        message = file.read()
        if listed not in (None, (None, hashlib.sha512(message).digest())):
            return row(name, "changed", "it is not signed", message)
        signature = secret.sign(message, verify=True)
    return row(name, *write_signature(signature, at, last + ".sig", seen.st_mode & 0o666), message)


def judge_in(task, secret, name, listed, at, last):
    """The row of a file in a folder. With a secret key it is signed, unless there is a signature."""
    if stat.S_ISLNK(os.lstat(last, dir_fd=at).st_mode):
        return judge_link(name, at, last)
    is_manifest = MANIFEST.fullmatch(name)
    if secret and not is_manifest and not is_there(at, last + ".sig"):
        return sign_in(secret, name, listed, at, last)
    message, seen = read(at, last)
    signature, seen_too = read(at, last + ".sig", task.public.set.lengths.signature + 1)
    state = state_of(seen, seen_too)
    try:
        if is_manifest:
            task.public.hash_verify(HASH, message=message, signature=signature, context=CONTEXT)
        else:
            task.public.verify(message=message, signature=signature)
    except slh.Invalid:
        return row(name, "invalid", None, message)
    return row(name, "valid", None, message, state)


def judge(task, secret, name, listed):
    """The row of one file, and of what the manifest lists of it: None, or the target of a link and a SHA-512."""
    try:
        with folder_of(task.root, name) as (at, last):
            return judge_in(task, secret, name, listed, at, last)
    except (OSError, ValueError, MemoryError) as fault:
        return row(name, "unreadable", str(fault) or type(fault).__name__)


def judge_all(task, files):
    """The rows of some files. This is what threads and the workers of a cluster run."""
    secret = slh.SecretKey.load(task.secret) if task.secret else None
    with secret or contextlib.nullcontext():
        return [judge(task, secret, *it) for it in files]


# ---- the report ----


class Report:
    """An SQLite database with what is so of each file, and the latest manifest that was seen."""

    def __init__(self, path, head):
        """Opens it. One with another head, or in use, is refused."""
        self.db = sqlite3.connect(path, timeout=0, isolation_level=None)
        self.pending, self.due = [], 0
        try:
            self.db.executescript("PRAGMA locking_mode = EXCLUSIVE; PRAGMA synchronous = EXTRA; BEGIN EXCLUSIVE;")
            for it in TABLES.split(";"):
                self.db.execute(it)
            line = self.first("SELECT line FROM head")
            if line not in (None, head):
                raise ValueError(f"{path} is the report of another command, key or folder")
            if line is None:
                self.db.execute("INSERT INTO head VALUES (?)", (head,))
            self.commit()
        except sqlite3.Error as fault:
            busy = str(fault) == "database is locked"
            raise ValueError(f"another run writes {path}" if busy else f"{path}: {fault}") from None

    def first(self, query, *words):
        """The first value of the first row, or None."""
        found = self.db.execute(query, words).fetchone()
        return found and found[0]

    def commit(self):
        """Has the disk keep what was written."""
        self.db.execute("COMMIT")
        self.pending, self.due = [], time.monotonic() + SECONDS
        self.db.execute("BEGIN")

    def forget(self):
        """Forgets what was written since the disk kept it. Returns the rows."""
        forgotten, self.pending = self.pending, []
        with contextlib.suppress(sqlite3.Error):
            if self.db.in_transaction:
                self.db.execute("ROLLBACK")
            self.db.execute("BEGIN")
        return forgotten

    def find(self, root, names, is_all):
        """Notes the names of this run, and forgets the rows of others, and of all that is not valid as it was."""
        for name in names:
            self.db.execute("INSERT OR IGNORE INTO found VALUES (?, ?)", (os.fsencode(name), now_of(root, name)))
        self.db.execute("""DELETE FROM files WHERE ? OR NOT EXISTS
            (SELECT 1 FROM found WHERE found.name = files.name AND found.state = files.state)""", (is_all,))
        self.commit()

    def left(self, accepts):
        """The names without a row, of which there may be many, with what the manifest lists of each: that is None for a
        new file, and for all if changed files are accepted."""
        last = b""
        page_of = f"""SELECT name, link, sha512 FROM {LEFT} LEFT JOIN manifest USING (name) WHERE name >= ?
            ORDER BY name LIMIT 1000"""
        while page := self.db.execute(page_of, (last,)).fetchall():
            for name, *listed in page:
                yield os.fsdecode(name), None if accepts or listed[1] is None else tuple(listed)
            last = page[-1][0] + b"\0"

    def add(self, rows):
        """Adds rows, and has the disk keep them now and then."""
        self.pending += rows
        self.db.executemany("INSERT OR REPLACE INTO files VALUES (?, ?, ?, ?, ?, ?)", rows)
        if time.monotonic() > self.due or len(self.pending) > PENDING:
            self.commit()

    def counts(self):
        return collections.Counter(dict(self.db.execute("SELECT word, count(*) FROM files GROUP BY word")))

    def wrong(self):
        """What is not right: word, name, reason."""
        return self.db.execute("SELECT word, name, why FROM files WHERE word NOT IN (?, ?, ?) ORDER BY name", RIGHT)

    def compare(self, is_whole, is_signing):
        """Notes what is otherwise than the manifest. In signing, new files are not."""
        if not is_signing:
            self.db.execute("""UPDATE files SET word = 'added', state = NULL WHERE name IN
                (SELECT name FROM good WHERE name NOT IN (SELECT name FROM manifest))""")
        self.db.execute("""UPDATE files SET word = 'changed', state = NULL WHERE name IN (SELECT good.name FROM good
            JOIN manifest USING (name) WHERE good.sha512 <> manifest.sha512 OR good.link IS NOT manifest.link)""")
        if is_whole:
            self.db.execute("""INSERT INTO files (name, word, why) SELECT manifest.name,
                iif(new.name IS NULL, 'removed', 'renamed'), new.name FROM manifest LEFT JOIN
                    (SELECT sha512, min(name) AS name FROM files
                    WHERE name NOT IN (SELECT name FROM manifest) GROUP BY sha512) AS new USING (sha512)
                WHERE manifest.name NOT IN (SELECT name FROM files)""")

    def entries(self, is_whole):
        """The query of the next manifest's entries: of a list, with those of the other files."""
        others = "UNION ALL SELECT * FROM manifest WHERE name NOT IN (SELECT name FROM files)"
        return f"SELECT * FROM (SELECT * FROM good {'' if is_whole else others})"

    def differences(self, is_whole):
        """Whether the next manifest has new entries, and whether it lacks some of the one before."""
        now, before = self.entries(is_whole), "SELECT * FROM manifest"
        return [bool(self.first(f"SELECT 1 FROM ({one} EXCEPT {other}) LIMIT 1"))
                for one, other in ((now, before), (before, now))]

    def seen(self):
        """The number and SHA-512 of the latest manifest that this report has seen."""
        return self.db.execute("SELECT number, sha512 FROM seen").fetchone() or (0, None)

    def see(self, number, sha512):
        self.db.execute("DELETE FROM seen")
        self.db.execute("INSERT INTO seen VALUES (?, ?)", (number, sha512))
        self.commit()


def now_of(root, name):
    """The state of a file and its signature, or None if there is none."""
    path = os.path.join(root, name)
    with contextlib.suppress(OSError, ValueError):
        return state_of(os.lstat(path), os.lstat(path + ".sig"))


# ---- manifests ----


class Bad(Exception):
    """The manifest is not to be relied on."""


def manifest_name(number):
    return f"slh-manifest-{number:08}.jsonl"


def hashed_lines(file, sha512):
    for line in file:
        sha512.update(line)
        yield line


def is_signed(task, at, name):
    """Whether a manifest is valid, and its SHA-512."""
    sha512 = hashlib.sha512()
    with opened(at, name) as (file, _):
        while piece := file.read(1 << 20):
            sha512.update(piece)
    signature, _ = read(at, name + ".sig", task.public.set.lengths.signature + 1)
    task.public.hash_verify_digest(HASH, digest=sha512.digest(), signature=signature, context=CONTEXT)
    return sha512.digest()


def entry_of(line):
    """A row of the table of the manifest."""
    it = json.loads(line)
    link = it.get("link")
    if link is None:
        return os.fsencode(it["path"]), None, it["length"], bytes.fromhex(it["sha512"])
    target = os.fsencode(link)
    return os.fsencode(it["path"]), json.dumps(link), len(target), hashlib.sha512(target).digest()


def load_manifest(task, report, number):
    """Verifies a manifest, and reads it into the report. Returns its SHA-512."""
    name = manifest_name(number)
    try:
        with folder_of(task.root, name) as (at, _):
            signed, again = is_signed(task, at, name), hashlib.sha512()
            with opened(at, name) as (file, _):
                lines = hashed_lines(file, again)
                head = json.loads(next(lines))
                report.db.executemany("INSERT INTO manifest VALUES (?, ?, ?, ?)", map(entry_of, lines))
    except slh.Invalid:
        raise Bad("its signature is not valid") from None
    except (OSError, ValueError, KeyError, StopIteration) as fault:
        raise Bad(str(fault)) from None
    if again.digest() != signed or head["number"] != number:
        raise Bad("it is not the one that was signed under this number")
    return signed


def manifest_files(folder):
    """The names and the numbers of all manifests of a folder, and of their signatures."""
    with os.scandir(folder) as entries:
        return {it.name: int(found[1]) for it in entries if (found := MANIFEST.fullmatch(it.name))}


def newest(root, is_whole):
    """The number of a folder's latest manifest, or 0; with `is_whole`, of those that are not without a signature."""
    there = manifest_files(root)
    return max((number for name, number in there.items() if not is_whole or {name, f"{name}.sig"} <= there.keys()),
               default=0)


def take_manifest(task, report, least):
    """The number and SHA-512 of the folder's manifest, once it is valid and not older than one before. There need be
    none to sign, and what a run left that was writing one is removed then."""
    number = newest(task.root, bool(task.secret))
    sha512 = load_manifest(task, report, number) if number else None
    seen, seen_sha512 = report.seen()
    if number < max(least, seen):
        raise Bad(f"number {max(least, seen)} or a later one is wanted")
    if number == seen and sha512 != seen_sha512:
        raise Bad(f"another manifest of number {number} was seen before")
    if not task.secret and not number:
        raise Bad("there is none")
    if task.secret:
        with folder_of(task.root, "") as (at, _):
            clear_manifests(at, number)
    return number, sha512


def head_line(task, number, before, comment, count):
    now = datetime.datetime.now(datetime.timezone.utc).isoformat(timespec="seconds")
    chain = {"number": number - 1, "sha512": before.hex()} if before else None
    return {"manifest": 1, "number": number, "before": chain, "set": task.public.set.label,
            "key": task.public.fingerprint, "time": now, "comment": comment, "files": count}


def entry_line(name, link, length, sha512):
    content = {"link": json.loads(link)} if link else {"length": length, "sha512": sha512.hex()}
    return {"path": os.fsdecode(name), **content}


def manifest_lines(task, report, number, before, words):
    query = report.entries(not words.list)
    count = report.first(f"SELECT count(*) FROM ({query})")
    yield head_line(task, number, before, words.comment, count)
    yield from (entry_line(*it) for it in report.db.execute(f"SELECT * FROM ({query}) ORDER BY name"))


def write_manifest(task, report, number, before, words):
    """Writes a manifest and its signature, has the disk keep both, and removes the ones before."""
    sha512, name = hashlib.sha512(), manifest_name(number)
    with folder_of(task.root, name) as (at, _):
        with new_part(at) as text, new_part(at) as signature:
            for it in manifest_lines(task, report, number, before, words):
                line = json.dumps(it).encode("ascii") + b"\n"
                sha512.update(line)
                text.write(line)
            with slh.SecretKey.load(task.secret) as secret:
                signature.write(secret.hash_sign_digest(HASH, sha512.digest(), CONTEXT, verify=True))
            keep(text, at, name, 0o644)
            keep(signature, at, name + ".sig", 0o644)
        os.fsync(at)
        report.see(number, sha512.digest())
        clear_manifests(at, number)


def clear_manifests(at, number):
    """Removes all manifests of a folder but one."""
    for name, its in manifest_files(at).items():
        if its != number:
            os.unlink(name, dir_fd=at)
    os.fsync(at)


# ---- a run ----


class Output:
    """Standard output or error. If it can't be written, a run goes on, and its status is 3 at the end."""

    is_lost = False

    def __init__(self, file):
        self.file, self.encoding = file, file.encoding if file else "utf-8"

    def write(self, text):
        data = text.encode(self.encoding, "backslashreplace")
        try:
            while data and self.file:  # it is None if the caller closed it
                data = data[os.write(self.file.fileno(), data):]
        except OSError:
            Output.is_lost = True

    def flush(self):
        """Nothing is held back: Python would try again to write it at its end."""

    def isatty(self):
        return bool(self.file) and self.file.isatty()


def end(status):
    sys.exit(3 if Output.is_lost and status < 2 else status)


def run(executor, at_a_time, task, batches, report, progress, stop):
    """Has batches judged, so many at a time, and notes each answer once, until all are done or `stop` is set. Batches
    that failed are told: their files are not in the report. If no more can be had judged, it stops."""
    running, batches, counts = set(), iter(batches), report.counts()
    while True:
        try:
            while not stop.is_set() and len(running) < at_a_time and (batch := next(batches, None)):
                running.add(executor.submit(judge_all, task, batch))
        except Exception as fault:
            progress.write(f"archive.py: it ends early: {str(fault)[:200]}", file=sys.stderr)
            stop.set()
        if stop.is_set():
            running = {it for it in running if not it.cancel()}
        if not running:
            return
        ended, running = concurrent.futures.wait(running, 0.2, concurrent.futures.FIRST_COMPLETED)
        for it in ended:
            note(it, report, progress, stop, counts)
        progress.set_postfix_str(said(counts), refresh=False)


def note(future, report, progress, stop, counts):
    """Writes the answer to a batch into the report. If that fails, the run stops."""
    try:
        rows = future.result()
    except Exception as fault:
        return progress.write(f"archive.py: a batch failed: {fault!r}", file=sys.stderr)
    try:
        report.add(rows)
    except sqlite3.Error as fault:
        stop.set()
        for line in lost_lines(report, fault):
            progress.write(line, file=sys.stderr)
    counts.update(it[1] for it in rows)
    progress.update(len(rows))


def lost_lines(report, fault):
    """Names each row that is not in the report, since it could not be written."""
    for name, word, *_ in report.forget():
        line = f"{word} {json.dumps(os.fsdecode(name))}"
        yield f"archive.py: the report can't be written ({fault}): {line} is not in it"


def said(counts):
    return ", ".join(f"{count} {word}" for word, count in sorted(counts.items())) or "none"


def progress_of(done, total):
    """A line on standard error with the rate and the time that is left: often if that is a terminal."""
    often = 0.2 if sys.stderr.isatty() else 10
    return tqdm.tqdm(total=total, initial=done, unit="file", mininterval=often, maxinterval=often)


def names_in(root, kept, clears):
    """The files of a folder and of those below it, links too, with those of which there is a signature alone. A folder
    that can't be read is named as a file is. The files of `kept`, at the top, are not named. Leftovers are removed, or
    named as any other file."""
    folders = [""]
    while folders:
        folder = folders.pop()
        try:
            entries = os.scandir(os.path.join(root, folder))
        except OSError:
            yield folder
            continue
        with entries:
            for it in entries:
                name = os.path.join(folder, it.name)
                if it.is_dir(follow_symlinks=False):
                    folders.append(name)
                elif clears and LEFTOVER.fullmatch(it.name):
                    with folder_of(root, name) as (at, last):
                        os.unlink(last, dir_fd=at)
                elif name not in kept:
                    yield name.removesuffix(".sig")


def clear_leftovers(root):
    """Removes what runs, and workers that were lost, left of signatures that they did not finish."""
    collections.deque(names_in(root, (), True), maxlen=0)


def names_of_list(path, root):
    """The files that a list has, each of which has to be in the folder, by their names there."""
    with open(path, "rb") as lines:
        for it in filter(None, (os.fsdecode(line.removesuffix(b"\n")) for line in lines)):
            name = os.path.relpath(os.path.join(root, it), root)
            if name == "." or name.split("/")[0] == "..":
                raise ValueError(f"{path}: {it} is not in the folder")
            yield name


def stopped_by_signals():
    """An event that Ctrl-C and SIGTERM set. A second one ends the program at once."""
    stop = threading.Event()

    def handle(number, _):
        stop.set()
        signal.signal(number, signal.SIG_DFL)

    for number in signal.SIGINT, signal.SIGTERM:
        signal.signal(number, handle)
    return stop


def open_executor(words):
    """What runs the batches, and how many it is given at a time."""
    if not words.cluster:
        return concurrent.futures.ThreadPoolExecutor(words.threads), 2 * words.threads
    import distributed

    client = distributed.Client(words.cluster)
    return client.get_executor(pure=False), max(8, 2 * sum(client.nthreads().values()))


def checked_task(words):
    """What the arguments ask for. A secret key whose root is not that of its seeds is refused."""
    root = os.path.realpath(words.folder)
    if not os.path.isdir(root):
        raise ValueError(f"{words.folder} is no folder")
    if os.path.commonpath([root, os.path.realpath(words.report)]) == root:
        raise ValueError(f"{words.report} is in the folder: have the report elsewhere")
    try:
        if words.command == "verify":
            return Task(slh.PublicKey.load(words.key), None, root)
        with slh.SecretKey.load(words.key) as secret:
            secret.check()
            return Task(secret.public(), os.path.abspath(words.key), root)
    except slh.Invalid:
        raise ValueError(f"{words.key} has a key whose root is not that of its seeds") from None
    except slh.Refusal as fault:
        raise ValueError(f"{words.key}: {fault}") from None


def lock(root):
    """Has no other run sign in the folder until this program ends, on file systems that lock folders."""
    at = os.open(root, FOLDER)
    try:
        fcntl.flock(at, fcntl.LOCK_EX | fcntl.LOCK_NB)
    except BlockingIOError:
        raise ValueError(f"another run signs in {root}") from None
    except OSError:
        os.close(at)


@dataclasses.dataclass
class Before:
    """The manifest at the start of a run, or why it is not to be relied on."""

    number: int = 0
    sha512: bytes = None
    bad: str = None


def manifest_before(task, report, words):
    if words.no_manifest:
        return Before()
    try:
        return Before(*take_manifest(task, report, words.least))
    except Bad as fault:
        return Before(bad=str(fault))


def find_files(task, report, words):
    """Notes the files that this run is about. If it signs, what earlier runs left is removed."""
    latest = None if words.no_manifest else manifest_name(newest(task.root, False))
    names = names_in(task.root, {latest, f"{latest}.sig"}, bool(task.secret))
    if words.list:
        if task.secret:
            clear_leftovers(task.root)
        names = names_of_list(words.list, task.root)
    report.find(task.root, names, words.all)


def open_report(words, task):
    label, key = task.public.set.label, task.public.to_bytes().hex()
    return Report(words.report, f"{words.command} {label} {key} {json.dumps(task.root)}")


def finish(words, task, report, before):
    """Compares with the manifest, and writes the next one. Returns its number."""
    is_signing, is_whole = bool(task.secret), not words.list
    if before.bad:
        name = manifest_name(newest(task.root, False))
        report.add([row(name, "invalid", f"the manifest can't be relied on: {before.bad}")])
        return 0
    has_new, lacks = report.differences(is_whole) if is_signing else (False, False)
    if before.number and not (is_signing and words.accept):
        report.compare(is_whole, is_signing)
    if not is_signing:
        report.see(before.number, before.sha512)
    if is_signing and (has_new or lacks or not before.number) and (words.accept or not lacks):
        write_manifest(task, report, before.number + 1, before.sha512, words)
        return before.number + 1
    return before.number


def batches_of(files, size):
    while batch := list(itertools.islice(files, size)):
        yield batch


def work(words, task, report, before, stop):
    """Does all that is left. Returns the count of the files that are not done, and the number of the manifest."""
    total, left = (report.first(f"SELECT count(*) FROM {it}") for it in ("found", LEFT))
    executor, at_a_time = open_executor(words)
    batches = batches_of(report.left(words.accept), FILES[words.command])
    with progress_of(total - left, total) as progress:
        run(executor, at_a_time, task, batches, report, progress, stop)
    report.commit()
    lacking = report.first(f"SELECT count(*) FROM {LEFT}")
    if words.cluster and task.secret and not lacking:
        clear_leftovers(task.root)
    number = 0 if lacking or words.no_manifest else finish(words, task, report, before)
    report.commit()
    tell(report, total - left, lacking, number)
    return lacking


def tell(report, kept, lacking, number):
    """Prints a line for each file that is not right, and one of counts."""
    for word, name, why in report.wrong():
        name, why = (json.dumps(os.fsdecode(it)) if isinstance(it, bytes) else it for it in (name, why))
        print(word, name, why or "")
    counts, manifest = report.counts(), f"manifest {number}" if number else "no manifest"
    print(f"{sum(counts.values())} files: {said(counts)}; {kept} not read again; {lacking} not done; {manifest}")


def read_words():
    parser = argparse.ArgumentParser(description=__doc__, formatter_class=argparse.RawDescriptionHelpFormatter)
    parser.add_argument("command", choices=FILES)
    for name in "--key", "--report", "--folder":
        parser.add_argument(name, required=True)
    where = parser.add_mutually_exclusive_group()
    where.add_argument("--threads", type=int, default=len(os.sched_getaffinity(0)))
    where.add_argument("--cluster")
    for name in "--list", "--comment":
        parser.add_argument(name)
    parser.add_argument("--least", type=int, default=0)
    for name in "--all", "--accept", "--no-manifest":
        parser.add_argument(name, action="store_true")
    return parser.parse_args()


def main():
    words, stop = read_words(), stopped_by_signals()
    sys.stdout, sys.stderr = Output(sys.stdout), Output(sys.stderr)
    try:
        task = checked_task(words)
        if task.secret:
            lock(task.root)
        report = open_report(words, task)
    except (OSError, ValueError, RuntimeError) as fault:
        print(f"archive.py: {fault}", file=sys.stderr)
        sys.exit(2)
    try:
        before = manifest_before(task, report, words)
        if before.bad and task.secret:
            print(f"archive.py: nothing is signed: the manifest can't be relied on: {before.bad}", file=sys.stderr)
            end(1)
        find_files(task, report, words)
        lacking = work(words, task, report, before, stop)
    except (ValueError, ImportError) as fault:
        print(f"archive.py: {fault}", file=sys.stderr)
        sys.exit(2)
    except (OSError, slh.Fault, sqlite3.Error) as fault:
        print(f"archive.py: it is not done: {fault}", *lost_lines(report, fault), sep="\n", file=sys.stderr)
        sys.exit(3)
    end(3 if lacking else int(any(True for _ in report.wrong())))


if __name__ == "__main__":
    main()
