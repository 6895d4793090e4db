"""Signs each file that standard input names, one a line, by one process a processor, and counts for Prometheus.

usage: sign_queue.py KEY PORT [PROCESSES] < QUEUE

It needs prometheus_client and the package slh, which bindings/README.md says how to install. KEY is a secret key file
of the program `slh`. The signature of FILE goes into a new file FILE.sig, once it was computed two times and verified.
A scraper reads the counters from http://127.0.0.1:PORT/metrics:

  slh_signatures_total        files that were signed
  slh_failures_total          files that could not be read, signed or written: standard error says why
  slh_signing_seconds_total   seconds in reading, signing, verifying and writing, of all processes

QUEUE may be a pipe that never ends. At its end the program ends, with status 1 if something failed. A process that is
lost ends it, too: then each file that was taken from the queue and not signed is named as a failure. SIGTERM and Ctrl-C
end it once the files that were taken are signed. The others stay in the queue: no name is read before it is needed.
"""
import concurrent.futures
import multiprocessing
import os
import select
import signal
import stat
import sys
import threading
import time

import prometheus_client
import slh

signatures = prometheus_client.Counter("slh_signatures", "Files that were signed.")
failures = prometheus_client.Counter("slh_failures", "Files that could not be read, signed or written.")
seconds = prometheus_client.Counter("slh_signing_seconds", "Seconds in signing, of all processes.")
# A process holds this while it signs a file.
busy = threading.Lock()


def begin(path):
    """What each process does first: it has its own copy of the key. A signal to all processes of this program is for
    the first one."""
    global secret
    for number in signal.SIGTERM, signal.SIGINT:
        signal.signal(number, signal.SIG_IGN)
    secret = slh.SecretKey.load(path)
    threading.Thread(target=end_with_the_first, daemon=True).start()


def end_with_the_first():
    """Ends this process once the first one was ended by force, and no signature is being written."""
    multiprocessing.parent_process().join()
    with busy:
        os._exit(1)


def told_to_end():
    """A file that can be read once SIGTERM or Ctrl-C came."""
    told, telling = os.pipe2(os.O_NONBLOCK | os.O_CLOEXEC)
    signal.set_wakeup_fd(telling, warn_on_full_buffer=False)
    for number in signal.SIGTERM, signal.SIGINT:
        signal.signal(number, lambda *_: None)
    return told


def can_be_read(*files):
    """Those of these files that can be read, once there is one."""
    return select.select(files, [], [])[0]


def names(told):
    """The lines of standard input, until it ends or the program is told to end. Bytes are read one by one, so that the
    names behind a line stay in the queue. A name that has begun is read on while its bytes are there."""
    line = bytearray()
    while told not in (ready := can_be_read(0, told)) or (line and 0 in ready):
        byte = os.read(0, 1)
        if byte == b"\n" or (line and not byte):
            yield os.fsdecode(bytes(line))
            line.clear()
        if not byte:
            return
        line += byte.strip(b"\n")
    if line:
        fail(os.fsdecode(bytes(line)), "a part of a name is not taken")


def opened(path, flags):
    """Opens a file to be signed. A pipe is refused, and not waited for."""
    number = os.open(path, flags | os.O_NONBLOCK)
    if not stat.S_ISREG(os.fstat(number).st_mode):
        os.close(number)
        raise OSError(f"{path} is no file")
    return number


def sync_folder_of(path):
    """Has the disk keep the names of a file's folder."""
    folder = os.open(os.path.dirname(path) or ".", os.O_RDONLY | os.O_DIRECTORY)
    try:
        os.fsync(folder)
    finally:
        os.close(folder)


def write_new(path, data):
    """Writes a new file, and has the disk keep it and its name. If that fails there is none."""
    file = open(path, "xb")
    try:
        with file:
            file.write(data)
            file.flush()
            os.fsync(file.fileno())
        sync_folder_of(path)
    except OSError:
        os.unlink(path)
        raise


def sign(path):
    """Signs a file. Returns the seconds that it took."""
    began = time.monotonic()
    with busy:
        with open(path, "rb", opener=opened) as file:
            signature = secret.sign(file.read(), verify=True)
        write_new(path + ".sig", signature)
    return time.monotonic() - began


def fail(path, why):
    print(f"{path}: {why}", file=sys.stderr)
    failures.inc()


def count(path, future):
    try:
        seconds.inc(future.result())
        signatures.inc()
    except Exception as fault:
        fail(path, fault)


def sign_all(executor, paths, most):
    """Has files signed, with no more than so many in work, so that a long queue takes no memory."""
    room = threading.Semaphore(most)

    def done(path):
        return lambda future: (count(path, future), room.release())

    for path in paths:
        room.acquire()
        try:
            future = executor.submit(sign, path)
        except concurrent.futures.BrokenExecutor as fault:
            future = concurrent.futures.Future()
            future.set_exception(fault)
            count(path, future)
            raise
        future.add_done_callback(done(path))


def main():
    if len(sys.argv) not in (3, 4):
        print("usage: sign_queue.py KEY PORT [PROCESSES] < QUEUE", file=sys.stderr)
        sys.exit(2)
    processes = int(sys.argv[3]) if len(sys.argv) == 4 else len(os.sched_getaffinity(0))
    spawn = multiprocessing.get_context("spawn")
    try:
        with slh.SecretKey.load(sys.argv[1]) as given:
            given.check()
        told = told_to_end()
        prometheus_client.start_http_server(int(sys.argv[2]), addr="127.0.0.1")
    except (OSError, ValueError, slh.Invalid) as fault:
        print(f"sign_queue.py: {fault}", file=sys.stderr)
        sys.exit(2)
    is_whole = True
    with concurrent.futures.ProcessPoolExecutor(processes, spawn, begin, sys.argv[1:2]) as executor:
        try:
            sign_all(executor, names(told), 2 * processes)
        except concurrent.futures.BrokenExecutor as fault:
            print(f"sign_queue.py: it ends early: {fault}", file=sys.stderr)
            is_whole = False
    if select.select([told], [], [], 0)[0]:
        print("sign_queue.py: it was stopped: the names that it took from the queue are done", file=sys.stderr)
    signed, failed = (int(it.collect()[0].samples[0].value) for it in (signatures, failures))
    print(f"{signed} signed, {failed} failed")
    sys.exit(0 if is_whole and not failed else 1)


if __name__ == "__main__":
    main()
