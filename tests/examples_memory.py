#!/usr/bin/env python3
"""Searches the memory of an example that signs a file for its secret key, after it has signed.

usage: tests/examples_memory.py LIBRARY FILE COMMAND... FILE

COMMAND runs an example of examples/, of the set 128f, over FILE. FILE.sig is made a pipe that nobody reads: so the
example waits where it writes the signature, and its memory is read. FILE.pub then tells the public key, which has to be
there in bytes or digits. No 64 bytes that end with it may be a secret key: LIBRARY, libslh.so, tells by slh_check. The
last line says what was found; the status is 0 where that is no key.
"""
import ctypes
import os
import pathlib
import re
import signal
import subprocess
import sys
import time

SET, PK, SK = 2, 32, 64
OPENAT = "257"  # the number of the call of Linux on x86-64 that opens a file


def is_waiting(process):
    """Whether the process waits for a file to be opened for writing, now and a while later."""
    said = set()
    for _ in range(3):
        call, *arguments = pathlib.Path(f"/proc/{process}/syscall").read_text().split()
        said.add(call == OPENAT and int(arguments[2], 16) & os.O_ACCMODE != os.O_RDONLY)
        time.sleep(0.05)
    return said == {True}


def memory(process):
    """The parts of a process's memory that it may write to, stacks too. The process is stopped meanwhile."""
    os.kill(process, signal.SIGSTOP)
    os.waitpid(process, os.WUNTRACED)
    parts = []
    with open(f"/proc/{process}/maps") as maps, open(f"/proc/{process}/mem", "rb", 0) as mem:
        for line in maps.read().splitlines():
            first, last, rights = re.match(r"(\w+)-(\w+) (\S+)", line).groups()
            if rights.startswith("rw"):
                mem.seek(int(first, 16))
                parts.append(mem.read(int(last, 16) - int(first, 16)))
    os.kill(process, signal.SIGCONT)
    return parts


def keys(library, parts, pk):
    """How often the public key stands in memory, and how often as the end of a secret key."""
    public, secret = sum(part.count(pk.hex().encode()) for part in parts), 0
    for part in parts:
        for found in re.finditer(re.escape(pk), part):
            public += 1
            key = part[max(found.start() - SK + PK, 0) : found.end()]
            secret += library.slh_check(SET, key, ctypes.c_size_t(len(key))) == 0
    return public, secret


def main():
    library, path, *command = sys.argv[1:]
    sig, pub = pathlib.Path(path + ".sig"), pathlib.Path(path + ".pub")
    sig.unlink(missing_ok=True)
    os.mkfifo(sig)
    with subprocess.Popen(command, stdout=subprocess.PIPE, text=True) as child:
        end = time.monotonic() + 600
        while not is_waiting(child.pid):
            if child.poll() is not None or time.monotonic() > end:
                child.kill()
                sys.exit("it does not wait for its signature to be read")
        parts = memory(child.pid)
        data = sig.read_bytes()
        said = child.stdout.read()
    sig.unlink()
    if said != "valid\n" or len(data) != 17088:
        sys.exit(f"it said {said!r}")
    public, secret = keys(ctypes.CDLL(library), parts, bytes.fromhex(pub.read_text().split()[-1]))
    print(f"the public key is in memory {public} times, and {secret} times it is the end of the secret key")
    sys.exit(public == 0 or secret != 0)


main()
