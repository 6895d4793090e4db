"""Runs examples/archive.py many times, each time in a process that is forked here. tests/test_archive_ends.py starts
this once for each processor, since loading the modules takes most of the time of a short run.

usage: archive_forks.py ARCHIVE

It runs under LD_PRELOAD with the library of tests/archive_places.c. Each line of standard input is a JSON object:
`words` of the command, `settings` of the environment, and `out`, a file that gets what is printed. For each one it
prints a line with the status. A run of 10 minutes ends by SIGALRM.
"""
import ctypes
import importlib.util
import json
import os
import signal
import sys

SECONDS = 600


def load(path):
    spec = importlib.util.spec_from_file_location("archive", path)
    module = importlib.util.module_from_spec(spec)
    sys.modules["archive"] = module  # dataclasses look for it
    spec.loader.exec_module(module)
    return module


def become(module, run):
    """What the new process does. It ends as the program would, with all that Python does at its end."""
    signal.alarm(SECONDS)
    out = os.open(run["out"], os.O_WRONLY | os.O_CREAT | os.O_TRUNC, 0o600)
    for number, file in (0, os.open(os.devnull, os.O_RDONLY)), (1, out), (2, out):
        os.dup2(file, number)
    os.environ.update(run["settings"])
    sys.argv = [module.__file__, *run["words"]]
    ctypes.c_uint.in_dll(ctypes.CDLL(None), "slh_places").value = 0
    module.main()


def main():
    module = load(sys.argv[1])
    for line in iter(sys.stdin.readline, ""):
        run = json.loads(line)
        child = os.fork()
        if child == 0:
            return become(module, run)
        print(os.waitstatus_to_exitcode(os.waitpid(child, 0)[1]), flush=True)


main()
