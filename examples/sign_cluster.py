"""Makes one signature of the set 256s by its jobs over a cluster of dask.distributed, looks whether slh_sign makes the
same bytes, writes it into FILE.sig, and says how long each took: sign_cluster.py SCHEDULER KEY FILE

It needs the package slh, here and at each worker, which bindings/README.md says how to install.

THE ANSWERS OF THE JOBS ARE SECRET: who reads one can have the key. They lie in the memory of the workers and of the
scheduler, and go over the connections between them. So trust each of these as the machine that has the key, have the
connections encrypted (`distributed.security.Security`), and let no worker write to a disk what it holds. This program
erases its own buffers. What distributed holds of an answer, and sends, it does not erase: end its processes.

KEY has the 128 bytes of a secret key, and each worker reads it under the same path as this program. Both signatures are
of the deterministic variant, so that they can be compared. One that is given away is made without `deterministic`.

On one machine of 4 processors an earlier form of this program, over the library for one level, took 0.39 s by 4
workers where slh_sign alone took 0.68 to 1.25 (x86-64-v3: 0.20 for 0.22 to 0.31). The answers are 2.2 MB, which between
machines go over the network. That was not tried.
"""
import os
import pathlib
import sys
import time

import distributed
import slh.jobs

if len(sys.argv) != 4:
    print("usage: sign_cluster.py SCHEDULER KEY FILE", file=sys.stderr)
    sys.exit(2)
SCHEDULER, KEY, FILE = sys.argv[1], *map(os.path.abspath, sys.argv[2:])
SET = slh.Set.SLH_DSA_SHA2_256S
# Each XMSS tree is cut into 2^3 ranges, and each FORS tree is whole.
LEVELS = 3, 0


def clear(array):
    array[:] = bytes(len(array))


def read_key():
    """The secret key, which is to be erased."""
    data = bytearray(os.stat(KEY).st_size)
    try:
        with open(KEY, "rb", buffering=0) as file:
            file.readinto(data)
        return slh.SecretKey(SET, data)
    finally:
        clear(data)


def some_answers(numbers, start):
    """Does some jobs. This is what the workers run."""
    jobs = slh.jobs.Jobs(SET, *LEVELS)
    with read_key() as secret:
        return [(job, jobs.answer(secret, start, job)) for job in numbers]


def sign_by_jobs(client, secret, message):
    jobs = slh.jobs.Jobs(SET, *LEVELS)
    start = jobs.start(secret, message, deterministic=True)
    parts = 4 * sum(client.nthreads().values())
    shared = [range(first, jobs.count, parts) for first in range(parts)]
    done = client.gather(client.map(some_answers, shared, start=start, pure=False))
    answers = dict(answer for some in done for answer in some)
    try:
        return jobs.join(secret, start, (answers[job] for job in range(jobs.count)))
    finally:
        for it in answers.values():
            clear(it)


def sign_alone(secret, message):
    return secret.sign(message, deterministic=True)


def timed(sign, *arguments):
    began = time.monotonic()
    return sign(*arguments), time.monotonic() - began


if __name__ == "__main__":
    try:
        message, key = pathlib.Path(FILE).read_bytes(), read_key()
    except (OSError, slh.Refusal) as fault:
        print(fault, file=sys.stderr)
        sys.exit(2)
    with key as secret, distributed.Client(SCHEDULER) as client:
        by_jobs, seconds = timed(sign_by_jobs, client, secret, message)
        workers = len(client.nthreads())
        alone, seconds_alone = timed(sign_alone, secret, message)
        public = secret.public()
    public.verify(message=message, signature=by_jobs)
    if by_jobs != alone:
        sys.exit("the signatures differ")
    pathlib.Path(FILE + ".sig").write_bytes(by_jobs)
    print(f"the same signature: {seconds:.2f} s by {workers} workers, {seconds_alone:.2f} s by slh_sign")
