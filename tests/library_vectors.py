#!/usr/bin/env python3
"""Holds the library for C, as a shared object, against signatures that other implementations made.

usage: tests/library_vectors.py [--part K/N] [--verify-only] LIBRARY [VECTORS]
       tests/library_vectors.py [--part K/N] [--few | --verify-only] --through COMMAND [VECTORS]

LIBRARY is libslh.so as tools/library.sh installs it, VECTORS a folder of vector files (default: vectors). With
--verify-only LIBRARY has the calls of slh_verify.h alone, and what needs another call is passed over. With --part only
each N-th test is run, from the K-th on.

With --through the calls are made by a program, as `qemu-aarch64 calls`: tests/target_calls.c says what it reads and
writes. It must also leave its inputs as they are. Since such a program is slow, of a sign test under a set whose name
ends in s the first call alone is made, and no jobs, and faults are left out. With --few it runs all verify tests, of
keygen the first of each set, of sign the first of the pure, of the internal and of the pre-hash forms under each set
whose name ends in f, by jobs the pure one alone, and the first rows of more.tsv that are soon done.

Of each test the calls must do what the file states:

- keygen: slh_keygen of the seeds writes the secret key, slh_public the public key, and slh_check is done;
- sign: the call of the test's form writes exactly its signature; under a context of over 255 bytes it is refused, and
  the output is as it was. With a pre-hash function both the call with the message and the one with its digest. In the
  pure and the pre-hash forms also the calls for jobs, the last job first, under two cuttings; the start and each answer
  have the tag that Python's hmac gives;
- verify: the call of the test's form is done where `valid` is true, and else invalid. With a pre-hash function both. In
  the pure form, and by the digest, the hardened call has the same verdict; through a program under the s sets alone. In
  the pure form slh_verify_front writes the bytes that FIPS 205 hashes before the message, and slh_verify_hashed has the
  same verdict by Python's hash of these and the message. slh_verify_many has it on each of eight such items (through a
  program, under the f sets, of one), and on one before another message;
- a row of more.tsv: the key has the row's PK.root. The signature, where there is one, has the row's SHA-256. It is
  valid, and with the row's bit flipped invalid.

Of one sign test of each set whose name ends in f, each answer in turn has a wrong node with its tag, as a fault inside
a job would write it. Where the node is one above the leaf that signs, or of the top tree, it is not joined; elsewhere
the signature is another one, and valid. A start, and answers, with the tags of another encoding are refused.

Four tests at a time are run, each in a thread, but a LIBRARY with --verify-only has one memory, and so one thread. A
part has one, too, since each emulator that is begun translates the library anew. The last line has the counts, and the
status is 0 where no test failed and each program ended well.
"""
import concurrent.futures
import ctypes
import hashlib
import hmac
import json
import pathlib
import shlex
import struct
import subprocess
import sys
import threading

# What the hardened calls return, by whether the signature is valid.
HARDENED = {True: 0x79D617A4, False: 0x7C91D87F}
DONE, INVALID, CONTEXT_TOO_LONG, ANSWERS_DISAGREE, BAD_START = 0, 30, 2, 25, 28
# The number of the encoding of starts and answers.
ENCODING = 2

# The last byte of the key of the tags.
KEY_END = b"\x01"
SETS = [f"SLH-DSA-SHA2-{it}" for it in ("128s", "128f", "192s", "192f", "256s", "256f")]
FUNCTIONS = ["SHA2-224", "SHA2-256", "SHA2-384", "SHA2-512", "SHA2-512/224", "SHA2-512/256"]
# n, lg_w, h', d, a and k of each set (FIPS 205, Table 2)
RECORDS = [(16, 4, 9, 7, 12, 14), (16, 4, 3, 22, 6, 33), (24, 4, 9, 7, 14, 17)]
RECORDS += [(24, 4, 3, 22, 8, 33), (32, 4, 8, 8, 14, 22), (32, 4, 4, 17, 9, 35)]
# How many rows of keygen of each set whose name ends in f, and of sign of 128f, are soon done.
SOON = 4, 1


class Through:
    """The library behind a program that is told a call a line, and says what it returned and left in the arguments."""

    def __init__(self, command):
        self.command, self.local, self.programs = shlex.split(command), threading.local(), []

    def __getattr__(self, name):
        return lambda *arguments: self.call(name, list(arguments))

    def ask(self, line):
        if not hasattr(self.local, "program"):
            pipes = dict(stdin=subprocess.PIPE, stdout=subprocess.PIPE, text=True)
            self.local.program = subprocess.Popen(self.command, **pipes)
            self.programs.append(self.local.program)
        program = self.local.program
        program.stdin.write(line + "\n")
        program.stdin.flush()
        return program.stdout.readline().split() or sys.exit(f"{self.command[-1]} ended at {line[:60]}")

    def end(self):
        """Ends the programs, and so has the processor time that they took counted. Whether each ended well."""
        for it in self.programs:
            it.stdin.close()
        return not any([it.wait() for it in self.programs])

    def call(self, name, arguments):
        words, memory = [name], []
        while arguments:
            it = arguments.pop(0)
            if hasattr(it, "_obj"):
                words.append("p" + bytes(it._obj).hex())
                memory.append(it._obj)
            elif isinstance(it, (bytes, ctypes.Array)):
                words.append("b" + bytes(it).hex()[: 2 * arguments.pop(0).value])
                memory.append(it)
            else:
                words.append(f"n{getattr(it, 'value', it)}")
        result, *left = self.ask(" ".join(words))
        for it, found in zip(memory, left, strict=True):
            if not isinstance(it, bytes):
                ctypes.memmove(ctypes.byref(it), bytes.fromhex(found[1:]), ctypes.sizeof(it))
            elif it.hex() != found[1:]:
                sys.exit(f"{name} changed an input")
        return int(result)


here = pathlib.Path(__file__).resolve().parent.parent
# What the words of the command say. A program that imports this file sets the library.
few = verify_only = is_through = False
# Whether of a sign test under a set whose name ends in s the first call alone is made. A program that imports this file
# may set it.
is_brief = False
# Which tests are run: from the first of these numbers on, in steps of the other.
part = 1, 1
library, vectors = None, here / "tests/vectors"


def loaded(path):
    """The library of a shared object."""
    return ctypes.CDLL(str(pathlib.Path(path).resolve()))


def take(words):
    """Takes the words of the command."""
    global part, few, verify_only, is_through, is_brief, library, vectors
    if words[:1] == ["--part"]:
        part, words = tuple(map(int, words[1].split("/"))), words[2:]
    few, verify_only = ("--few" in words[:1]), ("--verify-only" in words[:1])
    is_through = is_brief = words[few or verify_only] == "--through"
    library, vectors = (words[(few or verify_only) + is_through :] + [vectors])[:2]
    library = Through(library) if is_through else loaded(library)
    vectors = pathlib.Path(vectors)


def call(name, *arguments):
    """Calls with each number as it is, and bytes as a pointer and a length."""
    words = []
    for it in arguments:
        words += [ctypes.c_uint32(it)] if isinstance(it, int) else [it, ctypes.c_size_t(len(it))]
    function = getattr(library, name)
    function.restype = ctypes.c_uint32
    return function(*words)


class Signed(ctypes.Structure):
    """An item of slh_verify_many."""

    _fields_ = [it for name in ("pk", "msg", "ctx", "sig")
                for it in ((name, ctypes.c_char_p), (f"{name}_len", ctypes.c_uint64))]


def verify_many(number, items):
    """What slh_verify_many returns for items of four bytes-like parts, and its verdicts."""
    verdicts = painted(4 * len(items))
    if is_through:
        return call("slh_verify_many", number, *sum(items, ()), verdicts), struct.unpack(f"<{len(items)}I", verdicts)
    given = (Signed * len(items))(*[sum(((it, len(it)) for it in item), ()) for item in items])
    count = ctypes.c_size_t(len(items))
    library.slh_verify_many.restype = ctypes.c_uint32
    result = library.slh_verify_many(ctypes.c_uint32(number), given, count, verdicts, count)
    return result, struct.unpack(f"={len(items)}I", verdicts)


def lengths(number):
    found = [ctypes.c_size_t() for _ in range(4)]
    if library.slh_lengths(ctypes.c_uint32(number), *map(ctypes.byref, found)) != DONE:
        sys.exit(f"slh_lengths refuses the set {number}")
    return [it.value for it in found]


def painted(count):
    return ctypes.create_string_buffer(b"\xa5" * count, count)


def digest(function, message):
    return hashlib.new(function.replace("SHA2-", "sha").replace("512/", "512_"), message).digest()


def calls(test, verb, key, *rest):
    """The calls that a test's form names, each with its arguments. `rest` follows the context."""
    number, form, message = SETS.index(test["set"]) + 1, test["form"], bytes.fromhex(test["message"])
    if form == "internal":
        return [(f"slh_{verb}_internal", number, key, message, *rest)]
    context = bytes.fromhex(test["context"])
    if form == "pure":
        return [(f"slh_{verb}", number, key, message, context, *rest)]
    function = FUNCTIONS.index(form) + 1
    return [
        (f"slh_hash_{verb}", number, function, key, message, context, *rest),
        (f"slh_hash_{verb}_digest", number, function, key, digest(form, message), context, *rest),
    ]


def keygen_passes(test):
    number = SETS.index(test["set"]) + 1
    pk_len, sk_len, _, _ = lengths(number)
    secret, public = painted(sk_len), painted(pk_len)
    made = call("slh_keygen", number, *(bytes.fromhex(test[it]) for it in ("skSeed", "skPrf", "pkSeed")), secret)
    written = call("slh_public", number, secret, public)
    checked = call("slh_check", number, secret)
    return (made, written, checked) == (DONE,) * 3 and (secret.raw.hex(), public.raw.hex()) == (test["sk"], test["pk"])


def tag(sk, kind, record, *parts, encoding=ENCODING):
    """The tag of a start (1: PK.root, R and the digest) or of an answer (2: the start, levels, job and node)."""
    n, function = len(sk) // 4, "sha256" if len(sk) == 64 else "sha512"
    sk_seed, sk_prf, pk_seed = sk[:n], sk[n : 2 * n], sk[2 * n : 3 * n]
    key, message = sk_prf + sk_seed + pk_seed + KEY_END, bytes([kind, encoding, *record]) + b"".join(parts)
    return hmac.digest(key, message, function)[:n]


class Jobs:
    """A signature as jobs: the start, and how to write answers and join them."""

    def __init__(self, test, xmss, fors):
        self.number, self.sk = SETS.index(test["set"]) + 1, bytes.fromhex(test["sk"])
        self.cut, self.record = (self.number, xmss, fors), RECORDS[self.number - 1]
        jobs, lens = ctypes.c_uint32(), [ctypes.c_size_t() for _ in range(2)]
        asked = library.slh_sign_jobs(*self.cut, ctypes.byref(jobs), *map(ctypes.byref, lens))
        if asked != DONE:
            sys.exit(f"slh_sign_jobs returns {asked}")
        self.jobs, self.start, self.answers = jobs.value, painted(lens[0].value), painted(lens[1].value)
        given = [self.sk, *(bytes.fromhex(test[it]) for it in ("message", "context", "random"))]
        if test["form"] == "pure":
            self.begun = call("slh_sign_start", self.number, *given, self.start)
        else:
            self.begun = call("slh_hash_sign_start", self.number, FUNCTIONS.index(test["form"]) + 1, *given, self.start)

    def answer_all(self):
        """Writes the answers, the last one first. Whether each is done, and has its tag, as the start has."""
        n, start = self.record[0], self.start.raw
        well = start[-n:] == self.start_tag()
        for job in reversed(range(self.jobs)):
            at, length = self.place(job)
            answer = painted(length)
            well &= call("slh_sign_job", *self.cut, self.sk, start, job, answer) == DONE
            well &= answer.raw[n : 2 * n] == self.tag(job, answer.raw[:n])
            self.put(at, answer.raw)
        return well

    def place(self, job):
        at, length = ctypes.c_size_t(), ctypes.c_size_t()
        if library.slh_answer_place(*self.cut, job, ctypes.byref(at), ctypes.byref(length)) != DONE:
            sys.exit(f"slh_answer_place refuses the job {job}")
        return at.value, length.value

    def put(self, at, some):
        ctypes.memmove(ctypes.byref(self.answers, at), some, len(some))

    def start_tag(self, encoding=ENCODING):
        n = self.record[0]
        return tag(self.sk, 1, self.record, self.sk[-n:], self.start.raw[:-n], encoding=encoding)

    def tag(self, job, node, encoding=ENCODING):
        parts = self.start.raw, bytes(self.cut[1:]), job.to_bytes(4, "big"), node
        return tag(self.sk, 2, self.record, *parts, encoding=encoding)

    def join(self):
        out = painted(lengths(self.number)[2])
        return call("slh_sign_join", *self.cut, self.sk, self.start.raw, self.answers, out), out.raw


def jobs_pass(test, xmss, fors, wanted):
    """Whether the signature of jobs is the wanted one, or beginning it is refused where there is none."""
    jobs = Jobs(test, xmss, fors)
    if wanted is None:
        return (jobs.begun, jobs.start.raw) == (CONTEXT_TOO_LONG, painted(len(jobs.start)).raw)
    return jobs.begun == DONE and jobs.answer_all() and jobs.join() == (DONE, wanted)


def sign_passes(test):
    wanted = bytes.fromhex(test["signature"])
    is_refused, is_dear = len(test.get("context", "")) > 510, is_brief and test["set"].endswith("s")
    given = calls(test, "sign", bytes.fromhex(test["sk"]), bytes.fromhex(test["random"]))
    for name, *arguments in given[:1] if is_dear else given:
        out = painted(lengths(SETS.index(test["set"]) + 1)[2])
        before = out.raw
        result = call(name, *arguments, out)
        if (result, out.raw) != ((CONTEXT_TOO_LONG, before) if is_refused else (DONE, wanted)):
            return False
    if test["form"] == "internal" or is_dear or (few and test["form"] != "pure"):
        return True
    cuts = [(1, 1)] if few else [(1, 1), (3, 4)]
    return all(jobs_pass(test, *cut, None if is_refused else wanted) for cut in cuts)


def faults_pass(test):
    """Whether each answer with a wrong node, tagged, is refused or joined to another signature, which is valid."""
    jobs, wanted = Jobs(test, 1, 1), bytes.fromhex(test["signature"])
    n, layers = jobs.record[0], jobs.record[3]
    well = jobs.answer_all() and jobs.join() == (DONE, wanted)
    for job in range(jobs.jobs):
        at, length = jobs.place(job)
        own = jobs.answers.raw[at : at + length]
        node = bytes([own[0] ^ 1]) + own[1:n]
        jobs.put(at, node + jobs.tag(job, node))
        result, out = jobs.join()
        if any(own[2 * n :]) or job // 2 == layers - 1:
            well &= (result, out) == (ANSWERS_DISAGREE, painted(len(out)).raw)
        else:
            well &= result == DONE and out != wanted
            well &= all(call(*it) == DONE for it in calls(test, "verify", jobs.sk[2 * n :], out))
        jobs.put(at, own)
    return well and jobs.join() == (DONE, wanted) and other_encodings_are_refused(jobs)


def other_encodings_are_refused(jobs):
    """Whether jobs and join refuse a start with the tag of another encoding, and join an answer with such a tag."""
    n, start = jobs.record[0], jobs.start.raw
    well = True
    for encoding in (ENCODING - 1, ENCODING + 1):
        at, length = jobs.place(0)
        own, answer = jobs.answers.raw[at : at + 2 * n], painted(length)
        jobs.put(at + n, jobs.tag(0, own[:n], encoding))
        well &= jobs.join()[0] == ANSWERS_DISAGREE
        jobs.put(at, own)
        jobs.start.raw = start[:-n] + jobs.start_tag(encoding)
        well &= call("slh_sign_job", *jobs.cut, jobs.sk, jobs.start.raw, 0, answer) == BAD_START
        well &= jobs.join()[0] == BAD_START
        jobs.start.raw = start
    return well and jobs.join()[0] == DONE


def by_own_hash(test, key, signature):
    """The verdict on a signature of the pure form by Python's hash of the front and the message in pieces of 64 bytes,
    or what slh_verify_front returns if it writes nothing. None if the front is not the standard's."""
    number, n = SETS.index(test["set"]) + 1, len(key) // 2
    message, context = bytes.fromhex(test["message"]), bytes.fromhex(test["context"])
    front = painted(3 * n + 2 + len(context))
    begun, wanted = call("slh_verify_front", number, key, context, signature, front), painted(len(front)).raw
    if begun == DONE:
        wanted = signature[:n] + key + bytes([0, len(context)]) + context
    if front.raw != wanted:
        return None
    state = (hashlib.sha256 if n == 16 else hashlib.sha512)(front.raw)
    for at in range(0, len(message), 64):
        state.update(message[at : at + 64])
    return begun if begun != DONE else call("slh_verify_hashed", number, key, state.digest(), signature)


def by_many(test, key, signature, wanted):
    """Whether slh_verify_many has the verdict on each of several such items, and on one before another message."""
    number = SETS.index(test["set"]) + 1
    message, context = bytes.fromhex(test["message"]), bytes.fromhex(test["context"])
    item, count = (key, message, context, signature), 1 if is_through and test["set"].endswith("f") else 8
    other = key, message + b"x", context, signature
    well = verify_many(number, [item] * count) == (wanted, (wanted,) * count)
    return well and verify_many(number, [item, other]) == (INVALID, (wanted, INVALID))


def verify_passes(test):
    wanted = DONE if test["valid"] else INVALID
    signature = bytes.fromhex(test["signature"])
    made = calls(test, "verify", bytes.fromhex(test["pk"]), signature)
    well = all(call(*it) == wanted for it in made)
    name, *arguments = made[-1]
    if test["form"] == "pure" and not verify_only:
        well &= by_own_hash(test, bytes.fromhex(test["pk"]), signature) == wanted
        well &= by_many(test, bytes.fromhex(test["pk"]), signature, wanted)
    if test["form"] == "internal" or (is_through and not test["set"].endswith("s")):
        return well
    return well and call(f"{name}_hardened", *arguments) == HARDENED[test["valid"]]


def row_passes(test):
    """A row of more.tsv that signs."""
    out = painted(lengths(SETS.index(test["set"]) + 1)[2])
    sk, pk, random = (bytes.fromhex(test[it]) for it in ("sk", "pk", "random"))
    name, *arguments = calls(test, "sign", sk, random)[0]
    well = keygen_passes(test) and call(name, *arguments, out) == DONE
    well &= hashlib.sha256(out.raw).hexdigest() == test["sha256"]
    well &= all(call(*it) == DONE for it in calls(test, "verify", pk, out.raw))
    out[test["bit"] // 8] = out.raw[test["bit"] // 8] ^ 1 << test["bit"] % 8
    return well and all(call(*it) == INVALID for it in calls(test, "verify", pk, out.raw))


PASSES = {"keygen": keygen_passes, "sign": sign_passes, "faults": faults_pass, "verify": verify_passes}
PASSES["row"] = row_passes


def kind_of(test):
    """The kind, the set and the form of a test, where the forms of pre-hash functions count as one."""
    form = test.get("form")
    return test["kind"], test["set"], form if form in (None, "pure", "internal") else "pre-hash"


def chosen(tests):
    """The tests that are run through a slow program."""
    first = {}
    for it in tests:
        first.setdefault(kind_of(it[2]), it)
    firsts = list(first.values())
    for it in tests:
        kind, name, form = kind_of(it[2])
        is_first, is_slow = it in firsts, name.endswith("s")
        if kind == "verify" or (kind == "keygen" and (is_first or not few)):
            yield it
        elif kind == "sign" and (not few or (is_first and not is_slow)):
            yield it


def rows():
    """The rows of more.tsv as tests, where VECTORS has that file. With --few those that are soon done."""
    file, found = vectors / "more.tsv", []
    lines = file.read_text().splitlines() if file.is_file() or vectors == here / "tests/vectors" else []
    for number, line in enumerate((it for it in lines if not it.startswith("#")), 1):
        kind, name, seeds, root, *rest = line.split("\t")
        n = len(root) // 2
        test = dict(kind=kind, set=name, sk=seeds + root, pk=seeds[4 * n :] + root)
        test |= zip(("skSeed", "skPrf", "pkSeed"), (seeds[: 2 * n], seeds[2 * n : 4 * n], seeds[4 * n :]))
        if kind == "sign":
            form, message, context, random, sha256, bit = rest
            test |= dict(kind="row", form=form, message=message, context=context, random=random)
            test |= dict(sha256=sha256, bit=int(bit))
        found.append((file.name, number, test))
    return soon_done(found) if few else found


def soon_done(found):
    """Of the rows of each set whose name ends in f the first of keygen, and of 128f the first of sign, too."""
    chosen_rows = []
    for name in SETS[1::2]:
        for kind, count in zip(("keygen", "row"), SOON if name == SETS[1] else SOON[:1]):
            chosen_rows += [it for it in found if (it[2]["kind"], it[2]["set"]) == (kind, name)][:count]
    return chosen_rows


def all_tests():
    """The tests that the words ask for: the name of the file of each, its number there, and its row."""
    tests = []
    for path in sorted(set(vectors.glob("*.json")) - {vectors / "records.json"}):
        tests += [(path.name, number, test) for number, test in enumerate(json.loads(path.read_text()), 1)]
    tests = [*(chosen(tests) if is_through else tests), *rows()]
    for name in [] if is_through else SETS[1::2]:
        pure = [it for it in tests if (it[2]["kind"], it[2]["set"], it[2].get("form")) == ("sign", name, "pure")]
        tests += [(file, number, dict(test, kind="faults")) for file, number, test in pure[:1]]
    if verify_only:
        tests = [it for it in tests if it[2]["kind"] == "verify" and it[2]["form"] != "internal"]
    return tests[part[0] - 1 :: part[1]]


def passes(test):
    """Whether the library passes a test."""
    return PASSES[test["kind"]](test)


def main():
    take(sys.argv[1:])
    tests = all_tests()
    is_alone = part[1] > 1 or (verify_only and not is_through)
    with concurrent.futures.ThreadPoolExecutor(1 if is_alone else 4) as pool:
        passed = list(pool.map(lambda it: passes(it[2]), tests))
    for (name, number, test), well in zip(tests, passed):
        if not well:
            print(f"{name} test {number} {test['kind']} {test['set']}: fail")
    failed = passed.count(False) + (is_through and not library.end())
    print(f"{passed.count(True)} passed, {failed} failed")
    sys.exit(1 if failed or not passed else 0)


if __name__ == "__main__":
    main()
