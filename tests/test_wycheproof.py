"""Reads the files that tests/vectors/wycheproof.py writes: they have the form of Wycheproof, and the packages for Python
and Go find each result as it is there."""
import json
import os
import re
import shutil
import sys

import pytest

from packages import GO_MODULE
from support import HERE, VECTORS, need, run, succeed

SCRIPT = VECTORS / "wycheproof.py"
IN_PYTHON = """import json, sys, slh
count = 0
for path in sys.argv[1:]:
    read = json.load(open(path))
    for group in read["testGroups"]:
        public = slh.PublicKey(read["algorithm"], bytes.fromhex(group["publicKey"]))
        for it in group["tests"]:
            count += 1
            message, context, signature = (bytes.fromhex(it[name]) for name in ("msg", "ctx", "sig"))
            try:
                public.verify(message=message, context=context, signature=signature)
                result = "valid"
            except slh.Invalid:
                result = "invalid"
            if result != it["result"]:
                print(read["algorithm"], it["tcId"])
print(count)"""

# ---- the form

DIGITS = re.compile("([0-9a-f]{2})*")
FLAG = re.compile("[A-Z][A-Za-z]+")
# The form of each member: a type, a pattern of the whole text, a list of one form, or an object; "*" is any name.
TEST = {"tcId": int, "comment": str, "msg": DIGITS, "ctx": DIGITS, "sig": DIGITS, "result": re.compile("valid|invalid"),
        "flags": [FLAG]}
GROUP = {"type": re.compile("SlhDsaVerify"), "source": {"name": str, "version": re.compile(r"\d+\.\d+\.\d+")},
         "publicKey": DIGITS, "tests": [TEST]}
BUGS = re.compile("BASIC|MODIFIED_PARAMETER|MODIFIED_SIGNATURE")
FILE = {"algorithm": re.compile("SLH-DSA-SHA2-(128|192|256)[sf]"), "schema": re.compile("slhdsa_verify_schema.json"),
        "numberOfTests": int, "header": [str], "notes": {"*": {"bugType": BUGS, "description": str}},
        "testGroups": [GROUP]}


def is_of(schema, value):
    """Whether a value has exactly this form."""
    if isinstance(schema, dict):
        names = value.keys() if "*" in schema else schema.keys()
        return (isinstance(value, dict) and names == value.keys()
                and all(is_of(schema.get(it, schema.get("*")), value[it]) for it in names))
    if isinstance(schema, list):
        return isinstance(value, list) and len(value) > 0 and all(is_of(schema[0], it) for it in value)
    if isinstance(schema, re.Pattern):
        return isinstance(value, str) and schema.fullmatch(value) is not None
    return type(value) is schema


def all_of(read):
    return [it for group in read["testGroups"] for it in group["tests"]]


@pytest.fixture(scope="module")
def files(tmp_path_factory):
    folder = tmp_path_factory.mktemp("wycheproof") / "made"
    succeed(SCRIPT, folder)
    return sorted(folder.iterdir())


def test_each_set_has_a_file(files):
    labels = [json.loads(it.read_text())["algorithm"] for it in files]
    assert sorted(labels) == sorted(f"SLH-DSA-SHA2-{n}{speed}" for n in (128, 192, 256) for speed in "sf")


def test_files_have_the_form(files):
    for path in files:
        read = json.loads(path.read_text())
        assert is_of(FILE, read), path
        numbers = [it["tcId"] for it in all_of(read)]
        assert numbers == list(range(1, read["numberOfTests"] + 1)) and len(numbers) > 10
        assert {flag for it in all_of(read) for flag in it["flags"]} <= read["notes"].keys()
        assert {it["result"] for it in all_of(read)} == {"valid", "invalid"}


@pytest.mark.parametrize("change", [
    {"result": "maybe"}, {"msg": "0"}, {"sig": "AA"}, {"flags": []}, {"tcId": "1"}, {"more": 1}])
def test_another_form_is_found(files, change):
    read = json.loads(files[0].read_text())
    all_of(read)[-1].update(change)
    assert not is_of(FILE, read)


def test_verdicts_are_those_of_the_vectors(files):
    """Each verification of the pure form is there with its verdict, and each pure signature as a valid one."""
    for path in files:
        read = json.loads(path.read_text())
        pure = [it for it in json.loads((VECTORS / f"{read['algorithm'].lower()}.json").read_text())
                if it.get("form") == "pure"]
        wanted = [(it["message"], it["context"], it["signature"], it.get("valid", True)) for it in pure]
        assert sorted(wanted) == sorted((it["msg"], it["ctx"], it["sig"], it["result"] == "valid")
                                        for it in all_of(read))


def test_flags_name_the_cause(files):
    """A signature that is valid, a context that is too long, a signature of another length, or none of these."""
    found = set()
    for path in files:
        tests = all_of(json.loads(path.read_text()))
        length = len(next(it["sig"] for it in tests if it["result"] == "valid"))
        for it in tests:
            flag = ("ValidSignature" if it["result"] == "valid" else "BadContext" if len(it["ctx"]) > 510 else
                    "InvalidSignature" if len(it["sig"]) == length else "BadLength")
            assert it["flags"] == [flag], (path, it["tcId"])
            found.add(flag)
    assert len(found) == 4


@pytest.mark.parametrize("count, flag", [(255, "InvalidSignature"), (256, "BadContext")])
def test_context_is_too_long_from_256_bytes_on(count, flag):
    said = succeed(sys.executable, "-c", "import sys, wycheproof; print(wycheproof.flag_of({'valid': False, 'signature': "
                   "'00', 'context': int(sys.argv[1]) * '00'}, 2))", str(count), cwd=VECTORS)
    assert said.decode().strip() == flag


def test_words():
    assert run(SCRIPT).status == 1 and run(SCRIPT, "--help").status == 1


# ---- two packages


@pytest.fixture(scope="module")
def in_python(python_package):
    env = {**os.environ, "PYTHONPATH": str(python_package), "PYTHONDONTWRITEBYTECODE": "1"}
    return lambda paths: succeed(sys.executable, "-c", IN_PYTHON, *paths, env=env)


@pytest.fixture(scope="module")
def in_go(installed, tmp_path_factory):
    need("go", "gcc")
    prefix, work = installed, tmp_path_factory.mktemp("go")
    env = {**os.environ, "CGO_ENABLED": "1", "CGO_CFLAGS": f"-I{prefix}/include", "CGO_LDFLAGS": f"-L{prefix}/lib",
           "GOCACHE": str(work / "cache"), "GOPATH": str(work / "path"), "GOFLAGS": "-mod=readonly", "GOPROXY": "off"}
    (work / "program").mkdir()
    shutil.copy(HERE / "bindings/tests/wycheproof.go", work / "program/main.go")
    words = ["-require", f"{GO_MODULE}@v0.0.0", "-replace", f"{GO_MODULE}={HERE / 'bindings/go'}"]
    succeed("go", "mod", "init", "program", cwd=work / "program", env=env)
    succeed("go", "mod", "edit", *words, cwd=work / "program", env=env)
    succeed("go", "build", "-o", work / "wycheproof", ".", cwd=work / "program", env=env, timeout=1800)
    return lambda paths: succeed(work / "wycheproof", *paths)


@pytest.fixture(params=["python", pytest.param("go", marks=pytest.mark.slow)])
def reads(request):
    return request.getfixturevalue(f"in_{request.param}")


def test_package_finds_each_result(reads, files):
    count = sum(json.loads(it.read_text())["numberOfTests"] for it in files)
    assert reads(files) == f"{count}\n".encode() and count > 100


def test_package_finds_a_wrong_result(reads, files, tmp_path):
    """The result of the first test of the last group is turned into the other one."""
    read = json.loads(files[0].read_text())
    test = read["testGroups"][-1]["tests"][0]
    test["result"] = {"valid": "invalid", "invalid": "valid"}[test["result"]]
    (tmp_path / "wrong.json").write_text(json.dumps(read))
    lines = [f"{read['algorithm']} {test['tcId']}", str(read["numberOfTests"])]
    assert reads([tmp_path / "wrong.json"]).decode().splitlines() == lines
