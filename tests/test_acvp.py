"""Has `python -m slh acvp` answer prompts of NIST's ACVP, which are made here of the vector files in tests/vectors.

The expected results are the keys, signatures and verdicts of these files, which OpenSSL made. Prompts and responses
have the members of NIST's files for SLH-DSA (draft-celi-acvp-slh-dsa): each group has one set, one interface, one form,
and one kind of randomness."""
import itertools
import json
import os
import resource
import sys

import pytest

from support import VECTORS, refused, run

SETS = [f"SLH-DSA-SHA2-{n}{speed}" for n in (128, 192, 256) for speed in "fs"]
FAST = SETS[0]
MODES = {"keygen": "keyGen", "sign": "sigGen", "verify": "sigVer"}
# The members of a test by its mode: ACVP's name, and that of the vector files.
GIVEN = {"keyGen": {"skSeed": "skSeed", "skPrf": "skPrf", "pkSeed": "pkSeed"}, "sigGen": {"sk": "sk"},
         "sigVer": {"pk": "pk", "signature": "signature"}}
WANTED = {"keyGen": {"sk": "sk", "pk": "pk"}, "sigGen": {"signature": "signature"}, "sigVer": {"testPassed": "valid"}}


def vectors(label):
    return json.loads((VECTORS / f"{label.lower()}.json").read_text())


def group_of(test):
    """The members of the group that a test of the vector files is in."""
    members = {"testType": "AFT", "parameterSet": test["set"]}
    if "random" in test:
        members["deterministic"] = test["random"] == ""
    if "form" in test:
        is_internal, is_pure = test["form"] == "internal", test["form"] == "pure"
        members["signatureInterface"] = "internal" if is_internal else "external"
        members |= {} if is_internal else {"preHash": "pure" if is_pure else "preHash"}
    return members


def upper(value):
    return value.upper() if isinstance(value, str) else value


def given_of(mode, test, group):
    """The members of a test of a prompt, but for its number."""
    members = {name: upper(test[it]) for name, it in GIVEN[mode].items()}
    if mode != "keyGen":
        members["message"] = upper(test["message"])
    if "preHash" in group:
        members |= {"context": upper(test["context"])}
        members |= {} if group["preHash"] == "pure" else {"hashAlg": test["form"]}
    if group.get("deterministic") is False:
        members["additionalRandomness"] = upper(test["random"])
    return members


def wanted_of(mode, test):
    """The members of a test of the expected results, but for its number."""
    return {name: upper(test[it]) for name, it in WANTED[mode].items()}


def prompt_of(mode, tests):
    """A prompt, and the results that are expected."""
    kind = next(it for it, name in MODES.items() if name == mode)
    tests = sorted((it for it in tests if it["kind"] == kind), key=lambda it: json.dumps(group_of(it)))
    prompts, results, numbers = [], [], itertools.count(1)
    for number, (_, found) in enumerate(itertools.groupby(tests, group_of), 1):
        found = [(next(numbers), it) for it in found]
        group = group_of(found[0][1])
        given = [{"tcId": at, **given_of(mode, it, group)} for at, it in found]
        wanted = [{"tcId": at, **wanted_of(mode, it)} for at, it in found]
        prompts.append({"tgId": number, **group, "tests": given})
        results.append({"tgId": number, "tests": wanted})
    head = {"vsId": 42, "algorithm": "SLH-DSA", "mode": mode, "revision": "FIPS205"}
    return {**head, "isSample": True, "testGroups": prompts}, {**head, "testGroups": results}


@pytest.fixture
def answers(python_package, tmp_path):
    """Runs the command over a prompt: an object for JSON, or bytes."""

    def of_prompt(prompt):
        data = prompt if isinstance(prompt, bytes) else json.dumps(prompt).encode()
        (tmp_path / "prompt.json").write_bytes(data)
        return run(sys.executable, "-m", "slh", "acvp", tmp_path / "prompt.json",
                   env={**os.environ, "PYTHONPATH": str(python_package), "PYTHONDONTWRITEBYTECODE": "1"})

    return of_prompt


def answered(outcome):
    """The response of a run that has to end with 0."""
    assert (outcome.status, outcome.errors) == (0, b"")
    return json.loads(outcome.output)


# ---- right prompts


@pytest.mark.parametrize("mode", MODES.values())
@pytest.mark.parametrize("label", [FAST, *(pytest.param(it, marks=pytest.mark.slow) for it in SETS[1:])])
def test_response_has_the_known_values(answers, label, mode):
    prompt, expected = prompt_of(mode, vectors(label))
    assert answered(answers(prompt)) == expected


@pytest.mark.parametrize("mode", MODES.values())
def test_prompts_have_each_kind_of_group(mode):
    """The vector files have both interfaces, both forms, and signatures with and without a randomizer."""
    prompt, _ = prompt_of(mode, vectors(FAST))
    kinds = {tuple(it.get(name) for name in ("signatureInterface", "preHash", "deterministic"))
             for it in prompt["testGroups"]}
    forms = [("external", "preHash"), ("external", "pure"), ("internal", None)]
    random = {"sigGen": (True, False), "sigVer": (None,)}
    assert kinds == ({(None, None, None)} if mode == "keyGen" else {(*it, r) for it in forms for r in random[mode]})


def test_array_is_answered_by_an_array(answers):
    """As a server sends prompts, with the version of the protocol."""
    prompt, expected = prompt_of("keyGen", vectors(FAST))
    version = {"acvVersion": "1.0"}
    assert answered(answers([version, prompt])) == [version, expected]


@pytest.mark.slow
@pytest.mark.parametrize("mode, name", [("keyGen", "sk"), ("sigGen", "signature"), ("sigVer", "testPassed")])
def test_wrong_expected_value_differs(answers, mode, name):
    """By the last digit, or by the verdict, of the last test."""
    prompt, expected = prompt_of(mode, vectors(FAST))
    test = expected["testGroups"][-1]["tests"][-1]
    value = test[name]
    test[name] = not value if name == "testPassed" else value[:-1] + f"{int(value[-1], 16) ^ 1:X}"
    assert answered(answers(prompt)) != expected


def test_context_that_is_left_out_is_empty(answers):
    """NIST's files leave it out in some groups."""
    prompt, expected = prompt_of("sigVer", [it for it in vectors(FAST) if it.get("form") == "pure" and it.get("valid")])
    assert answered(answers(prompt)) == expected
    for test in prompt["testGroups"][0]["tests"]:
        assert test.pop("context") != ""
    assert not any(it["testPassed"] for it in answered(answers(prompt))["testGroups"][0]["tests"])


# ---- other prompts


def small(mode, form=None):
    """A prompt of one test, and its group and test."""
    of_form = [it for it in vectors(FAST) if MODES[it["kind"]] == mode and it.get("form") == form]
    prompt, _ = prompt_of(mode, of_form[:1])
    return prompt, prompt["testGroups"][0], prompt["testGroups"][0]["tests"][0]


@pytest.mark.slow
@pytest.mark.parametrize("name", ["SHA3-256", "SHAKE-128", "sha2-256", "SHA2-256 "])
@pytest.mark.parametrize("mode", ["sigGen", "sigVer"])
def test_other_function_is_named(answers, mode, name):
    prompt, _, test = small(mode, "SHA2-256")
    test["hashAlg"] = name
    shown = "" if " " in name else f" {name}"
    assert answers(prompt) == refused(f"9 NoSuchFunction tgId 1 tcId 1 member hashAlg{shown}")


@pytest.mark.slow
@pytest.mark.parametrize("name", ["SLH-DSA-SHAKE-128f", "SLH-DSA-SHA2-128F"])
@pytest.mark.parametrize("mode", MODES.values())
def test_other_set_is_named(answers, mode, name):
    prompt, group, _ = small(mode, None if mode == "keyGen" else "pure")
    group["parameterSet"] = name
    assert answers(prompt) == refused(f"12 UnknownSet tgId 1 member parameterSet {name}")


@pytest.mark.slow
@pytest.mark.parametrize("mode, form, name, value, line", [
    ("keyGen", None, "skSeed", "00", "10 BadSeedLength tgId 1 tcId 1"),
    ("keyGen", None, "skPrf", None, "23 Missing tgId 1 tcId 1 member skPrf"),
    ("keyGen", None, "pkSeed", "0", "24 Bad tgId 1 tcId 1 member pkSeed 0"),
    ("keyGen", None, "tcId", "1", "24 Bad tgId 1 tests 1 member tcId 1"),
    ("sigGen", "pure", "sk", "0123", "3 BadLength tgId 1 tcId 1"),
    ("sigGen", "pure", "message", 7, "24 Bad tgId 1 tcId 1 member message"),
    ("sigGen", "pure", "context", 256 * "00", "2 ContextTooLong tgId 1 tcId 1"),
    ("sigGen", "SHA2-256", "hashAlg", None, "23 Missing tgId 1 tcId 1 member hashAlg"),
    ("sigVer", "pure", "pk", "", "3 BadLength tgId 1 tcId 1"),
    ("sigVer", "internal", "signature", "0x00", "24 Bad tgId 1 tcId 1 member signature 0x00")])
def test_test_is_refused(answers, mode, form, name, value, line):
    """Nothing is written, by the first test that can't be answered."""
    prompt, _, test = small(mode, form)
    test[name] = value
    if value is None:
        del test[name]
    assert answers(prompt) == refused(line)


@pytest.mark.slow
@pytest.mark.parametrize("form", ["pure", "internal"])
@pytest.mark.parametrize("value", [None, "", "00"])
def test_randomness_of_another_length_is_refused(answers, form, value):
    """Also an empty one: the group says that its signatures are not deterministic."""
    prompt, group, test = small("sigGen", form)
    group["deterministic"] = False
    test |= {} if value is None else {"additionalRandomness": value}
    missing = "23 Missing tgId 1 tcId 1 member additionalRandomness"
    assert answers(prompt) == refused(missing if value is None else "17 BadRandomizerLength tgId 1 tcId 1")


@pytest.mark.slow
@pytest.mark.parametrize("name, value, line", [
    ("algorithm", "ML-DSA", "24 Bad member algorithm ML-DSA"), ("revision", "1.0", "24 Bad member revision"),
    ("mode", "sigGenV2", "24 Bad member mode sigGenV2"), ("mode", None, "24 Bad member mode"),
    ("vsId", True, "24 Bad member vsId"), ("testGroups", {}, "24 Bad member testGroups"),
    ("testGroups", [7], "24 Bad testGroups 1")])
def test_prompt_is_refused(answers, name, value, line):
    prompt, _, _ = small("keyGen")
    assert answers({**prompt, name: value}) == refused(line)


@pytest.mark.slow
@pytest.mark.parametrize("name, value", [
    ("signatureInterface", "both"), ("preHash", "none"), ("deterministic", "no"), ("tests", "none")])
def test_group_is_refused(answers, name, value):
    prompt, group, _ = small("sigGen", "pure")
    group[name] = value
    assert answers(prompt) == refused(f"24 Bad tgId 1 member {name} {value}")


@pytest.mark.parametrize("data, line", [
    (b"", "21 NotJson"), (b'{"vsId": 1', "21 NotJson"), (b"\xff{}", "21 NotJson"), (b"{} {}", "21 NotJson"),
    (100_000 * b"[", "21 NotJson"), (b'[{"a": NaN}, {}]', "21 NotJson"), (b'{"vsId": -Infinity}', "21 NotJson"),
    (b"7", "24 Bad"), (b"[{}]", "24 Bad"), (b"[7, {}]", "24 Bad 1"), (b"{}", "23 Missing member algorithm")])
def test_broken_file_is_refused(answers, data, line):
    assert answers(data) == refused(line)


def test_long_message_takes_no_state_for_each_byte(answers):
    """Python's re stores one for each repetition of a group: 2.5 GB for these 16 MB."""
    prompt, _, test = small("sigVer", "internal")
    test["message"] = (32 << 20) * "0"
    limits = resource.getrlimit(resource.RLIMIT_AS)
    resource.setrlimit(resource.RLIMIT_AS, (1600 << 20, limits[1]))
    try:
        outcome = answers(prompt)
    finally:
        resource.setrlimit(resource.RLIMIT_AS, limits)
    assert not answered(outcome)["testGroups"][0]["tests"][0]["testPassed"]


def test_refusal_after_answers_writes_nothing(answers):
    prompt, _ = prompt_of("keyGen", vectors(FAST))
    del prompt["testGroups"][-1]["tests"][-1]["pkSeed"]
    assert len(prompt["testGroups"][-1]["tests"]) > 1
    assert answers(prompt) == refused("23 Missing tgId 1 tcId 3 member pkSeed")


def test_words(python_package, tmp_path):
    """A file that is not there, and no or two files. The help names the command."""
    env = {**os.environ, "PYTHONPATH": str(python_package), "PYTHONDONTWRITEBYTECODE": "1"}
    words = [sys.executable, "-m", "slh", "acvp"]
    assert run(*words, tmp_path / "none", env=env) == refused("32 ReadFailed")
    for given in ([], ["a", "b"], ["--prompt"]):
        assert run(*words, *given, env=env) == refused("31 BadWords")
    assert run(*words, "--help", env=env).output.startswith(b"Writes the response to a prompt of NIST's ACVP\n")
