#!/usr/bin/env python3
"""Writes the verifications of pure signatures in the vector files as JSON in Wycheproof's form, a file for each set.

usage: tests/vectors/wycheproof.py FOLDER

The folder is made if it is not there. A file has the members of Wycheproof's files for ML-DSA, `mldsa_44_verify_test`
and its kin: Wycheproof has none for SLH-DSA. `tests/test_wycheproof.py` has the schema. A group has one public key. A
result is `valid` or `invalid`, and a flag names the cause, as far as the bytes show it.
"""
import itertools
import json
import pathlib
import sys

HERE = pathlib.Path(__file__).resolve().parent
SETS = [f"SLH-DSA-SHA2-{n}{speed}" for n in (128, 192, 256) for speed in "sf"]
NOTES = {
    "ValidSignature": ("BASIC", "A signature that OpenSSL made."),
    "BadContext": ("MODIFIED_PARAMETER", "The context has over 255 bytes: no such context has a valid signature."),
    "BadLength": ("MODIFIED_SIGNATURE", "The signature has another length than those of the set."),
    "InvalidSignature": ("MODIFIED_SIGNATURE", "The signature is not one of this message, context, form and key."),
}


def flag_of(test, length):
    """The flag of a test of a set whose signatures have this many digits."""
    if test["valid"]:
        return "ValidSignature"
    if len(test["context"]) > 2 * 255:
        return "BadContext"
    return "InvalidSignature" if len(test["signature"]) == length else "BadLength"


def test_of(number, test, length):
    flag = flag_of(test, length)
    members = {"tcId": number, "comment": NOTES[flag][1].rstrip("."), "msg": test["message"], "ctx": test["context"]}
    return {**members, "sig": test["signature"], "result": "valid" if test["valid"] else "invalid", "flags": [flag]}


def file_of(label):
    """The object of a set. Each verification of the pure form is a test, and so is each pure signature."""
    tests = json.loads((HERE / f"{label.lower()}.json").read_text())
    pure = [it for it in tests if it.get("form") == "pure"]
    of_keys = [it if "pk" in it else {**it, "pk": it["sk"][len(it["sk"]) // 2:], "valid": True} for it in pure]
    length = len(next(it["signature"] for it in pure if it["kind"] == "sign"))
    numbers, groups = itertools.count(1), []
    for key, found in itertools.groupby(sorted(of_keys, key=lambda it: it["pk"]), lambda it: it["pk"]):
        made = [test_of(next(numbers), it, length) for it in found]
        source = {"name": "pipitscreen/tests/vectors", "version": (HERE.parent.parent / "VERSION").read_text().strip()}
        groups.append({"type": "SlhDsaVerify", "source": source, "publicKey": key, "tests": made})
    notes = {name: {"bugType": kind, "description": about} for name, (kind, about) in NOTES.items()}
    return {"algorithm": label, "schema": "slhdsa_verify_schema.json", "numberOfTests": next(numbers) - 1,
            "header": [f"Verifications of pure signatures by {label}, made of the tests in {label.lower()}.json."],
            "notes": notes, "testGroups": groups}


def main(words):
    if len(words) != 1 or words[0].startswith("-"):
        sys.exit(__doc__.split("\n\n")[1])
    folder = pathlib.Path(words[0])
    folder.mkdir(parents=True, exist_ok=True)
    for label in SETS:
        name = label.lower().replace("slh-dsa", "slhdsa").replace("-", "_")
        (folder / f"{name}_verify_test.json").write_text(json.dumps(file_of(label), indent=1) + "\n")


if __name__ == "__main__":
    main(sys.argv[1:])
