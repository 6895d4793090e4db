"""Tests the bill of materials of a release (tools/sbom.py) and the signature of its list (tools/sign_release.sh)."""
import hashlib
import json
import shutil

import pytest

from support import HERE, need, run, succeed

SBOM, SIGN = HERE / "tools/sbom.py", HERE / "tools/sign_release.sh"


@pytest.fixture
def copy(release, tmp_path):
    """A copy of a part of the release: each kind of file is in it."""
    folder = tmp_path / "dist"
    for name in ("include", "x86-64-v2", "x86-64-v3", "x86-64-v4"):
        shutil.copytree(release / name, folder / name)
    for name in ("BUILD", "SHA256SUMS"):
        shutil.copy(release / name, folder)
    return folder


@pytest.fixture
def bill(copy):
    """The bill of materials of that part."""
    succeed(SBOM, copy)
    return json.loads((copy / "SBOM.spdx.json").read_text())


def test_the_bill_has_each_file(bill, copy):
    need("sha1sum", "sha256sum")
    found = {it["fileName"]: {sums["algorithm"]: sums["checksumValue"] for sums in it["checksums"]}
             for it in bill["files"]}
    for command, algorithm in (("sha1sum", "SHA1"), ("sha256sum", "SHA256")):
        lines = succeed("bash", "-c", f"find . -type f ! -name 'S[HB]*' | xargs {command}", cwd=copy).decode().splitlines()
        wanted = {name: digest for digest, name in (line.split() for line in lines)}
        assert {name: it[algorithm] for name, it in found.items()} == wanted and len(wanted) > 10


def test_the_bill_of_the_release_is_its_own(release):
    succeed(SBOM, "--check", release)


def test_the_bill_has_what_spdx_asks_for(bill, copy):
    """SPDX 2.3, clauses 6 to 8 and 11: the fields that are mandatory, and the code of a package's files."""
    assert (bill["spdxVersion"], bill["dataLicense"], bill["SPDXID"]) == ("SPDX-2.3", "CC0-1.0", "SPDXRef-DOCUMENT")
    assert bill["documentNamespace"].startswith("urn:") and bill["creationInfo"]["created"].endswith("T00:00:00Z")
    release, *tools = bill["packages"]
    sums = sorted(succeed("sha1sum", copy / it["fileName"]).split()[0] for it in bill["files"])
    code = hashlib.sha1(b"".join(sums)).hexdigest()
    assert release["packageVerificationCode"] == {"packageVerificationCodeValue": code}
    assert {it["name"] for it in tools} == {"kit", "compiler"}
    assert all(it["downloadLocation"] and it["SPDXID"].startswith("SPDXRef-") for it in bill["packages"])
    kinds = [it["relationshipType"] for it in bill["relationships"]]
    assert kinds == ["DESCRIBES", "BUILD_TOOL_OF", "BUILD_TOOL_OF"]


def change(path):
    path.write_bytes(path.read_bytes() + b"\n")


CHANGES = {
    "nothing": (lambda folder: None, 0),
    "a file": (lambda folder: change(folder / "include/slh.h"), 1),
    "a new file": (lambda folder: change(folder / "include/slh.h") or (folder / "new").touch(), 1),
    "a file that is gone": (lambda folder: (folder / "include/slh.h").unlink(), 1),
    "the bill": (lambda folder: change(folder / "SBOM.spdx.json"), 1),
    "no bill": (lambda folder: (folder / "SBOM.spdx.json").unlink(), 1),
    "the list, which is written later": (lambda folder: change(folder / "SHA256SUMS"), 0),
}


@pytest.mark.parametrize("name", CHANGES)
def test_a_change_is_found(bill, copy, name):
    act, status = CHANGES[name]
    act(copy)
    assert run(SBOM, "--check", copy).status == status


@pytest.fixture
def keys(slh, tmp_path):
    """A secret key file and its public one."""
    secret = slh("keygen", "--set", "SLH-DSA-SHA2-128f", stdin=b"07" * 48)
    (tmp_path / "secret.key").write_bytes(secret.output)
    public = slh("public", "--key", tmp_path / "secret.key")
    (tmp_path / "public.key").write_bytes(public.output)
    return tmp_path / "secret.key", tmp_path / "public.key"


def test_the_list_is_signed(slh, keys, copy):
    succeed(SIGN, copy, keys[0])
    words = "verify", "--key", keys[1], "--message", copy / "SHA256SUMS", "--signature", copy / "SHA256SUMS.sig"
    assert slh(*words).output == b"valid\n"
    change(copy / "SHA256SUMS")
    assert slh(*words).output == b"invalid\n"


def test_two_signatures_differ(keys, copy):
    made = [succeed(SIGN, copy, keys[0]) or (copy / "SHA256SUMS.sig").read_bytes() for _ in range(2)]
    assert made[0] != made[1]


def test_a_public_key_signs_nothing(keys, copy):
    assert run(SIGN, copy, keys[1]).status != 0
    assert not (copy / "SHA256SUMS.sig").exists()
