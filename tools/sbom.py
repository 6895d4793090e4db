#!/usr/bin/env python3
"""Writes the bill of materials of a release, in SPDX 2.3: each file with its SHA-1 and SHA-256, and what built it.

usage: tools/sbom.py DIST            writes DIST/SBOM.spdx.json
       tools/sbom.py --check DIST    the status is 0 if that file is as it would be written

The time in it is the day of the release in CHANGELOG.md, so that two builds of one release have the same bits. The
file does not list itself, nor SHA256SUMS and its signature, which are written after it.
"""
import hashlib
import json
import pathlib
import re
import sys
import time

ROOT = pathlib.Path(__file__).resolve().parent.parent
NAME = "SBOM.spdx.json"
WRITTEN_AFTER = {NAME, "SHA256SUMS", "SHA256SUMS.sig"}
LICENSE = "MIT OR Apache-2.0"
NOTHING = "NOASSERTION"


def day_of(version):
    """The day of a release, as CHANGELOG.md has it."""
    found = re.search(rf"^## {re.escape(version)}, (.+)$", (ROOT / "CHANGELOG.md").read_text(), re.M)
    if not found:
        sys.exit(f"tools/sbom.py: CHANGELOG.md has no entry of {version} with a day: run tools/version.py")
    return time.strftime("%Y-%m-%dT00:00:00Z", time.strptime(found[1], "%d %B %Y"))


def built(dist):
    """The lines of BUILD, a name and a value each."""
    return dict(line.split(" ", 1) for line in (dist / "BUILD").read_text().splitlines())


def entry(dist, path):
    """What SPDX has of a file."""
    data = path.read_bytes()
    name = path.relative_to(dist).as_posix()
    sums = [{"algorithm": name, "checksumValue": hashlib.new(name, data).hexdigest()} for name in ("SHA1", "SHA256")]
    return {"SPDXID": "SPDXRef-File-" + re.sub(r"[^A-Za-z0-9.-]", "-", name), "fileName": f"./{name}",
            "checksums": sums, "licenseConcluded": LICENSE, "copyrightText": NOTHING}


def package(name, version, **more):
    """What SPDX has of a program: the release, or what built it."""
    return {"SPDXID": f"SPDXRef-{name}", "name": name, "versionInfo": version, "downloadLocation": NOTHING,
            "filesAnalyzed": False, "licenseConcluded": NOTHING, "licenseDeclared": NOTHING,
            "copyrightText": NOTHING, **more}


def document(dist):
    """The bill of a release."""
    build = built(dist)
    files = [entry(dist, it) for it in sorted(dist.rglob("*")) if it.is_file() and it.name not in WRITTEN_AFTER]
    if len({it["SPDXID"] for it in files}) != len(files):
        sys.exit("tools/sbom.py: two files have one identifier")
    first = sorted(it["checksums"][0]["checksumValue"] for it in files)
    code = {"packageVerificationCodeValue": hashlib.sha1("".join(first).encode()).hexdigest()}
    release = package("pipitscreen", build["version"], filesAnalyzed=True, packageVerificationCode=code,
                      licenseConcluded=LICENSE, licenseDeclared=LICENSE, hasFiles=[it["SPDXID"] for it in files])
    tools = [package(name, build[name]) for name in ("kit", "compiler") if name in build]
    relations = [("SPDXRef-DOCUMENT", "DESCRIBES", release["SPDXID"])]
    relations += [(it["SPDXID"], "BUILD_TOOL_OF", release["SPDXID"]) for it in tools]
    return {
        "spdxVersion": "SPDX-2.3", "dataLicense": "CC0-1.0", "SPDXID": "SPDXRef-DOCUMENT",
        "name": f"pipitscreen-{build['version']}",
        "documentNamespace": f"urn:pipitscreen:{build['version']}:{build['sources']}",
        "creationInfo": {"created": day_of(build["version"]), "creators": ["Tool: tools/sbom.py"]},
        "packages": [release, *tools], "files": files,
        "relationships": [{"spdxElementId": one, "relationshipType": kind, "relatedSpdxElement": other}
                          for one, kind, other in relations],
    }


def main():
    checks, words = sys.argv[1:2] == ["--check"], [it for it in sys.argv[1:] if it != "--check"]
    if len(words) != 1 or not (pathlib.Path(words[0]) / "BUILD").is_file():
        print(__doc__.split("\n\n")[1], file=sys.stderr)
        sys.exit(2)
    dist = pathlib.Path(words[0]).resolve()
    text = json.dumps(document(dist), indent=1) + "\n"
    if not checks:
        (dist / NAME).write_text(text)
    elif not (dist / NAME).is_file() or (dist / NAME).read_text() != text:
        sys.exit(f"tools/sbom.py: {dist / NAME} does not list the files that are there")


if __name__ == "__main__":
    main()
