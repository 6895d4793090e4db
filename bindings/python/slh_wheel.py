"""Builds the wheel of an installed library by Python alone: neither a network nor another package is needed.

    SLH_PREFIX=PREFIX pip install bindings/python

PREFIX is the absolute path of a folder that tools/library.sh has installed into. The wheel has its shared object, and
is for the machine of that: Linux on x86-64, ARM or RISC-V, or Windows. The same files give the same wheel, bit for bit,
by the same zlib.

pyproject.toml names this file as the build backend. It has setuptools compile the portable C if PREFIX has no shared
object, and write source distributions and editable installations: setup.py describes these.
"""

from __future__ import annotations

import base64
import hashlib
import os
import pathlib
import re
import sys
import types
import typing
import zipfile

HERE = pathlib.Path(__file__).resolve().parent
INSIDE = HERE / "library"
VERSION = HERE.parent.parent / "VERSION"
NAME = "libslh.so.1"
SETUPTOOLS = ["setuptools>=64", "wheel"]
LICENSES = ["LICENSE-APACHE", "LICENSE-MIT"]
# The machines in platform tags, by the class and the machine of ELF.
MACHINES = {(2, 62): "x86_64", (2, 183): "aarch64", (2, 243): "riscv64", (1, 40): "armv7l"}
# The C libraries for which a wheel is: the package calls their getrandom, which glibc has since 2.25. The shared object
# calls memcpy, memmove and memset alone. Musl 1.2 has all of them.
LIBRARIES = "manylinux_2_25", "musllinux_1_2"
# The oldest time that a zip file can have.
OLDEST = 1980, 1, 1, 0, 0, 0


def library_prefix() -> pathlib.Path:
    """The folder that SLH_PREFIX names, or the one inside. pip builds here, where a relative path names another one."""
    named = os.environ.get("SLH_PREFIX", "")
    prefix = INSIDE if named == "" else pathlib.Path(named)
    if not prefix.is_absolute() or not (prefix / "include" / "slh_verify.h").is_file():
        sys.exit(
            "slh_wheel.py: SLH_PREFIX has to be the absolute path of the folder that tools/library.sh has installed"
            f" into, and is {named!r}"
        )
    return prefix


def version_of(prefix: pathlib.Path) -> str:
    """The version that the header of a library says."""
    header = (prefix / "include" / "slh_verify.h").read_text(encoding="ascii")
    return re.findall(r'^#define SLH_VERSION "(.*)"$', header, re.MULTILINE)[0]


def library_version(prefix: pathlib.Path) -> str:
    """The version of the library, which has to be that of the repository or of the source distribution."""
    wanted = version_of(INSIDE) if INSIDE.is_dir() else VERSION.read_text(encoding="ascii").strip()
    if version_of(prefix) != wanted:
        sys.exit(f"slh_wheel.py: the library in {prefix} is not of the version {wanted}")
    return wanted


def source_of(prefix: pathlib.Path) -> pathlib.Path:
    """Where a library has its portable C."""
    return prefix / "src" / "slh.c"


def shared_of(prefix: pathlib.Path) -> pathlib.Path:
    """Where a library has its shared object."""
    dll = prefix / "bin" / "slh.dll"
    return dll if dll.is_file() else prefix / "lib" / NAME


def platform_of(shared: pathlib.Path) -> str:
    """The platform tags of a wheel with this shared object, with dots between them."""
    head = shared.read_bytes()[:20]
    if head[:2] == b"MZ":
        return "win_amd64"
    machine = MACHINES[head[4], int.from_bytes(head[18:20], "little")]
    return ".".join(f"{it}_{machine}" for it in LIBRARIES)


def has_shared() -> bool:
    """Whether there is a shared object of the right version. If the portable C has to be compiled there is none."""
    prefix = library_prefix()
    library_version(prefix)
    if shared_of(prefix).is_file():
        return True
    if not source_of(prefix).is_file():
        sys.exit(f"slh_wheel.py: there is neither lib/libslh.so.1, bin/slh.dll nor src/slh.c in {prefix}")
    return False


def metadata(version: str) -> str:
    """The text of METADATA: what pyproject.toml has under [project], and README.md."""
    project = (HERE / "pyproject.toml").read_text(encoding="utf-8")

    def value(name: str) -> str:
        return re.findall(rf'^{name} = .*?"(.*?)"', project, re.MULTILINE)[0]

    def values(name: str) -> list[str]:
        return re.findall(r'"(.*?)"', re.findall(rf"^{name} = \[(.*?)\]", project, re.MULTILINE | re.DOTALL)[0])

    lines = ["Metadata-Version: 2.1", f"Name: {value('name')}", f"Version: {version}"]
    lines += [f"Summary: {value('description')}", f"License: {value('license')}"]
    lines += [f"Keywords: {','.join(values('keywords'))}", *(f"Classifier: {it}" for it in values("classifiers"))]
    lines += [f"Requires-Python: {value('requires-python')}", "Description-Content-Type: text/markdown"]
    lines += [f"License-File: {it}" for it in LICENSES]
    return "\n".join(lines) + "\n\n" + (HERE / "README.md").read_text(encoding="utf-8")


def contents(prefix: pathlib.Path, version: str, platform: str) -> dict[str, bytes]:
    """The files of the wheel, but for RECORD."""
    info = f"slh-{version}.dist-info"
    package = [*sorted((HERE / "slh").glob("*.py")), HERE / "slh" / "py.typed"]
    files = {f"slh/{it.name}": it.read_bytes() for it in package}
    files[f"slh/{NAME}"] = shared_of(prefix).read_bytes()
    files.update({f"{info}/{it}": (HERE / it).read_bytes() for it in LICENSES})
    files[f"{info}/METADATA"] = metadata(version).encode()
    tags = [f"py3-none-{it}" for it in platform.split(".")]
    lines = ["Wheel-Version: 1.0", f"Generator: slh_wheel {version}", "Root-Is-Purelib: false"]
    files[f"{info}/WHEEL"] = "\n".join([*lines, *(f"Tag: {it}" for it in tags), ""]).encode()
    return files


def record(files: dict[str, bytes], own: str) -> bytes:
    """The text of RECORD: each file with its SHA-256 and its length, and its own name."""
    digests = {name: base64.urlsafe_b64encode(hashlib.sha256(it).digest()) for name, it in files.items()}
    lines = [f"{name},sha256={digests[name].decode().rstrip('=')},{len(it)}" for name, it in files.items()]
    return "\n".join([*lines, f"{own},,", ""]).encode()


def write_zip(path: pathlib.Path, files: dict[str, bytes]) -> None:
    """Writes files into an archive, all with the same time and mode."""
    with zipfile.ZipFile(path, "w", zipfile.ZIP_DEFLATED) as archive:
        for name, data in files.items():
            entry = zipfile.ZipInfo(name, OLDEST)
            entry.compress_type = zipfile.ZIP_DEFLATED
            entry.external_attr = 0o100644 << 16
            archive.writestr(entry, data)


def setuptools_backend() -> types.ModuleType:
    """The backend of setuptools, which pip has installed by now."""
    from setuptools import build_meta

    return build_meta


# What follows are the calls of a build backend (PEP 517, PEP 660).
Settings = typing.Optional[typing.Mapping[str, typing.Any]]
Folder = typing.Optional[str]


def get_requires_for_build_wheel(config_settings: Settings = None) -> list[str]:
    return [] if has_shared() else SETUPTOOLS


def get_requires_for_build_sdist(config_settings: Settings = None) -> list[str]:
    return SETUPTOOLS


def get_requires_for_build_editable(config_settings: Settings = None) -> list[str]:
    return SETUPTOOLS


def build_wheel(wheel_directory: str, config_settings: Settings = None, metadata_directory: Folder = None) -> str:
    if not has_shared():
        return setuptools_backend().build_wheel(wheel_directory, config_settings, metadata_directory)
    prefix = library_prefix()
    version, platform = library_version(prefix), platform_of(shared_of(prefix))
    files = contents(prefix, version, platform)
    own = f"slh-{version}.dist-info/RECORD"
    files[own] = record(files, own)
    name = f"slh-{version}-py3-none-{platform}.whl"
    write_zip(pathlib.Path(wheel_directory, name), files)
    return name


def build_sdist(sdist_directory: str, config_settings: Settings = None) -> str:
    return setuptools_backend().build_sdist(sdist_directory, config_settings)


def build_editable(wheel_directory: str, config_settings: Settings = None, metadata_directory: Folder = None) -> str:
    return setuptools_backend().build_editable(wheel_directory, config_settings, metadata_directory)
