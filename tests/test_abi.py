"""Tests the comparison of ABIs (tools/abi.py): a release is as it was, what breaks programs is found, and what is only
added is not. The sources of today are compared with the release in dist/, too. The shared objects here have the version
script of tools/symbols.sh for the calls of their headers."""
import pathlib
import re
import shutil
import subprocess
import sys

import pytest

HERE = pathlib.Path(__file__).resolve().parent.parent
sys.path.append(str(HERE / "tools"))
import abi  # noqa: E402

SHARED = "libslh.so.1"
PUBLIC = "uint32_t slh_public(uint32_t set, const uint8_t *sk, size_t sk_len, uint8_t *pk, size_t pk_len);"
BROKEN = {
    "the type of a result": ("slh.h", PUBLIC, PUBLIC.replace("uint32_t slh_", "uint64_t slh_"), "slh_public"),
    "the type of a parameter": ("slh.h", PUBLIC, PUBLIC.replace("size_t sk_len", "uint32_t sk_len"), "slh_public"),
    "a parameter more": ("slh.h", PUBLIC, PUBLIC.replace(");", ", uint32_t flags);"), "slh_public"),
    "the number of a result": ("slh_verify.h", "SLH_BAD_START = 28", "SLH_BAD_START = 29", "SLH_BAD_START"),
    "the number of a set": ("slh_verify.h", "_256F = 6", "_256F = 7", "SLH_DSA_SHA2_256F"),
    "a lost number": ("slh_verify.h", "    SLH_BAD_CUTTING = 4,\n", "", "SLH_BAD_CUTTING"),
    "a length": ("slh_verify.h", "_128S_SIGNATURE 7856", "_128S_SIGNATURE 7857", "SLH_DSA_SHA2_128S_SIGNATURE is 7857"),
    "a lost macro": ("slh_verify.h", "#define SLH_DSA_SHA2_192F_N 24\n", "", "SLH_DSA_SHA2_192F_N is missing"),
    "a header that is not compiled": ("slh_verify.h", "#define SLH_MAX_CONTEXT 255\n", "", "not compiled"),
    "a missing call": ("slh.h", PUBLIC, "", "slh_public"),
}
ADDED = {
    "a number": ("slh_verify.h", "SLH_BAD_CUTTING = 4,", "SLH_BAD_CUTTING = 4,\n    SLH_NEW = 99,"),
    "a macro": ("slh_verify.h", "#define SLH_MAX_N 32", "#define SLH_MAX_N 32\n#define SLH_NEW 99"),
    "a call": ("slh.h", PUBLIC, f"{PUBLIC}\nSLH_API\nuint32_t slh_new(void);"),
}


@pytest.fixture
def new(tmp_path):
    """A release whose headers can be changed. Its shared object is made of them, by `compare`."""
    for tool in (abi.CC, "nm", "abidiff"):
        if shutil.which(tool) is None:
            pytest.skip(f"there is no {tool} (Debian's packages gcc, binutils, abigail-tools)")
    shutil.copytree(HERE / "dist/include", tmp_path / "include")
    (tmp_path / "x86-64").mkdir()
    return tmp_path


def change(release, file, old, new):
    path = release / "include" / file
    text = path.read_text()
    assert text.count(old) == 1
    path.write_text(text.replace(old, new))


def link(release, version="SLH_1", text=None):
    """Links the shared object of a release of its stub, or of this text."""
    script = release / "symbols"
    script.write_text(f"{version} {{ global: slh_*; other; local: *; }};\n" if version else "{ local: none; };\n")
    made = abi.compiled(release, text or abi.stub(release), release / "x86-64/libslh", "-shared", "-fPIC",
                        f"-Wl,--version-script={script}")
    made.rename(release / f"x86-64/{SHARED}")


def compare(new, old=HERE / "dist"):
    """The status and the output of a comparison, with the release in dist/ or another."""
    link(new)
    return compared(old, new)


def compared(old, new):
    done = subprocess.run([HERE / "tools/abi.py", old, new], stdout=subprocess.PIPE, text=True)
    return done.returncode, done.stdout


def as_they_were():
    """What is said if each call of the release in dist/ is as it was."""
    words = ["nm", "-D", "--defined-only", HERE / "dist/x86-64" / SHARED]
    listed = subprocess.run(words, stdout=subprocess.PIPE, text=True, check=True).stdout
    return f"{len(re.findall(r' T slh_', listed))} calls are as they were\n"


@pytest.mark.parametrize("file, old, changed, said", BROKEN.values(), ids=BROKEN)
def test_what_breaks_programs_is_found(new, file, old, changed, said):
    change(new, file, old, changed)
    if said == "slh_public" and not changed:  # its marks would stand before the next call
        change(new, file, "SLH_MUST_USE SLH_API\n\n", "")
    status, output = compare(new)
    assert status == 1 and said in output


@pytest.mark.parametrize("file, old, changed", ADDED.values(), ids=ADDED)
def test_what_is_added_is_no_difference(new, file, old, changed):
    change(new, file, old, changed)
    assert compare(new) == (0, as_they_were())


def test_a_release_is_as_it_was(new):
    assert compare(new)[0] == 0


def test_the_headers_of_today(new):
    """They break no program that was compiled with the release in dist/."""
    for path in (HERE / "c/include").glob("*.h"):
        shutil.copy(path, new / "include")
    assert compare(new)[0] == 0


def test_a_call_that_is_not_exported_is_found(new):
    link(new, text=abi.stub(new).replace("slh_public(", "other("))
    status, output = compared(HERE / "dist", new)
    assert status == 1 and "declared and exported calls differ: ['other', 'slh_public']" in output


@pytest.fixture
def old(new, tmp_path_factory):
    """A release as `new`, with versions of its symbols."""
    old = tmp_path_factory.mktemp("old") / "release"
    shutil.copytree(new, old)
    link(old)
    return old


def test_a_release_with_versions_of_symbols_is_as_it_was(old, new):
    assert compare(new, old) == (0, as_they_were())


@pytest.mark.parametrize("version, said", [("SLH_9", "SLH_9"), ("", "none")])
def test_another_version_of_symbols_is_found(old, new, version, said):
    """A program that asks for slh_sign@SLH_1 does not start over it, or is warned."""
    link(new, version)
    status, output = compared(old, new)
    assert status == 1 and f"slh_sign has the version {said}, and had SLH_1" in output


def test_another_name_of_the_shared_object_is_found(old, new):
    link(new)
    (new / "x86-64" / SHARED).rename(new / "x86-64/libslh.so.x")
    status, output = compared(old, new)
    assert status == 1 and f"the shared object is libslh.so.x, and was {SHARED}" in output


def test_without_a_file_or_a_tool_nothing_is_said_to_be_equal(new):
    words, quiet = [HERE / "tools/abi.py", HERE / "dist"], {"stdout": subprocess.PIPE, "stderr": subprocess.PIPE}
    assert subprocess.run([*words, new / "none"], **quiet).returncode == 2
    done = subprocess.run([sys.executable, *words, HERE / "dist"], env={"PATH": "/none"}, text=True, **quiet)
    assert done.returncode == 2 and "there is no cc" in done.stderr and not done.stdout
