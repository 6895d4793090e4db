"""Counts the instructions of calls that refuse a wrong tag: slh_sign_job the tag of a start, slh_sign_join and
slh_keygen_join the tag of an answer. The count must not depend on the place of the wrong byte: the first, the middle or
the last byte of the tag, or all. A comparison that ends early must be found.

valgrind knows no AVX-512, so the archive for x86-64-v4 is skipped. Of the builds of slh.c one is drawn.
"""
import collections
import platform

import pytest

from conftest import STRICT
from support import TESTS, callgrind, has_feature, need, succeed

CALLS, SETS, PLACES = ["sign_job", "sign_join", "keygen_join"], ["128f", "192f", "256f"], 5
OF_SLH_C = [f"{compiler}-{level}" for level in "2s03" for compiler in ("gcc", "clang")]
DRAWN = [pytest.mark.slow, pytest.mark.drawn("the build of slh.c", "build")]
BUILDS = ["v2", "v3", "v4", *(pytest.param(it, marks=DRAWN) for it in OF_SLH_C)]
# What a processor has to have for the code of a level.
FEATURES = {"v2": "ssse3", "v3": "avx2"}

pytestmark = pytest.mark.usefixtures("built_by_the_kit")


@pytest.fixture(scope="module")
def links(compiled):
    """Makes the program of library_compare.c with a library and the headers of a folder."""
    need("valgrind")
    if platform.machine() != "x86_64" or platform.system() != "Linux":
        pytest.skip("the calls are counted on x86-64 Linux")

    def makes(library, include, *words):
        return compiled("compare", "-std=c11", "-O1", *STRICT, "-Wno-pedantic", *words, "-I", include,
                        TESTS / "library_compare.c", library)

    return makes


@pytest.fixture(scope="module")
def taken(links, installed, tmp_path_factory):
    """A file with keys, starts and answers, which any build may make."""
    path = tmp_path_factory.mktemp("compare") / "taken"
    succeed(links(installed / "lib/libslh.a", installed / "include"), "make", path)
    return path


@pytest.fixture(scope="module")
def counted(taken, tmp_path_factory):
    """Counts the instructions of a program's calls, or of one call: numbers by call and set, one for each place."""

    def counts(program, *call):
        found = collections.defaultdict(list)
        for label, number in callgrind(tmp_path_factory.mktemp("parts"), program, taken, *call)[1]:
            found[tuple(label.split()[:2])].append(number)
        return found

    return counts


@pytest.fixture(scope="module")
def build(request, links, counted, installed, install, compiled):
    """The numbers of instructions by call and set of a build: an archive for a level, or slh.c by a compiler."""
    name = request.param
    if name == "v4":
        pytest.skip("valgrind knows no AVX-512")
    if name in FEATURES:
        if not has_feature(FEATURES[name]):
            pytest.skip(f"this processor has no {FEATURES[name]}")
        return counted(links(installed / f"lib/libslh-{name}.a", installed / "include"))
    compiler, level = name.split("-")
    prefix = install("portable")
    words = ["-std=c11", f"-O{level}", "-c", "-I", prefix / "include", prefix / "src/slh.c"]
    return counted(links(compiled("slh.o", *words, cc=compiler), prefix / "include"))


@pytest.mark.parametrize("of_set", SETS)
@pytest.mark.parametrize("call", CALLS)
@pytest.mark.parametrize("build", BUILDS, indirect=True)
def test_each_wrong_byte_takes_as_long(build, call, of_set):
    numbers = build[call, of_set]
    assert len(numbers) == PLACES and len(set(numbers)) == 1, numbers


def test_comparison_that_ends_early_is_found(links, counted, installed):
    """library_compare.c compares the tag itself before the call, and ends at the first wrong byte."""
    program = links(installed / "lib/libslh-v2.a", installed / "include", "-DEARLY")
    numbers = counted(program, "sign_job")["sign_job", "128f"]
    assert len(numbers) == PLACES and len(set(numbers)) > 1, numbers
