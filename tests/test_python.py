"""Builds the package for Python as its users do, over the library as it is installed: the wheel, its types, its own
tests by unittest, and what it leaves in memory. No network is used."""
import base64
import csv
import hashlib
import os
import pathlib
import re
import shutil
import zipfile

import pytest

from key_forms import check_key_forms
from packages import check_memory, check_script, count_tests, lines_of, refuses_to_build, says_best_level
from support import HERE, PYTHON, TESTS, need, run, succeed

VERSION = (HERE / "VERSION").read_text().strip()
PLATFORMS = ["manylinux_2_25_x86_64", "musllinux_1_2_x86_64"]
WHEEL = f"slh-{VERSION}-py3-none-{'.'.join(PLATFORMS)}.whl"
ENV = {**os.environ, "PYTHONDONTWRITEBYTECODE": "1", "PYTHONNOUSERSITE": "1"}
SIGNS = """import slh
secret = slh.SecretKey.generate("SLH-DSA-SHA2-128f")
secret.public().verify(message=b"letter", signature=secret.sign(b"letter"))"""


def make_bare_venv(path):
    """Makes a virtual environment that has no other package than pip."""
    need("python3")
    if run("python3", "-c", "import ensurepip, venv").status:
        pytest.skip("Python makes no virtual environment (to be had by the package python3-venv)")
    succeed("python3", "-m", "venv", path, env=ENV)
    succeed(path / "bin/pip", "uninstall", "--yes", "setuptools", env=ENV)
    assert run(path / "bin/python", "-c", "import setuptools", env=ENV).status != 0
    return path


@pytest.fixture(scope="module")
def venv(tmp_path_factory):
    return make_bare_venv(tmp_path_factory.mktemp("venv") / "venv")


@pytest.fixture(scope="module")
def copied(tmp_path_factory):
    """Copies the package into a clone of its own, since setuptools writes into its folder: copied() is its path."""

    def copies():
        clone = tmp_path_factory.mktemp("clone")
        shutil.copytree(HERE / "bindings/python", clone / "bindings/python")
        shutil.copy(HERE / "VERSION", clone)
        return clone / "bindings/python"

    return copies


@pytest.fixture(scope="module")
def pip_wheel(venv):
    """The words that build a wheel without a network, to which a folder and the package are added."""
    return [venv / "bin/pip", "wheel", "--no-index", "-w"]


@pytest.fixture(scope="module")
def builds(pip_wheel, copied, installed, tmp_path_factory):
    """Builds the wheel of a new clone: its path."""

    def makes():
        folder = tmp_path_factory.mktemp("wheels")
        succeed(*pip_wheel, folder, copied(), env={**ENV, "SLH_PREFIX": str(installed)})
        return folder / WHEEL

    return makes


@pytest.fixture(scope="module")
def wheel(builds):
    return builds()


@pytest.fixture(scope="module")
def python(venv, wheel):
    """The Python of the environment into which the wheel is installed."""
    succeed(venv / "bin/pip", "install", "--no-index", wheel, env=ENV)
    return venv / "bin/python"


# ---- the wheel


@pytest.mark.slow
def test_wheel_is_built_again_with_the_same_bits(wheel, builds):
    assert wheel.read_bytes() == builds().read_bytes()


def files_of(path):
    with zipfile.ZipFile(path) as it:
        return {name: it.read(name) for name in it.namelist()}


def entry(data):
    """What RECORD has for a file: its SHA-256 and its length."""
    digest = base64.urlsafe_b64encode(hashlib.sha256(data).digest()).decode().rstrip("=")
    return [f"sha256={digest}", str(len(data))]


def test_wheel_lists_what_it_has(wheel):
    files = files_of(wheel)
    path = next(it for it in files if it.endswith("/RECORD"))
    listed = {name: words for name, *words in csv.reader(files[path].decode().splitlines())}
    assert listed == {name: ["", ""] if name == path else entry(data) for name, data in files.items()}
    assert len(files) > 6


def test_wheel_names_its_platforms(wheel):
    """Each by a line, as pip reads them."""
    files = files_of(wheel)
    text = files[next(it for it in files if it.endswith("/WHEEL"))].decode()
    assert re.findall("^Tag: (.*)$", text, re.M) == [f"py3-none-{it}" for it in PLATFORMS]


@pytest.mark.usefixtures("built_by_the_kit")
def test_platforms_are_those_of_the_shared_object(installed):
    """It needs no library but that of C, and no symbol of a glibc after the version in the tag. It has three calls."""
    need("readelf")
    shared = installed / "lib/libslh.so.1"
    assert re.findall(rb"\(NEEDED\).*\[(.*)\]", succeed("readelf", "-d", shared)) in ([], [b"libc.so.6"])
    symbols = succeed("readelf", "-W", "--dyn-syms", shared).decode()
    called = re.findall(r" UND ([^\s@]+)(?:@GLIBC_2\.(\d+))?", symbols)
    assert {name for name, _ in called} == {"memcpy", "memmove", "memset"}
    assert all(int(minor or 0) <= 25 for _, minor in called)


MUSL = """#include <dlfcn.h>
#include <stdlib.h>
#include <sys/random.h>
int main(int count, char **words) {
    void *library = dlopen(words[1], RTLD_NOW | RTLD_LOCAL), *self = dlopen(0, RTLD_NOW);
    unsigned (*version)(void) = library ? (unsigned (*)(void))dlsym(library, "slh_version") : 0;
    (void)count, (void)getrandom, (void)calloc;
    return !(version && version() >= 13000 && dlsym(self, "getrandom") && dlsym(self, "calloc") && dlsym(self, "free"));
}
"""


@pytest.mark.usefixtures("built_by_the_kit")
def test_musl_loads_the_shared_object(installed, tmp_path):
    """A program of musl, in place of Python, which Debian has for glibc alone."""
    need("musl-gcc")
    (tmp_path / "load.c").write_text(MUSL)
    succeed("musl-gcc", "-o", tmp_path / "load", tmp_path / "load.c")
    succeed(tmp_path / "load", installed / "lib/libslh.so.1")


def test_relative_path_of_the_library_is_named(pip_wheel, copied, tmp_path):
    assert refuses_to_build("SLH_PREFIX has to be the absolute path", *pip_wheel, tmp_path, copied(),
                            env={**ENV, "SLH_PREFIX": "prefix"})


def test_library_of_another_version_is_named(pip_wheel, copied, installed, tmp_path):
    line = f'#define SLH_VERSION "{VERSION}"'
    text = (installed / "include/slh_verify.h").read_text()
    assert line in text
    (tmp_path / "include").mkdir()
    (tmp_path / "include/slh_verify.h").write_text(text.replace(line, f'#define SLH_VERSION "9.{VERSION}"'))
    assert refuses_to_build(f"is not of the version {VERSION}", *pip_wheel, tmp_path / "none", copied(),
                            env={**ENV, "SLH_PREFIX": str(tmp_path)})


@pytest.fixture
def setuptools():
    """A Python that builds wheels without a network: the first on the path, or Debian's."""
    for it in ("python3", PYTHON):
        if run(it, "-c", "import setuptools, venv, wheel").status == 0:
            return it
    pytest.skip("no Python has setuptools and wheel (to be had by python3-setuptools and python3-wheel)")


@pytest.mark.slow
def test_setuptools_builds_equal_files(setuptools, wheel, copied, installed, tmp_path):
    """But for those that name the builder."""
    line = "import setuptools.build_meta as it, sys; it.build_wheel(sys.argv[1])"
    succeed(setuptools, "-c", line, tmp_path, cwd=copied(), env={**ENV, "SLH_PREFIX": str(installed)})
    of_builders = {"RECORD", "WHEEL", "top_level.txt"}
    ours, theirs = (dict(as_of_any_version(name, data) for name, data in files_of(it).items()
                         if pathlib.Path(name).name not in of_builders) for it in (wheel, tmp_path / WHEEL))
    assert ours == theirs and len(ours) >= 10


def as_of_any_version(name, data):
    """A file as setuptools of Debian 12 has it. That of Debian 13 has a folder of licenses, and writes METADATA by a later
    version of the standard, in which `Dynamic` names what it found itself."""
    if name.endswith("/METADATA"):
        data = re.sub(rb"^(Metadata-Version|Dynamic): .*\n", b"", data, flags=re.M)
    return name.replace(".dist-info/licenses/", ".dist-info/"), data


# ---- without a network


@pytest.fixture(scope="module")
def apart():
    """The words that run a command without a network."""
    need("unshare")
    words = ["unshare", *([] if os.geteuid() == 0 else ["--map-root-user"]), "--net"]
    if run(*words, "true").status:
        pytest.skip("this system allows no unshare --net (run it as root)")
    return words


@pytest.fixture(scope="module")
def bare(tmp_path_factory):
    return make_bare_venv(tmp_path_factory.mktemp("bare") / "bare")


@pytest.mark.slow
def test_no_host_is_reached_without_a_network(apart, bare):
    code = 'import socket; socket.create_connection(("192.0.2.1", 443), 2)'
    outcome = run(*apart, bare / "bin/python", "-c", code)
    assert outcome.status != 0 and b"OSError" in outcome.errors


@pytest.mark.slow
def test_pip_installs_it_without_a_network(apart, bare, copied, installed):
    """By the README's command. Then it signs."""
    env = {**ENV, "SLH_PREFIX": str(installed), "PIP_DISABLE_PIP_VERSION_CHECK": "1", "PIP_RETRIES": "0"}
    succeed(*apart, bare / "bin/pip", "install", copied(), env=env)
    succeed(bare / "bin/python", "-c", SIGNS, env=ENV)


# ---- the installed package


@pytest.mark.parametrize("file", sorted(it.name for it in (HERE / "bindings/python/tests").glob("test_*.py")))
def test_package_passes_its_tests(python, file):
    """The lines of its README are among them."""
    words = ["discover", "-s", HERE / "bindings/python/tests", "-p", file]
    outcome = run(python, "-m", "unittest", *words, env=ENV, timeout=1800)
    count_tests(outcome, r"^Ran (\d+) tests? in ")


def test_changed_keys_of_other_programs_are_judged(python):
    check_key_forms(python, HERE / "bindings/tests/key_forms.py", env=ENV)


def test_commands_of_the_module(python):
    """Those of the program `slh`, over a part of its rows."""
    code = "import pathlib, slh; print(pathlib.Path(slh.__file__).parent.parent)"
    folder = succeed(python, "-c", code, env=ENV).decode().strip()
    lines = lines_of("pytest", "-q", "-m", "not slow", TESTS / "test_commands.py", f"--python={folder}", env=ENV)
    check_script(lines)


@pytest.mark.usefixtures("built_by_the_kit")
def test_nothing_erased_is_in_memory(python, installed):
    check_memory(installed / "lib/libslh.so.1", python, HERE / "bindings/tests/erased.py", env=ENV)


@pytest.mark.usefixtures("built_by_the_kit")
def test_code_for_the_best_level_runs(python):
    assert says_best_level(python, "-c", "import slh; print(slh._library.slh_level())", env=ENV)


# ---- types


@pytest.fixture
def mypy(tmp_path):
    need("mypy")
    return ["mypy", "--strict", "--cache-dir", tmp_path / "mypy"]


@pytest.mark.slow
def test_mypy_takes_the_package(mypy):
    package = HERE / "bindings/python"
    succeed(*mypy, *(package / "slh").glob("*.py"), env={**ENV, "MYPYPATH": str(package)})


@pytest.mark.slow
def test_mypy_takes_a_program(mypy, python):
    succeed(*mypy, "--python-executable", python, HERE / "bindings/python/tests/typed_program.py", env=ENV)


@pytest.mark.slow
def test_mypy_refuses_a_wrong_argument(mypy, python, tmp_path):
    (tmp_path / "wrong.py").write_text("import slh\nslh.SecretKey.generate(2.5)\n")
    assert refuses_to_build('Argument 1 to "generate"', *mypy, "--python-executable", python, tmp_path / "wrong.py",
                            env=ENV)
