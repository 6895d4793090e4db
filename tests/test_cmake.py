"""Builds programs over the library as CMake finds it: installed, or in a clone that FetchContent takes. A damaged
release is refused. `cmake --install` of a clone installs as tools/library.sh does."""
import re
import shutil

import pytest

import machines
from conftest import released, takes_dist
from packages import says_best_level
from support import HERE, need, run, succeed

OF_CMAKE = HERE / "bindings/cmake/tests"
LEVEL = '#include <slh.h>\n#include <stdio.h>\nint main(void) { return printf("%u\\n", slh_level()) < 0; }\n'
TARGETS = pytest.mark.parametrize("name", ["slh", "shared"])

pytestmark = pytest.mark.slow


@pytest.fixture(scope="module")
def image(tmp_path_factory):
    return machines.make_image(tmp_path_factory.mktemp("image"))


@pytest.fixture(scope="module")
def configures(installed):
    """Configures and builds a project that finds the package."""
    need("cmake", "cc")

    def makes(sources, built, *words):
        succeed("cmake", "-S", sources, "-B", built, f"-DCMAKE_PREFIX_PATH={installed}", *words)
        succeed("cmake", "--build", built, timeout=1800)
        return built

    return makes


@pytest.fixture(scope="module")
def built(configures, image, tmp_path_factory):
    """The folder of the programs of bindings/cmake/tests over each target."""
    return configures(OF_CMAKE, tmp_path_factory.mktemp("cmake") / "built", f"-DKEY={image.folder}")


def test_page_asks_for_this_version():
    version = ".".join((HERE / "VERSION").read_text().split(".")[:2])
    assert f"find_package(slh {version} REQUIRED)" in (HERE / "bindings/README.md").read_text()


@pytest.mark.parametrize("change, is_found", [((0, 0), True), ((0, 1), False), ((1, 0), False), ((-1, 16), False)])
def test_versions_that_are_found(installed, tmp_path, change, is_found):
    """A version of the same first number and no earlier one."""
    need("cmake", "cc")
    asked = ".".join(str(int(it) + more) for it, more in zip((HERE / "VERSION").read_text().split("."), change))
    (tmp_path / "CMakeLists.txt").write_text(
        f"cmake_minimum_required(VERSION 3.13)\nproject(asks C)\nfind_package(slh {asked} REQUIRED)\n")
    words = ["cmake", "-S", tmp_path, "-B", tmp_path / "built", f"-DCMAKE_PREFIX_PATH={installed}"]
    if is_found:
        succeed(*words)
    else:
        stops("compatible with requested version", *words)


SERVED = ["1.2.3", "1.2", "1", "1.0", "1.0...1.2.3", "1.0...1.3", "1.0...<1.2.4", "1.0...2"]
NOT_SERVED = ["1.3", "1.2.4", "2", "0.16", "12", "1.0...1.1", "1.0...1.2.2", "1.0...<1.2.3", "0.16...2"]


@pytest.mark.parametrize("asked", [*SERVED, *NOT_SERVED])
def test_later_minor_versions_serve(tmp_path, asked):
    """By the file that CMake reads, as version 1.2.3 would install it."""
    need("cmake")
    text = (HERE / "bindings/cmake/slh-config-version.cmake.in").read_text()
    (tmp_path / "slh-config-version.cmake").write_text(text.replace("@version@", "1.2.3").replace("@pointer@", "8"))
    (tmp_path / "slh-config.cmake").touch()
    (tmp_path / "asks.cmake").write_text(
        f'find_package(slh {asked} QUIET CONFIG PATHS "{tmp_path}" NO_DEFAULT_PATH)\nmessage("${{slh_FOUND}}")\n')
    said = run("cmake", "-P", tmp_path / "asks.cmake")
    assert said.status == 0 and said.errors.decode() == f"{int(asked in SERVED)}\n", said


@TARGETS
def test_vectors_over_target(pytestconfig, built, name):
    machines.vectors_through(pytestconfig, built / f"calls_{name}", few=True)


@pytest.mark.usefixtures("built_by_the_kit")
@TARGETS
def test_code_for_the_best_level_runs(configures, tmp_path, name):
    (tmp_path / "level.c").write_text(LEVEL)
    (tmp_path / "CMakeLists.txt").write_text(
        "cmake_minimum_required(VERSION 3.13)\nproject(level C)\nfind_package(slh REQUIRED)\n"
        f"add_executable(level level.c)\ntarget_link_libraries(level PRIVATE slh::{name})\n")
    assert says_best_level(configures(tmp_path, tmp_path / "built") / "level")


@pytest.mark.parametrize("name, asks", [("shared", True), ("slh", False)])
def test_library_that_a_program_asks_for(built, name, asks):
    need("readelf")
    needed = re.search(rb"NEEDED.*\[libslh\.so\.1\]", succeed("readelf", "-d", built / f"calls_{name}"))
    assert bool(needed) == asks


def test_verify_judges_images(built, image):
    machines.judges_images(image, built / "verify_image")


# ---- by FetchContent


@pytest.fixture(scope="module")
def fetches(image):
    """Configures the project that takes a CLONE by FetchContent, and builds it in a folder."""
    need("cmake", "cc")

    def makes(clone, built, *words):
        succeed(*words_of_cmake(image, clone, built), *words)
        succeed("cmake", "--build", built, "--parallel", "2", timeout=1800)
        return built

    return makes


def words_of_cmake(image, clone, built):
    return ["cmake", "-S", OF_CMAKE / "fetched", "-B", built, f"-DCLONE={clone}", f"-DSOURCES={HERE}",
            f"-DKEY={image.folder}", "-DCMAKE_C_FLAGS=-O1"]


def stops(text, *words):
    """A command of CMake fails, and says this."""
    done = run(*words)
    assert done.status != 0 and text in " ".join(done.errors.decode().split()), done


@pytest.fixture(scope="module")
def of_prefix(fetches, installed, tmp_path_factory):
    """The folder of the programs over an installed library."""
    return fetches(HERE, tmp_path_factory.mktemp("fetched") / "prefix", f"-DSLH_PREFIX={installed}")


@TARGETS
def test_vectors_over_fetched_prefix(pytestconfig, of_prefix, name):
    machines.vectors_through(pytestconfig, of_prefix / f"calls_{name}", few=True)


def test_fetched_prefix_judges_images(of_prefix, image):
    machines.judges_images(image, of_prefix / "verify_image")


def test_fetched_prefix_is_the_given_one(of_prefix, installed):
    assert f"{installed}/lib/libslh.a" in (of_prefix / "CMakeFiles/calls_slh.dir/link.txt").read_text()


def test_fetched_prefix_without_a_library_is_refused(fetches, image, tmp_path):
    stops("slh-config.cmake", *words_of_cmake(image, HERE, tmp_path / "built"), f"-DSLH_PREFIX={tmp_path}")


# ---- over a release


@pytest.fixture(scope="module")
def dist(pytestconfig, release):
    """The release, which has to be of these sources: the programs make each call."""
    if not takes_dist(pytestconfig) or released(pytestconfig, "has_sources_of_release") is None:
        pytest.skip("no release of these sources is tested (--release=FOLDER)")
    return release


def clone_of(dist, folder):
    """A clone whose dist/ is the release."""
    folder.mkdir()
    shutil.copy(HERE / "CMakeLists.txt", folder)
    shutil.copytree(dist, folder / "dist")
    return folder


@pytest.fixture(scope="module")
def whole(dist, tmp_path_factory):
    """A clone with the release, and with all that it takes to install."""
    clone = clone_of(dist, tmp_path_factory.mktemp("whole") / "clone")
    for it in ("VERSION", "tools", "bindings/cmake", "bindings/debian"):
        (clone / it).parent.mkdir(exist_ok=True)
        (shutil.copytree if (HERE / it).is_dir() else shutil.copy)(HERE / it, clone / it)
    return clone


@pytest.fixture(scope="module")
def of_release(fetches, whole, tmp_path_factory):
    """The folder of the programs over a clone with the release."""
    return fetches(whole, tmp_path_factory.mktemp("fetched") / "built")


@pytest.mark.parametrize("name", ["slh", "shared", "portable"])
def test_vectors_over_fetched_release(pytestconfig, of_release, name):
    machines.vectors_through(pytestconfig, of_release / f"calls_{name}", few=True)


def test_fetched_release_judges_images(of_release, image):
    machines.judges_images(image, of_release / "verify_image")


def damage(path):
    with open(path, "a") as file:
        file.write("x")


def add_header(path):
    path.write_text("#include_next <string.h>\n")


def forget(path):
    """Takes a file out of the list of hashes."""
    sums = path.parent.parent / "SHA256SUMS"
    sums.write_text(re.sub(rf".*  {path.parent.name}/{path.name}\n", "", sums.read_text()))


DAMAGED = ["x86-64/libslh.a", "x86-64/libslh.so.1", "x86-64-v2/libslh_verify.a", "portable/slh.c", "include/slh.h"]


@pytest.mark.parametrize("file, change", [*((it, damage) for it in DAMAGED), ("include/string.h", add_header),
                                          ("x86-64/libslh.a", type(HERE).unlink), ("x86-64/libslh.a", forget)])
def test_fetched_release_that_is_damaged_is_refused(fetches, dist, image, tmp_path, file, change):
    """A changed file, one that is missing, and one without a hash, which a header may not be, either."""
    clone = clone_of(dist, tmp_path / "clone")
    change(clone / "dist" / file)
    stops(f"dist/{file}", *words_of_cmake(image, clone, tmp_path / "built"))


# ---- what a clone installs


@pytest.fixture(scope="module")
def installing(whole, tmp_path_factory):
    """The folder in which a clone is configured to be installed."""
    need("cmake", "cc")
    folder = tmp_path_factory.mktemp("installing") / "built"
    succeed("cmake", "-S", whole, "-B", folder)
    return folder


@pytest.fixture(scope="module")
def by_script(dist, tmp_path_factory):
    """The folder into which tools/library.sh installs."""
    folder = tmp_path_factory.mktemp("by_script") / "prefix"
    succeed(HERE / "tools/library.sh", "--dist", dist, folder)
    return folder


def test_clone_has_the_version(installing, dist):
    version = re.search("^version (.*)$", (dist / "BUILD").read_text(), re.M)[1]
    assert f"\nCMAKE_PROJECT_VERSION:STATIC={version}\n" in (installing / "CMakeCache.txt").read_text()


def test_clone_installs_as_the_script_does(installing, by_script, tmp_path):
    succeed("cmake", "--install", installing, "--prefix", tmp_path / "by_cmake")
    succeed("diff", "-r", tmp_path / "by_cmake", by_script)


def test_clone_installs_below_destdir(installing, by_script, tmp_path):
    succeed("env", f"DESTDIR={tmp_path}", "cmake", "--install", installing, "--prefix", "/usr")
    succeed("diff", "-r", tmp_path / "usr", by_script)


def test_project_over_a_clone_installs_nothing_of_it(of_release, tmp_path):
    succeed("cmake", "--install", of_release, "--prefix", tmp_path / "of_user")
    assert not (tmp_path / "of_user/include/slh.h").exists()


def test_clone_that_is_damaged_installs_nothing(installing, whole, dist, tmp_path):
    """The release is damaged after the clone was configured."""
    damage(whole / "dist/x86-64/libslh.a")
    try:
        stops("has installed nothing", "cmake", "--install", installing, "--prefix", tmp_path / "to")
    finally:
        shutil.copy(dist / "x86-64/libslh.a", whole / "dist/x86-64")
    assert not (tmp_path / "to/lib/libslh.a").exists()
