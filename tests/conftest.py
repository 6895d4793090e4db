"""The fixtures of the tests, the options of pytest, and the report at its end.

    pytest                          tests the release in dist/, or what is built of changed sources if rt is there
    pytest -k verify                those tests whose names have this word
    pytest -m "not slow"            a few tests of each kind
    pytest --program=PROGRAM        tests another program `slh`

Write `=`: pytest reads this file after the words, and would take PROGRAM for a test. The last line is
`N passed, M failed, K skipped`.
"""
import collections
import hashlib
import os
import pathlib
import platform
import random
import re
import shlex
import shutil
import sys

import pytest

pytest.register_assert_rewrite("packages", "browsers", "archives", "key_forms")

from copies import Copy
from debian_roots import Root, make_base, need_roots
from provider import Provider, compiled_calls, development_of
from support import HERE, VECTORS, drawn, need, run, succeed

try:
    import tomllib
except ImportError:  # Python before 3.11: no budget is looked at
    tomllib = None

STRICT = ("-Wall", "-Wextra", "-Werror", "-pedantic")


# ---- options


def pytest_addoption(parser):
    group = parser.getgroup("slh")
    group.addoption("--release", metavar="FOLDER", help="the release to test (with =; default: as ./slh chooses)")
    group.addoption("--program", metavar="PROGRAM", help="the program `slh` to test")
    group.addoption("--python", metavar="FOLDER", help="tests `python -m slh` of the package in FOLDER by its commands")
    group.addoption("--prefix", metavar="FOLDER", help="the installed library to test (default: it is installed)")
    group.addoption("--vectors", metavar="FOLDER", default=str(VECTORS), help="vector files (default: tests/vectors)")
    group.addoption("--all", action="store_true", help="draw nothing, and run what is drawn otherwise")
    group.addoption("--one", action="store_true", help="run the first test of each file alone, for a new machine")
    group.addoption("--write", action="store_true", help="write measured numbers: tests/instructions.txt, c/exports/depths")


def chosen_release(config):
    """The folder that --release names, or none."""
    return pathlib.Path(config.option.release).resolve() if config.option.release else None


def pytest_configure(config):
    seed = "all" if config.option.all else os.environ.get("SLH_SEED") or str(random.getrandbits(30))
    os.environ["SLH_SEED"] = seed
    release, program = config.option.release, config.option.program
    if release and not all((pathlib.Path(release) / it).is_file() for it in ("BUILD", "SHA256SUMS")):
        raise pytest.UsageError("--release needs a folder that has a release")
    if program and not is_program(program):
        raise pytest.UsageError(f"there is no program that can be run: {program}")
    if config.option.python and not (pathlib.Path(config.option.python) / "slh").is_dir():
        raise pytest.UsageError("--python needs a folder that has the package slh")


def is_program(path):
    """Whether this is a program that can be run here."""
    try:
        return run(path, "params").output != b""
    except OSError:
        return False


def released(config, function, *words):
    """The lines that a function of tools/released.sh prints, or None if its status is not 0."""
    script = 'here=$0 && . "$here/tools/released.sh" && dist=$1 && "${@:2}"'
    done = run("bash", "-c", script, HERE, chosen_release(config) or HERE / "dist", function, *words)
    return done.output.decode().splitlines() if done.status == 0 else None


def takes_dist(config):
    """Whether the release is tested, and not what is built here: as ./slh and tools/library.sh choose."""
    return bool(config.option.release) or released(config, "takes_release") is not None


def pytest_report_header(config):
    version = "".join(released(config, "release_says", "version") or ["that is missing"])
    built = f"the release {version}" if takes_dist(config) else "what is built of the sources"
    lines = [f"tested: {config.option.program or built}, drawn by SLH_SEED={os.environ['SLH_SEED']}"]
    if released(config, "has_sources_of_release") is None:
        lines.append("the sources are NOT those that the release was built of")
    return lines


# ---- which tests are run


def is_chosen_by_name(config):
    """Whether somebody asks for single tests, of which none is left to a draw then."""
    return bool(config.option.keyword or config.getoption("lf", False)) or any("::" in it for it in config.args)


# Which markers a test has because it takes a fixture.
MARKERS_OF_FIXTURE = {"program": ["program"], "kit": ["kit"], "emulated": ["emulator"], "oracle": ["oracle"],
                      "debian": ["debian", "release", "slow"]}


@pytest.hookimpl(tryfirst=True)
def pytest_itemcollected(item):
    for fixture, markers in MARKERS_OF_FIXTURE.items():
        for marker in markers if fixture in item.fixturenames else ():
            item.add_marker(marker)


@pytest.hookimpl(hookwrapper=True)
def pytest_make_collect_report(collector):
    """A file that has no test has failed: its tests may have lost their names."""
    outcome = yield
    report = outcome.get_result()
    if isinstance(collector, pytest.Module) and report.passed and not report.result:
        report.outcome, report.longrepr = "failed", f"{collector.nodeid}: it has no test"


def leave(config, items, left):
    """Runs these items alone, in place of all."""
    config.hook.pytest_deselected(items=[it for it in items if it not in left])
    items[:] = left


@pytest.hookimpl(trylast=True)
def pytest_collection_modifyitems(config, items):
    """Leaves out what is not drawn. It is the last one, so that --one takes a test that no other option leaves out."""
    leave(config, items, [it for it in items if all(is_asked_for(config, it, m) for m in it.iter_markers("asked"))])
    if os.environ["SLH_SEED"] != "all" and not is_chosen_by_name(config):
        leave_what_is_drawn(config, items)
    if config.option.one:
        leave(config, items, list({it.path: it for it in reversed(items)}.values())[::-1])


def is_asked_for(config, item, mark):
    """Whether -k has the whole name of this case, or its file or node id is given, or it failed before and --lf is
    given."""
    name, words = item.callspec.params[mark.args[0]], re.findall(r"[\w/]+", config.option.keyword)
    if {name, name.rpartition("/")[2]} & {*words}:
        return True
    if config.getoption("lf", False):
        return item.nodeid in config.cache.get("cache/lastfailed", {})
    return any(pathlib.Path(it.split("::")[0]).resolve() == item.path for it in config.args)


def leave_what_is_drawn(config, items):
    parts = collections.defaultdict(list)
    for item in items:
        for mark in item.iter_markers("drawn"):
            parts[mark.args[0]] += [it for it in [drawn_part(item, mark)] if it not in parts[mark.args[0]]]
    taken = {name: drawn(os.environ["SLH_SEED"], name, found) for name, found in parts.items()}
    leave(config, items, [it for it in items
                          if all(drawn_part(it, m) in taken[m.args[0]] for m in it.iter_markers("drawn"))])


def drawn_part(item, mark):
    return item.callspec.params[mark.args[1]]


# ---- the report at the end


def processor_seconds():
    return sum(os.times()[:4])


def pytest_runtest_setup(item):
    item.processor_seconds = processor_seconds()


@pytest.hookimpl(hookwrapper=True)
def pytest_runtest_makereport(item, call):
    outcome = yield
    report = outcome.get_result()
    if call.when == "teardown":
        taken = processor_seconds() - getattr(item, "processor_seconds", processor_seconds())
        report.user_properties.append(("processor seconds", taken))
    fault = report.skipped and not hasattr(report, "wasxfail") and fault_of_skip(cause(report))
    if fault:
        report.outcome, report.longrepr = "failed", fault


def fault_of_skip(why):
    """Why a test may not be skipped for a cause: it says nothing, or a tool that setup.sh installs is missing, although
    the test command has found that none is (SLH_TOOLS). What one release of Debian alone has may be missing."""
    if why in ("Skipped", "unconditional skip"):
        return "it was skipped without a cause"
    if os.environ.get("SLH_TOOLS") == "all" and is_cured_by_setup(why):
        return f"it was skipped, since {why}: but tools/setup.sh finds that no tool is missing"
    return None


def is_cured_by_setup(why):
    """Whether the brackets of a cause name tools/setup.sh, or a package that it installs."""
    cure = "".join(re.findall(r"\((.*)\)", why))
    lists = re.findall(r'^of_\w+="(.*?)"', (HERE / "tools/setup.sh").read_text(), re.M | re.S)
    packages = {*" ".join(lists).split()}
    named = "to be had by" in cure and "Debian 1" not in cure and packages & {*re.findall(r"[\w.+-]+", cure)}
    return bool(named) or "tools/setup.sh" in cure


class Told:
    """The data of the report: processor seconds by file, failures, skipped tests by file and cause, and the number of
    tests that have ended."""

    def __init__(self):
        self.seconds, self.failures, self.skips, self.ended = collections.Counter(), [], collections.Counter(), 0

    def take(self, report):
        file = report.nodeid.split("::")[0]
        if report.when == "teardown":
            self.ended += 1
            self.seconds[file] += dict(report.user_properties).get("processor seconds", 0)
        if report.failed:
            self.failures.append(report)
        elif report.skipped:
            self.skips[file, cause(report)] += 1


told = Told()


def cause(report):
    why = report.longrepr[2] if isinstance(report.longrepr, tuple) else str(report.longrepr)
    return why.removeprefix("Skipped: ")


def pytest_runtest_logreport(report):
    told.take(report)


def pytest_collectreport(report):
    if report.failed:
        told.failures.append(report)


def alone(config, report):
    """The command that runs one test, as it was run here."""
    given = {it: config.getoption(it) for it in ("release", "program", "python", "prefix")}
    options = [f"--{it}={value}" for it, value in given.items() if value]
    return shlex.join(["pytest", *options, report.nodeid])


def note_failures(config):
    """Notes each failure for the test command, which prints all of them at its end. Of two processes the first does."""
    if not os.environ.get("SLH_FAILURES") or hasattr(config, "workerinput"):
        return
    with open(os.environ["SLH_FAILURES"], "a") as file:
        for report in told.failures:
            crash = getattr(report.longrepr, "reprcrash", None)
            print(f"{report.nodeid}: {crash.message.splitlines()[0] if crash else 'no'}", file=file)
            print(f"    alone: {alone(config, report)}", file=file)


def budgets():
    """The processor minutes that tests/budgets.toml grants each file in this mode of the test command."""
    if not tomllib:
        return {}
    tables = tomllib.loads((HERE / "tests/budgets.toml").read_text())
    return {**tables.get("whole", {}), **tables.get(os.environ.get("SLH_MODE", "release"), {})}


def spent_before():
    """The processor seconds of the parts that the test command has run before pytest."""
    path = pathlib.Path(os.environ.get("SLH_SPENT") or os.devnull)
    lines = [it.split(maxsplit=1) for it in path.read_text().splitlines()] if path.exists() else []
    return {name: float(seconds) for seconds, name in lines}


def pytest_terminal_summary(terminalreporter, config):
    granted = budgets()
    for file, seconds in sorted({**spent_before(), **told.seconds}.items()):
        over = ": OVER ITS BUDGET" if seconds > 60 * granted.get(file, seconds) else ""
        of = f" of {granted[file]}" if file in granted else ""
        terminalreporter.write_line(f"{file}: {seconds / 60:.2f}{of} processor minutes{over}")
    for (file, why), count in sorted(told.skips.items()):
        terminalreporter.write_line(f"{file}{f', {count} tests' * (count > 1)}: SKIPPED, since {why}")
    note_failures(config)


def pytest_sessionfinish(session, exitstatus):
    """A session that ended before each test was run has failed, whatever its status is."""
    if exitstatus == 0 and told.ended < session.testscollected and not session.config.option.collectonly:
        session.exitstatus = pytest.ExitCode.TESTS_FAILED


@pytest.hookimpl(trylast=True)
def pytest_unconfigure(config):
    """Prints the counts as the last line, as all commands of the tests do."""
    reporter = config.pluginmanager.get_plugin("terminalreporter")
    if not reporter or hasattr(config, "workerinput") or config.option.collectonly:
        return
    count = collections.Counter()
    for word, counted in {"passed": "passed", "failed": "failed", "error": "failed", "skipped": "skipped"}.items():
        count[counted] += len(reporter.getreports(word))
    if count:
        reporter.write_line(f"{count['passed']} passed, {count['failed']} failed, {count['skipped']} skipped")


# ---- what is tested


@pytest.fixture(scope="session")
def release(pytestconfig):
    """The folder of the release that is tested."""
    if released(pytestconfig, "has_release") is None:
        pytest.skip("there is no release in dist/ (git checkout dist)")
    return chosen_release(pytestconfig) or HERE / "dist"


@pytest.fixture(scope="session")
def program(pytestconfig):
    """The path of the program `slh` that is tested: as ./slh chooses, if neither --release nor --program says which."""
    if pytestconfig.option.program:
        return str(pathlib.Path(pytestconfig.option.program).resolve())
    if takes_dist(pytestconfig):
        found = released(pytestconfig, "programs_here")
        if not found:
            pytest.skip("the release has no program for this processor (it takes x86-64-v2)")
        return found[0]
    # A first build proves all crates for an hour: nobody expects that of a test.
    built = HERE / "out/program/x86-64-v2/slh"
    if not built.exists():
        pytest.fail("the sources are not those of dist/: build the program by ./slh params, or give --release=dist")
    succeed(HERE / "slh", "params", timeout=7200)
    return str(built)


@pytest.fixture(scope="session")
def slh(program):
    """Runs the program: slh(WORD.., stdin=BYTES OR FILE) is its Outcome."""

    def runs(*words, **options):
        return run(program, *words, **options)

    return runs


def is_dist_of_other_sources(config):
    """Whether the library is that of dist/, and the sources are others, so that it may lack calls of the tests."""
    is_dist = chosen_release(config) in (None, HERE / "dist") and takes_dist(config)
    return not config.option.prefix and is_dist and released(config, "has_sources_of_release") is None


def install_library(config, target, prefix):
    """Installs the library for a target, of the release or as it is built: its prefix."""
    if config.option.prefix and target == "x86-64":
        return pathlib.Path(config.option.prefix).resolve()
    dist = ["--dist", chosen_release(config)] if config.option.release else []
    succeed(HERE / "tools/library.sh", *dist, "--target", target, prefix, timeout=7200)
    return prefix


def skip_over_other_sources(config):
    if is_dist_of_other_sources(config):
        pytest.skip("the sources are not those of dist/ (the Rattle kit builds them)")


@pytest.fixture(scope="session")
def of_these_sources(pytestconfig):
    """Skips the test if an older release is tested: it lacks calls that some tests need."""
    if not pytestconfig.option.program:
        skip_over_other_sources(pytestconfig)


@pytest.fixture(scope="session")
def install(pytestconfig, tmp_path_factory):
    """Installs the library for a target, once: install(TARGET) is the prefix."""
    prefixes = {}

    def installs(target="x86-64"):
        skip_over_other_sources(pytestconfig)
        if target not in prefixes:
            prefixes[target] = install_library(pytestconfig, target, tmp_path_factory.mktemp("prefix") / target)
        return prefixes[target]

    return installs


def has_libraries_here():
    """Whether the library is for this machine."""
    return platform.machine() == "x86_64" and platform.system() == "Linux"


@pytest.fixture(scope="session")
def installed(install):
    """The prefix into which the library for this machine is installed."""
    if not has_libraries_here():
        pytest.skip("the library is for Linux on x86-64 (other machines take slh.c, docs/MACHINES.md)")
    return install()


def is_from_source(prefix):
    """Whether stock rustc built the library of a prefix (tools/library.sh --from-source)."""
    words = prefix / "lib/pkgconfig/slh.pc"
    return words.exists() and "\nbuild=built from source" in words.read_text()


@pytest.fixture(scope="session")
def built_by_the_kit(pytestconfig):
    """Skips the test if the library was built from source: it lacks the tested feature."""
    prefix = pytestconfig.option.prefix
    if prefix and is_from_source(pathlib.Path(prefix)):
        pytest.skip("the library was built from source (tools/plain_rust/README.md tells what it lacks)")


@pytest.fixture(scope="session")
def installed_as_is(pytestconfig, install, tmp_path_factory):
    """The same for examples that make no new call: it is also that of dist/ if the sources are others."""
    if not has_libraries_here():
        pytest.skip("the library is for Linux on x86-64 (other machines take slh.c, docs/MACHINES.md)")
    if not is_dist_of_other_sources(pytestconfig):
        return install()
    return install_library(pytestconfig, "x86-64", tmp_path_factory.mktemp("prefix") / "as_is")


@pytest.fixture(scope="session")
def python_package(installed_as_is, tmp_path_factory):
    """A folder for PYTHONPATH, which has the package slh over the library."""
    folder = tmp_path_factory.mktemp("python")
    shutil.copytree(HERE / "bindings/python/slh", folder / "slh")
    shutil.copy(installed_as_is / "lib/libslh.so", folder / "slh/libslh.so.1")
    return folder


@pytest.fixture(scope="module")
def chosen(request):
    """The values of a parameter in those selected tests of a file that have these others: chosen(NAME, OTHER=VALUE)."""

    def values(name, **others):
        mine = [it for it in request.session.items if it.path == request.path and hasattr(it, "callspec")]
        params = [it.callspec.params for it in mine]
        return [it[name] for it in params if name in it and others.items() <= it.items()]

    return values


@pytest.fixture(scope="session")
def kit():
    """The command `rt` of the kit."""
    need("rt")
    return "rt"


@pytest.fixture(scope="session")
def include(installed):
    """The folder of the installed headers."""
    return installed / "include"


@pytest.fixture(scope="session")
def lib(installed):
    """The folder of the installed libraries."""
    return installed / "lib"


@pytest.fixture
def file_system(tmp_path):
    """Mounts a small file system: file_system(SIZE) is its folder."""
    mounted = []

    def mount(size):
        need("mount")
        path = tmp_path / "disk"
        path.mkdir()
        if run("mount", "-t", "tmpfs", "-o", f"size={size}", "none", path).status:
            pytest.skip("a tmpfs can't be mounted (run it as root)")
        mounted.append(path)
        return path

    yield mount
    for it in mounted:
        succeed("umount", it)


@pytest.fixture(scope="session")
def checked(pytestconfig, kit):
    """The work of `rt ci` or of checks. Beside a release tools/test.sh alone tests it, which has run `rt ci`."""
    if pytestconfig.option.release and os.environ.get("SLH_MODE") != "whole":
        pytest.skip("this is of the sources, and a release is tested (without --release)")


@pytest.fixture(scope="session")
def oracle():
    """The command `openssl` of a version that has SLH-DSA: OPENSSL names it, or tools/setup.sh installs it."""
    beside = os.environ["PATH"] + ":/usr/local/bin"
    given = [os.environ["OPENSSL"]] if os.environ.get("OPENSSL") else ["openssl-3.5", "openssl"]
    for command in given:
        path = run("bash", "-c", 'PATH=$0 command -v "$1"', beside, command).output.decode().strip()
        if path and b"SLH-DSA-SHA2-128f" in run(path, "list", "-signature-algorithms").output:
            return path
    pytest.skip("no openssl here has SLH-DSA: it takes 3.5 or later (tools/setup.sh installs it as openssl-3.5)")


@pytest.fixture(scope="session")
def wine(tmp_path_factory):
    """The command that runs programs for Windows, with a folder of its own."""
    need("wine")
    folder = tmp_path_factory.mktemp("wine")
    words = ["env", f"WINEPREFIX={folder}", "WINEDEBUG=-all", "WINEDLLOVERRIDES=mscoree,mshtml=",
             f"XDG_RUNTIME_DIR={folder}"]
    run(*words, "wine", "cmd", "/c", "exit")  # which makes what wine has in its folder
    yield [*words, "wine"]
    run(*words, "wineserver", "-k")


@pytest.fixture(scope="session")
def venv(tmp_path_factory):
    """The folder with the programs of an environment of Python that builds wheels without a network. It is that of this
    Python, or of Debian's if this one lacks what it takes."""
    for python in (sys.executable, "/usr/bin/python3"):
        if shutil.which(python) and run(python, "-c", "import setuptools, venv, wheel").status == 0:
            folder = tmp_path_factory.mktemp("venv")
            succeed(python, "-m", "venv", "--system-site-packages", folder)
            return folder / "bin"
    pytest.skip("there is no Python with setuptools and wheel (to be had by python3-setuptools and python3-wheel)")


# ---- copies of the repository


@pytest.fixture
def copy(release, tmp_path):
    """A copy of the repository, with the release in dist/."""
    made = Copy(tmp_path / "work", release)
    yield made
    made.remove()


@pytest.fixture(scope="module")
def copy_of_module(release, tmp_path_factory):
    """A copy for all tests of a file, which change its dist/ alone, and take the release first."""
    made = Copy(tmp_path_factory.mktemp("copy") / "work", release)
    yield made
    made.remove()


@pytest.fixture(scope="session")
def can_unshare():
    """Other mounts and roots can be made."""
    need("unshare")
    if run("unshare", "-rm", "true").status:
        pytest.skip("unshare is refused (run it as root, or allow user namespaces)")


# The root has this system's programs, and the copy as /copy. Nothing else of this one.
MOUNTED = "usr etc var dev proc bin sbin lib lib32 lib64"
ENTER = f"""
for it in {MOUNTED}; do
    if [ -L "/$it" ]; then cp -a "/$it" "$0/$it"; elif [ -d "/$it" ]; then
        mkdir -p "$0/$it" && mount --rbind "/$it" "$0/$it"
    fi
done
mkdir -p "$0/tmp" "$0/copy" && mount --bind "$1" "$0/copy"
exec chroot "$0" /usr/bin/env -i PATH=/usr/bin:/bin bash -c "! command -v rt && exec bash /copy/try.sh"
"""


@pytest.fixture
def in_another_root(copy, can_unshare, tmp_path):
    """Runs a script of bash in a root in which no kit is, and the copy is /copy."""

    def runs(text):
        (copy.path / "try.sh").write_text(text)
        (tmp_path / "root").mkdir(exist_ok=True)
        return run("unshare", "-rm", "bash", "-c", ENTER, tmp_path / "root", copy.path)

    return runs


# ---- programs in C


def cache_folder(tmp_path_factory):
    """The folder of compiled programs: out/tests at the top, or one of this run if that can't be written."""
    folder = HERE / "out/tests"
    try:
        folder.mkdir(parents=True, exist_ok=True)
    except OSError:
        pass
    return folder if os.access(folder, os.W_OK) else tmp_path_factory.mktemp("compiled")


def make_once(folder, part, make):
    """Makes a folder that stays, as PART at first: a run that is killed leaves it unmade. Of two runs the first one's
    is taken."""
    if folder.exists():
        return
    shutil.rmtree(part, ignore_errors=True)
    make(part)
    try:
        part.rename(folder)
    except OSError:
        shutil.rmtree(part)
        if not folder.exists():
            raise


def without_folders(words):
    """The words of a compiler without -I and its folder, whose headers are in the text, and without files."""
    words = [str(it) for it in words]
    of_folder = {at + 1 for at, it in enumerate(words) if it == "-I"}
    return [it for at, it in enumerate(words) if it != "-I" and at not in of_folder and not os.path.isfile(it)]


def content_of(cc, words):
    """The SHA-256 of all that a compilation depends on: compiler, options, texts with headers, libraries, and scripts
    of the linker."""
    linked = [it for it in words if str(it).endswith((".a", ".o", ".so", ".lib"))]
    scripts = [it for it in words if str(it).endswith(".ld")]
    # Here clang warns of words for the linker.
    text = succeed(cc, "-E", "-P", *[it for it in words if it not in linked], "-Wno-unused-command-line-argument")
    total = hashlib.sha256(repr(without_folders(words)).encode() + succeed(cc, "--version") + text)
    for it in [*linked, *scripts]:
        total.update(pathlib.Path(it).read_bytes())
    return total.hexdigest()


@pytest.fixture(scope="session")
def compiled(tmp_path_factory):
    """Compiles a program in C, or takes it as it was compiled before: compiled(NAME, WORD.., cc=COMPILER) is its path.
    Each -I is a word of its own, and libraries are given by their paths."""
    folder = cache_folder(tmp_path_factory)

    def compiles(name, *words, cc=os.environ.get("CC", "cc")):
        need(cc)
        path = folder / content_of(cc, words) / name
        if not path.exists():
            path.parent.mkdir(exist_ok=True)
            part = path.with_suffix(f".{os.getpid()}")
            succeed(cc, *words, "-o", part, timeout=3600)
            part.replace(path)
        return path

    return compiles


@pytest.fixture(scope="session")
def provider(installed, oracle, compiled, tmp_path_factory):
    """The provider `slh` for OpenSSL, built over a copy of the library."""
    prefix = tmp_path_factory.mktemp("provider") / "prefix"
    shutil.copytree(installed, prefix, symlinks=True)
    made = Provider(prefix, oracle, development_of(oracle), compiled_calls(compiled, prefix / "include"))
    made.build(prefix)
    return made


# ---- a Debian of its own


def skip_unless_asked(config):
    """Skips what is run before a release alone, unless somebody asks for it: by --all, by its marker or by its name."""
    by_marker = config.option.markexpr in ("release", "debian")
    if not (config.option.all or by_marker or is_chosen_by_name(config)):
        pytest.skip("it makes a Debian, and is run before a release (pytest --all)")


@pytest.fixture(scope="session")
def debians(tmp_path_factory):
    """Makes a Debian with some packages: debians(NAME, PACKAGE..) is its Root. What it is made of stays in out/tests,
    by the list of packages, and what a test changes is removed."""
    need_roots()
    kept, made = cache_folder(tmp_path_factory), []

    def makes(name, *packages):
        base = kept / f"debian-{name}-{hashlib.sha256(repr(packages).encode()).hexdigest()[:16]}"
        make_once(base, kept / f"debian.{os.getpid()}", lambda part: make_base(part, name, packages))
        made.append(tmp_path_factory.mktemp("debian"))
        return Root(made[-1] / "it", name, base / "root")

    yield makes
    for it in made:
        shutil.rmtree(it)


@pytest.fixture(scope="session")
def asked_for_debian(pytestconfig):
    skip_unless_asked(pytestconfig)


@pytest.fixture(scope="session")
def debian(asked_for_debian, debians):
    """The same for tests that are run before a release alone."""
    return debians
