"""Tests tools/test.sh and the harness that it runs (parts.py, conftest.py). Whatever fails, ends early or is skipped
has to be seen at its end. A small repository has stubs in place of the parts that need rt, and one file of tests."""
import hashlib
import os
import re
import shutil

import pytest

from conftest import content_of, make_once
from copies import WITHOUT_KIT, script, skip_beside_kit
from support import HERE, need, run

HARNESS = [
    ".ci/run", "pytest.ini", "tools/test.sh", "tools/released.sh", "tests/budgets.toml", "tests/conftest.py",
    "tests/copies.py", "tests/debian_roots.py", "tests/parts.py", "tests/provider.py", "tests/support.py"]
OF_KIT = ["wrong_bodies.py", "tested_bodies.py"]
MOST_MINUTES = 150
FOUR = 'echo "4 passed, 0 failed"\n'
STUB = '#!/bin/sh\necho "${0##*/} $*" >>"$HOME/called"\n'
TESTS_OF_PYTEST = "import pytest\ndef test_right(): pass\n"


class Small:
    """A small repository with the test command."""

    def __init__(self, folder):
        self.path, self.called = folder / "small", folder / "called"
        for file in HARNESS:
            (self.path / file).parent.mkdir(parents=True, exist_ok=True)
            shutil.copy(HERE / file, self.path / file)
        script(self.path / "tools/sources.sh", "#!/bin/sh\necho x\n")
        script(self.path / "tools/setup.sh", '#!/bin/sh\n[ "$1" = --missing ]\n')
        for it in OF_KIT:
            script(self.path / "tests" / it, STUB + FOUR)
        self.write("tests/test_vectors.py", TESTS_OF_PYTEST)
        self.write("dist/BUILD", "version 0\nsources x\n")
        self.write("dist/SHA256SUMS", "")

    def write(self, file, text):
        (self.path / file).parent.mkdir(parents=True, exist_ok=True)
        (self.path / file).write_text(text)

    def add_kit(self, rt=FOUR, release=FOUR):
        """Stubs of rt, and of tools/release.sh, which makes a release."""
        script(self.path / "kit/rt", STUB + rt)
        script(self.path / "tools/release.sh", STUB + "mkdir out out/release\ncp dist/* out/release\n" + release)

    def run(self, *words, command="tools/test.sh", **variables):
        """The status of the test command, and its lines."""
        env = {"HOME": str(self.called.parent), "PATH": f"{self.path / 'kit'}:{WITHOUT_KIT}", **variables}
        done = run(command, *words, cwd=self.path, env=env)
        return done.status, (done.errors + done.output).decode().splitlines()

    def calls(self):
        """How the stubs were called, in order."""
        return self.called.read_text().splitlines() if self.called.exists() else []


@pytest.fixture
def small(tmp_path):
    skip_beside_kit()
    return Small(tmp_path)


def failures(lines):
    """What is listed at the end, under `failed:`."""
    return lines[lines.index("failed:") + 1:-1] if "failed:" in lines else []


def skips(lines):
    return sorted(it for it in lines if "SKIPPED, since " in it)


# ---- what is run


def test_release_is_tested_without_rt(small):
    """Over dist/. The parts that need rt are skipped by name."""
    status, lines = small.run("--no-setup")
    assert small.calls() == [] and "== pytest --release=dist" in lines
    assert (status, lines[-1]) == (0, "1 passed, 0 failed, 3 skipped")
    names = ["rt ci", *(f"tests/{it}" for it in OF_KIT)]
    assert skips(lines) == sorted(f"{it}: SKIPPED, since there is no rt" for it in names)


@pytest.mark.slow
def test_release_is_tested_beside_rt(small):
    small.add_kit()
    status, lines = small.run("--no-setup", "--release")
    assert small.calls() == [] and (status, lines[-1]) == (0, "1 passed, 0 failed, 3 skipped")


@pytest.mark.slow
def test_few_tests_of_each_kind(small):
    small.write("tests/test_vectors.py", TESTS_OF_PYTEST + "@pytest.mark.slow\ndef test_wrong(): assert False\n")
    status, lines = small.run("--no-setup", "--few")
    assert "== pytest -m 'not slow' --release=dist" in lines
    assert (status, lines[-1]) == (0, "1 passed, 0 failed, 3 skipped")


@pytest.mark.slow
def test_one_test_of_each_file(small):
    """For a new machine, which shows what only it can show."""
    small.write("tests/test_vectors.py", TESTS_OF_PYTEST + "def test_wrong(): assert False\n")
    status, lines = small.run("--no-setup", "--few", PYTEST_ADDOPTS="--one")
    assert (status, lines[-1]) == (0, "1 passed, 0 failed, 3 skipped")


def test_release_of_rt_ci_is_tested_once(small):
    """`rt ci` and the release come first. Then each part runs once, and pytest over that release."""
    small.add_kit()
    status, lines = small.run("--no-setup")
    assert small.calls() == [
        "rt ci", "release.sh --after-ci --check out/release", "wrong_bodies.py --gate", "tested_bodies.py --few"]
    assert len([it for it in lines if re.match("== pytest .*--release=out/release$", it)]) == 1
    assert (status, lines[-1]) == (0, "17 passed, 0 failed, 0 skipped")


@pytest.mark.slow
def test_program_is_tested_quickly(small):
    small.add_kit()
    script(small.path / "slh", STUB)
    script(small.path / "out/program/x86-64-v2/slh", "#!/bin/sh\necho 128f\n")
    small.write("tests/test_vectors.py", TESTS_OF_PYTEST.replace("def", "@pytest.mark.quick\ndef"))
    status, lines = small.run("--no-setup", "--quick")
    assert small.calls() == ["slh params", "wrong_bodies.py --changed"]
    assert (status, lines[-1]) == (0, "6 passed, 0 failed, 0 skipped")


@pytest.mark.slow
def test_program_that_is_not_built_is_a_failure(small):
    small.add_kit()
    script(small.path / "slh", "#!/bin/sh\nexit 2\n")
    script(small.path / "out/program/x86-64-v2/slh", "#!/bin/sh\necho 128f\n")
    status, lines = small.run("--no-setup", "--quick")
    assert status == 1 and "SLH_BUILD=1 ./slh params: no" in failures(lines)


# ---- what is seen at the end

# The status of a script, its last line, and what is listed.
ENDS = [
    (1, "4 passed, 1 failed", "it is right: no, it is not"),
    (2, "no program", "it printed no counts, and ended with status 2"),
    (0, "nothing at all", "it printed no counts, and ended with status 0"),
    (0, "0 passed, 0 failed", "it ran nothing"),
    (1, "4 passed, 0 failed", "it counted no failure, and ended with status 1"),
]


@pytest.mark.parametrize("status, line, said", ENDS, ids=[it[2] for it in ENDS])
def test_failure_of_a_part_is_named(small, status, line, said):
    """And all other parts are run."""
    small.add_kit()
    note = 'echo "it is right: no, it is not" >>"$SLH_FAILURES"\n' if "1 failed" in line else ""
    script(small.path / "tests/wrong_bodies.py", f'#!/bin/sh\n{note}echo "{line}"\nexit {status}\n')
    ended, lines = small.run("--no-setup")
    assert failures(lines) == [f"tests/wrong_bodies.py: {said}", "    alone: tests/wrong_bodies.py --gate"]
    assert ended == 1 and re.fullmatch(r"\d+ passed, 1 failed, 0 skipped", lines[-1])
    assert small.calls()[-1] == "tested_bodies.py --few"


@pytest.mark.slow
@pytest.mark.parametrize("damage", [lambda it: it.chmod(0o644), lambda it: it.unlink()], ids=["a mode", "no file"])
def test_part_that_is_not_started_is_named(small, damage):
    """And all other parts are run."""
    small.add_kit()
    damage(small.path / "tests/wrong_bodies.py")
    status, lines = small.run("--no-setup")
    assert failures(lines)[0] == "tests/wrong_bodies.py: it printed no counts, and ended with status 127"
    assert status == 1 and lines[-1] == "13 passed, 1 failed, 0 skipped"
    assert small.calls()[-1] == "tested_bodies.py --few"


@pytest.mark.slow
def test_failure_that_a_part_does_not_note_is_named(small):
    small.add_kit()
    script(small.path / "tests/wrong_bodies.py",
           '#!/bin/sh\necho "one: yes"\necho "two: no"\necho "1 passed, 2 failed"\nexit 1\n')
    status, lines = small.run("--no-setup")
    named = [f"tests/wrong_bodies.py: {it}" for it in ("two: no", "1 failed that it names above")]
    assert failures(lines)[:2] == named
    assert status == 1 and " passed, 2 failed, " in lines[-1]


# What pytest has to say of a file of tests, and the first line that is listed.
OF_PYTEST = {
    "a test": ('@pytest.mark.parametrize("it", ["a b"])\ndef test_wrong(it): assert it == "a"\n',
               "tests/test_streams.py::test_wrong[a b]: AssertionError", "'tests/test_streams.py::test_wrong[a b]'"),
    "a fixture": ("@pytest.fixture\ndef it(): assert False\ndef test_wrong(it): pass\n",
                  "tests/test_streams.py::test_wrong: assert False", "tests/test_streams.py::test_wrong"),
    "the end of a fixture": ("@pytest.fixture\ndef it():\n    yield\n    assert False\ndef test_wrong(it): pass\n",
                             "tests/test_streams.py::test_wrong: assert False", "tests/test_streams.py::test_wrong"),
    "a file": ("import nothing\n", "tests/test_streams.py: no", "tests/test_streams.py"),
}


@pytest.mark.slow
@pytest.mark.parametrize("text, said, alone", OF_PYTEST.values(), ids=OF_PYTEST)
def test_failure_of_a_test_is_named(small, text, said, alone):
    small.write("tests/test_streams.py", "import pytest\n" + text)
    status, lines = small.run("--no-setup")
    assert failures(lines)[0].startswith(said) and failures(lines)[1] == f"    alone: pytest --release=dist {alone}"
    assert status == 1 and " passed, 1 failed, " in lines[-1]


@pytest.mark.slow
def test_failure_of_one_of_two_processes_is_named_once(small):
    """Beside the proofs two processes run the tests, if pytest can."""
    small.add_kit()
    small.write("tests/test_streams.py", "def test_wrong(): assert False\n")
    status, lines = small.run("--no-setup")
    named = [it for it in failures(lines) if not it.startswith(" ")]
    assert named == ["tests/test_streams.py::test_wrong: assert False"]
    assert status == 1 and lines[-1] == "17 passed, 1 failed, 0 skipped"


@pytest.mark.slow
@pytest.mark.parametrize("text, said", [
    ("import os\ndef test_ends(): os._exit(0)\n", "pytest: it printed no counts, and ended with status 0"),
    ("import pytest\ndef test_ends(): pytest.exit('early', returncode=0)\n",
     "pytest: it counted no failure, and ended with status 1"),
    ("def test_ends(): raise KeyboardInterrupt\n", "pytest: it counted no failure, and ended with status 2")],
    ids=["the process", "the session", "an interrupt"])
def test_early_end_of_pytest_is_named(small, text, said):
    small.write("tests/test_z.py", text)
    status, lines = small.run("--no-setup")
    assert failures(lines) == [said, "    alone: pytest --release=dist"] and status == 1


@pytest.mark.slow
def test_missing_release_is_a_failure(small):
    shutil.rmtree(small.path / "dist")
    status, lines = small.run("--no-setup")
    assert status == 1 and failures(lines)[0] == "pytest: it printed no counts, and ended with status 4"
    assert any("--release needs a folder that has a release" in it for it in lines)


@pytest.mark.slow
def test_release_of_an_earlier_run_is_not_tested(small):
    """If none is built, there is none."""
    small.add_kit()
    script(small.path / "tools/release.sh", '#!/bin/sh\necho "0 passed, 1 failed"\nexit 1\n')
    for it in ("BUILD", "SHA256SUMS"):
        small.write(f"out/release/{it}", (small.path / "dist" / it).read_text())
    status, lines = small.run("--no-setup")
    assert status == 1 and "pytest: it printed no counts, and ended with status 4" in failures(lines)


@pytest.mark.slow
@pytest.mark.parametrize("rt, said", [
    ('echo "slh_core: no proof"\necho "4 passed, 1 failed"\nexit 1\n', "rt ci: slh_core: no proof"),
    ("exit 0\n", "rt ci: it printed no counts, and ended with status 0"),
    ("kill -9 $$\n", "rt ci: it printed no counts, and ended with status 137")],
    ids=["a proof", "an early end", "a kill"])
def test_failure_of_the_proofs_is_named(small, rt, said):
    """And all other parts are run."""
    small.add_kit(rt)
    status, lines = small.run("--no-setup")
    assert failures(lines) == [said, "    alone: rt ci"]
    assert status == 1 and " passed, 1 failed, 0 skipped" in lines[-1]
    assert small.calls()[-1] == "tested_bodies.py --few"
    assert any(re.match("== pytest .*--release=out/release$", it) for it in lines)


@pytest.mark.slow
def test_difference_from_dist_is_named(small):
    small.add_kit(release='echo "dist/slh is built again bit for bit: no"\necho "4 passed, 1 failed"\nexit 1\n')
    status, lines = small.run("--no-setup")
    assert failures(lines) == ["tools/release.sh: dist/slh is built again bit for bit: no",
                               "    alone: tools/release.sh --after-ci --check out/release"]
    assert status == 1


PROVER = """#!/bin/sh
case "$PWD $*" in
*/crates/slh_board\\ *) exit 0 ;;
*Board::claim*) ;;
*) echo "only=1 proved=1" && exit 0 ;;
esac
echo './proofs/board/Board/claim/Answers.antt:1:1: error: `claim`: there is no proof'
printf '%s\\n' "fn slh_board::board::Board::claim: no proof" "only=1 proved=0" && exit 1
"""


@pytest.fixture
def prover(copy):
    """Variables for a run beside a stand-in for the prover. It refuses edits of Board::claim, and accepts others."""
    script(copy.work / "kit/bin/rt", "#!/bin/sh\necho logic 0\n")
    script(copy.work / "kit/bin/rattle", PROVER)
    return {"path": f"{copy.work / 'kit/bin'}:{WITHOUT_KIT}"}


@pytest.mark.slow
def test_wrong_body_is_named(copy, prover):
    """Of two wrong bodies the prover refuses one: the other one is named."""
    refused, other = "slh_board/claim_never_looks", "slh_board/stop_stores_next"
    done = copy.run("tests/wrong_bodies.py", "--write", refused, other, **prover,
                    SLH_FAILURES=str(copy.work / "noted"))
    assert done.status == 1 and re.search(f"^{refused}.edit: refused in .*no proof", done.output.decode(), re.M)
    assert (copy.work / "noted").read_text() == f"{other}: NOT REFUSED: the function is still proved\n"
    assert done.output.decode().splitlines()[-1] == "1 passed, 1 failed, 0 skipped"


@pytest.mark.slow
def test_wrong_bodies_are_cases_by_their_names(copy, prover):
    done = copy.run("pytest", "tests/test_wrong_bodies.py", "-k", "claim_never_looks or stop_stores_next", **prover)
    text = done.output.decode()
    assert text.splitlines()[-1] == "1 passed, 1 failed, 0 skipped", text
    assert "slh_board/stop_stores_next" in text and "NOT REFUSED: the function is still proved" in text


BODIES = """import pytest
@pytest.mark.asked("edit")
@pytest.mark.parametrize("edit", ["a/looks", "a/looks_away", "b/looks_away"])
def test_refuses(edit): pass
def test_that_looks(): pass
"""


@pytest.mark.parametrize("words, passed", [
    ("-k looks", 2), ("-k a/looks", 1), ("-k look", 1), ("--all", 1), ("tests/test_vectors.py", 4),
    ("tests/test_vectors.py::test_refuses", 3)])
def test_case_that_has_to_be_asked_for_runs_by_its_whole_name(small, words, passed):
    """Or by its file. A part of its name chooses the other tests alone."""
    small.write("tests/test_vectors.py", BODIES)
    assert small.run(*words.split(), command="pytest")[1][-1] == f"{passed} passed, 0 failed, 0 skipped"


@pytest.mark.slow
def test_skipped_parts_of_a_part_are_shown_and_counted(small):
    small.add_kit()
    script(small.path / "tests/tested_bodies.py",
           '#!/bin/sh\necho "it: SKIPPED, since not"\necho "other: yes"\necho "1 passed, 0 failed, 1 skipped"\n')
    status, lines = small.run("--no-setup")
    assert "it: SKIPPED, since not" in lines
    assert (status, lines[-1]) == (0, "14 passed, 0 failed, 1 skipped")


# ---- what a watcher sees


@pytest.mark.slow
def test_lines_are_shown_as_they_come_and_a_silence_has_dots(small):
    small.add_kit(rt="echo begins\nsleep 3\necho ends\n" + FOUR)
    lines = small.run("--no-setup", SLH_DOTS_AFTER="1")[1]
    begins, ends = lines.index("begins"), lines.index("ends")
    assert any(re.fullmatch(r"\.{2,}", it) for it in lines[begins:ends])


def test_file_without_a_test_is_a_failure(small):
    small.write("tests/test_renamed.py", "def tries_it(): pass\n")
    status, lines = small.run("--no-setup")
    assert (status, lines[-1]) == (1, "1 passed, 1 failed, 3 skipped")
    assert failures(lines)[0] == "tests/test_renamed.py: no"


SETUP = '#!/bin/sh\nof_all_tests="cc gcc\nnode nodejs"\n[ "$1" = --missing ]'


@pytest.mark.parametrize("cause, missing, fails", [
    ("", "", True), ("there is no cc (to be had by the package gcc)", "", True),
    ("no openssl has it (tools/setup.sh installs it)", "", True),
    ("there is no cc (to be had by the package gcc)", " && echo gcc && exit 1", False),
    ("there is no wish (to be had by the package tk)", "", False),
    ("there is no Node 18 (to be had by Debian 12's package nodejs)", "", False)])
def test_skip_over_a_tool_that_is_there_is_a_failure(small, cause, missing, fails):
    """So a fixture that always skips is seen, and one that names no cause."""
    script(small.path / "tools/setup.sh", SETUP + missing + "\n")
    small.write("tests/test_skips.py", f"import pytest\ndef test_it(): pytest.skip({cause!r})\n")
    status, lines = small.run("--no-setup")
    assert (status, lines[-1]) == (int(fails), f"1 passed, {int(fails)} failed, {4 - fails} skipped")


def test_budgets_are_within_what_the_whole_command_may_take():
    """150 processor minutes, so that two cores end within its limit of 180 minutes."""
    tomllib = pytest.importorskip("tomllib", reason="Python before 3.11 has no tomllib")
    granted = tomllib.loads((HERE / "tests/budgets.toml").read_text())["whole"]
    assert 0 < sum(granted.values()) <= MOST_MINUTES


@pytest.mark.slow
def test_part_over_its_budget_is_marked(small):
    """Whatever its options are. That is no failure."""
    pytest.importorskip("tomllib", reason="Python before 3.11 has no tomllib")
    small.write("tests/test_vectors.py", "def test_right(): assert sum(range(3000000))\n")
    small.write("tests/budgets.toml", '[release]\n"tests/test_vectors.py" = 0.0001\n"rt ci" = 9\n')
    status, lines = small.run("--no-setup")
    over, = {it for it in lines if "OVER ITS BUDGET" in it}
    assert status == 0 and re.fullmatch(r"tests/test_vectors.py: .* of 0.0001 processor minutes: OVER ITS BUDGET", over)


@pytest.mark.slow
def test_proofs_over_their_budget_are_marked(small):
    pytest.importorskip("tomllib", reason="Python before 3.11 has no tomllib")
    small.add_kit(rt="i=0\nwhile [ $i -lt 100000 ]; do i=$((i + 1)); done\n" + FOUR)
    small.write("tests/budgets.toml", '[whole]\n"rt ci" = 0.0001\n"tools/release.sh" = 9\n')
    lines = small.run("--no-setup")[1]
    over, = {it for it in lines if "OVER ITS BUDGET" in it}
    assert over.startswith("rt ci: ") and any(it.startswith("tools/release.sh: ") for it in lines)


# ---- folders that stay


@pytest.mark.parametrize("is_second", [False, True], ids=["one run", "a second run"])
def test_folder_is_made_once(tmp_path, is_second):
    """Whatever a killed run has left, and if another run has made it meanwhile."""
    folder, part = tmp_path / "made", tmp_path / "part"
    (part / "left").mkdir(parents=True)

    def make(path):
        path.mkdir()
        (path / "mine").touch()
        if is_second:
            (folder / "other").mkdir(parents=True)

    for _ in range(2):
        make_once(folder, part, make)
        assert [it.name for it in folder.iterdir()] == ["other" if is_second else "mine"] and not part.exists()


@pytest.mark.parametrize("changed", ["it.c", "it.h", "it.a", "it.ld", "the option", None])
def test_program_is_compiled_again_for_what_changed(tmp_path, changed):
    """A text, a header, a library, a script of the linker, or an option; and else it is taken as it is."""
    need("cc")
    for name, text in {"it.c": '#include "it.h"\n', "it.h": "int a;\n", "it.a": "a", "it.ld": "a"}.items():
        (tmp_path / name).write_text(text)
    words = [tmp_path / "it.c", tmp_path / "it.a", "-T", tmp_path / "it.ld"]
    before = content_of("cc", words)
    if changed == "the option":
        words.append("-O2")
    elif changed:
        (tmp_path / changed).write_text("int b;\n")
    assert (content_of("cc", words) == before) == (changed is None)


def test_folder_that_is_not_made_stays_unmade(tmp_path):
    with pytest.raises(FileNotFoundError):
        make_once(tmp_path / "none/made", tmp_path / "part", lambda part: part.mkdir())
    assert not (tmp_path / "part").exists()


# ---- set-up and words


@pytest.mark.slow
@pytest.mark.parametrize("status", [0, 1])
def test_missing_tools_are_installed(small, status):
    """The test command goes on, whether they can be installed or not. CI runs it."""
    may = os.getuid() == 0 and os.path.exists("/etc/debian_version")
    script(small.path / "tools/setup.sh", f"""#!/bin/sh
[ "$1" != --missing ] || {{ [ -e has ] && exit; echo "it and more"; exit 1; }}
echo installs >>"$HOME/called"
[ {status} = 1 ] || touch has
exit {status}
""")
    ended, lines = small.run(command=".ci/run")
    said = [it for it in lines if it.startswith("missing: it and more. tools/setup.sh installs them, as root")]
    assert ended == 0 and ("installs" in small.calls()) == may and len(said) == (status or not may)


@pytest.mark.slow
def test_missing_tools_are_named_without_setup(small):
    script(small.path / "tools/setup.sh", STUB + '[ "$1" = --missing ] && echo "it and more"\nexit 1\n')
    lines = small.run("--no-setup")[1]
    assert lines[0].startswith("missing: it and more. ") and "setup.sh " not in small.calls()


@pytest.mark.parametrize("more, skipped", [([], 2), (["python3"], 4)], ids=["nor Python", "but Python"])
@pytest.mark.parametrize("content, counts", [
    ("version 0\nsources x\n", "1 passed, 0 failed"), ("damaged\n", "0 passed, 1 failed")], ids=["whole", "damaged"])
def test_without_pytest_dist_is_checked(small, content, counts, more, skipped):
    """On a machine that has next to nothing. The user is told what is missing."""
    for name in ["bash", "sh", "dirname", "cat", "sed", "grep", "sha256sum", "id", "awk", *more]:
        (small.path / "kit").mkdir(exist_ok=True)
        (small.path / "kit" / name).symlink_to(shutil.which(name, path=WITHOUT_KIT))
    listed = hashlib.sha256((small.path / "dist/BUILD").read_bytes()).hexdigest()
    small.write("dist/SHA256SUMS", f"{listed}  BUILD\n")
    small.write("dist/BUILD", content)
    status, lines = small.run("--no-setup", PATH=str(small.path / "kit"))
    assert (status, lines[-1]) == (int("1 failed" in counts), f"{counts}, {skipped} skipped")
    assert failures(lines) == ["dist/ is as listed: no"] * status
    assert "all tests: SKIPPED, since there is no pytest (to be had by the package python3-pytest)" in lines


@pytest.mark.parametrize("words", [
    ["tools/test.sh", "#"], ["tools/test.sh", "--few", "folder"], ["tools/test.sh", "--quick", "--few"],
    ["tools/setup.sh", "#"], ["tools/setup.sh", "--few", "folder"]], ids=" ".join)
def test_unknown_word_is_refused(words):
    """The last one, before anything is done."""
    done = run(*words, cwd=HERE)
    assert (done.status, done.output) == (2, b"") and f"unknown word: {words[-1]}\n" in done.errors.decode()


@pytest.mark.parametrize("tool", ["tools/test.sh", "tools/setup.sh"])
def test_help(tool):
    done = run(tool, "--help", cwd=HERE)
    assert (done.status, done.errors) == (0, b"") and done.output.decode().startswith(f"usage: {tool} ")


# ---- nothing to test


@pytest.mark.parametrize("option", ["program", "release"])
def test_pytest_without_anything_to_test_has_status_4(tmp_path, option):
    script(tmp_path / "none", "#!/bin/sh\nexit 1\n")
    done = run("pytest", f"--{option}={tmp_path / 'none'}", cwd=HERE)
    assert done.status == 4 and b" passed, " not in done.output


# ---- a root without the kit


@pytest.mark.slow
def test_test_command_in_a_root_without_the_kit(in_another_root):
    """In a folder without .git, as an unpacked tarball, where no kit can be reached: one test of each file. What the
    others show, they show elsewhere."""
    done = in_another_root("cd /copy && export HOME=/tmp PYTEST_ADDOPTS=--one && exec tools/test.sh --no-setup --few\n")
    lines = done.output.decode().splitlines()
    assert done.status == 0 and re.fullmatch(r"[1-9]\d* passed, 0 failed, [1-9]\d* skipped", lines[-1]), lines[-40:]
    assert "rt ci: SKIPPED, since there is no rt" in lines
