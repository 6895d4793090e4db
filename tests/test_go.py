"""Builds and uses the package for Go, over the library as it is installed: its own tests by `go test`, a program of a
user, what it leaves in memory, and a library that fails its self-test. No network is used."""
import os
import re
import shutil

import pytest

from key_forms import check_key_forms
from packages import GO_MODULE, check_memory, refuses_to_build, says_best_level, text_of, write_another_library
from support import HERE, need, run, succeed

PACKAGE = HERE / "bindings/go"
OWN_TESTS = sorted(it for file in PACKAGE.glob("*_test.go")
                   for it in re.findall(r"^func (Test\w+|Example\w*|Fuzz\w+)\(", file.read_text(), re.M))
LEVEL = f"""package main

// #cgo LDFLAGS: -l:libslh.a
// #include <slh.h>
import "C"
import "fmt"
import _ "{GO_MODULE}"

func main() {{ fmt.Println(C.slh_level()) }}
"""
SELF_TEST = f"""package main

import (
	"fmt"

	"{GO_MODULE}"
)

func main() {{
	for _, set := range []slh.Set{{slh.SHA2_192f, slh.SHA2_128f}} {{
		err := set.SelfTest()
		fmt.Println(err, err == slh.ErrSelfTestFailed)
	}}
}}
"""
# The calls that begin with no key.
VERIFIES = f"""package main

import (
	"fmt"

	"{GO_MODULE}"
)

func main() {{
	_, generated := slh.Generate(nil, slh.SHA2_128f)
	_, taken := slh.NewPublicKey(slh.SHA2_128f, make([]byte, 32))
	verified := slh.VerifyMany([]slh.Signed{{{{Key: &slh.PublicKey{{}}}}}})
	fmt.Printf("%v\\n%v\\n%v\\n%v\\n", generated, taken, verified[0], slh.SHA2_128f.SelfTest())
	_, parsed := slh.ParseSecretKey([]byte("slh-dsa-secret 2\\n"))
	_, named := slh.ParseSet("128f")
	fmt.Printf("%v\\n%v\\n", parsed, named)
}}
"""
WITHOUT_CGO = ("slh: this program was built without cgo, and so without libslh: set CGO_ENABLED=1, and install a C"
               " compiler")

pytestmark = pytest.mark.slow


@pytest.fixture(scope="module")
def env(installed, tmp_path_factory):
    need("go", "gofmt", "gcc")
    folder = tmp_path_factory.mktemp("go")
    settings = {"CGO_ENABLED": "1", "CGO_CFLAGS": f"-I{installed}/include", "CGO_LDFLAGS": f"-L{installed}/lib",
                "GOCACHE": str(folder / "cache"), "GOPATH": str(folder / "path"), "GOFLAGS": "-mod=readonly",
                "GOPROXY": "off"}
    return {**os.environ, **settings}


@pytest.mark.parametrize("path", ["go", os.path.join("tests", "erased.go"), os.path.join("tests", "key_forms.go")])
def test_layout(path):
    need("gofmt")
    assert succeed("gofmt", "-l", HERE / "bindings" / path) == b""


def test_vet(env):
    succeed("go", "vet", "./...", cwd=PACKAGE, env=env)


@pytest.fixture(scope="module")
def own_tests(env, tmp_path_factory):
    """The program of the package's own tests."""
    program = tmp_path_factory.mktemp("own") / "tests"
    succeed("go", "test", "-c", "-o", program, ".", cwd=PACKAGE, env=env)
    return program


@pytest.mark.parametrize("name", OWN_TESTS)
def test_package_passes_its_tests(own_tests, env, name):
    """The lines of its README are among them."""
    outcome = run(own_tests, "-test.v", f"-test.run=^{name}$", cwd=PACKAGE, env=env, timeout=1800)
    said = text_of(outcome)
    assert outcome.status == 0 and re.search(f"^--- (PASS|SKIP): {name} ", said, re.M), said[-6000:]
    if skipped := re.search(f"(.*)\n--- SKIP: {name} ", said):
        pytest.skip(skipped[1].strip())


def test_each_own_test_has_a_name(own_tests, env):
    listed = succeed(own_tests, "-test.list=.", cwd=PACKAGE, env=env).decode().split()
    assert sorted(listed) == OWN_TESTS


# ---- a program of a user


@pytest.fixture(scope="module")
def page(env, tmp_path_factory):
    """The folder of a module over the package, as a user has it."""
    folder = tmp_path_factory.mktemp("page")
    (folder / "main.go").write_text(f'package main\n\nimport _ "{GO_MODULE}"\n\nfunc main() {{}}\n')
    for name in "erased", "key_forms", "level", "self_test", "verifies":
        (folder / name).mkdir()
    for name in "erased", "key_forms":
        shutil.copy(HERE / f"bindings/tests/{name}.go", folder / name / "main.go")
    (folder / "level/main.go").write_text(LEVEL)
    (folder / "self_test/main.go").write_text(SELF_TEST)
    (folder / "verifies/main.go").write_text(VERIFIES)
    version = (HERE / "VERSION").read_text().strip()
    succeed("go", "mod", "init", "page", cwd=folder, env=env)
    succeed("go", "mod", "edit", "-require", f"{GO_MODULE}@v{version}", "-replace", f"{GO_MODULE}={PACKAGE}",
            cwd=folder, env=env)
    return folder


def test_changed_keys_of_other_programs_are_judged(env, page):
    succeed("go", "build", "-o", page / "key_forms_in_go", "./key_forms", cwd=page, env=env)
    check_key_forms(page / "key_forms_in_go")


@pytest.mark.usefixtures("built_by_the_kit")
def test_nothing_erased_is_in_memory(env, page, installed):
    succeed("go", "build", "-o", page / "erased_in_go", "./erased", cwd=page, env=env)
    check_memory(installed / "lib/libslh.so.1", page / "erased_in_go")


@pytest.mark.usefixtures("built_by_the_kit")
def test_code_for_the_best_level_runs(env, page):
    assert says_best_level("go", "run", "./level", cwd=page, env=env)


def test_another_answer_of_the_library_is_told(env, page, installed, tmp_path):
    """By the self-test of its set. That of another set passes."""
    another = {**env, "CGO_LDFLAGS": f"-L{write_another_library(installed, tmp_path)}/lib"}
    said = succeed("go", "run", "./self_test", cwd=page, env=another)
    assert said == b"<nil> false\nslh: 40 SelfTestFailed: an answer of the self-test is not the known one true\n"


def test_build_without_the_library_names_what_to_set(env, page):
    bare = {name: value for name, value in env.items() if name not in ("CGO_CFLAGS", "CGO_LDFLAGS")}
    assert refuses_to_build("set CGO_CFLAGS=-IPREFIX/include", "go", "build", "-o", page / "none", ".", cwd=page,
                            env=bare)


def test_header_with_another_number_is_refused(env, page, installed, tmp_path):
    """The package has the numbers of its own, so that it can be built without the header."""
    shutil.copytree(installed / "include", tmp_path / "include")
    header = tmp_path / "include/slh_verify.h"
    text = header.read_text()
    header.write_text(text.replace("SLH_CONTEXT_TOO_LONG = 2,", "SLH_CONTEXT_TOO_LONG = 7,"))
    assert header.read_text() != text
    assert refuses_to_build("out of bounds", "go", "build", "-o", page / "none", ".", cwd=page,
                            env={**env, "CGO_CFLAGS": f"-I{tmp_path}/include"})


def test_program_without_cgo_says_what_is_missing(env, page):
    """It is built, as part of a larger program may be, and the first call of the package names what to set."""
    bare = {**env, "CGO_ENABLED": "0", "CGO_CFLAGS": "", "CGO_LDFLAGS": ""}
    succeed("go", "build", "-o", page / "without_cgo", "./verifies", cwd=page, env=bare)
    assert succeed(page / "without_cgo").decode().splitlines() == [WITHOUT_CGO] * 5 + ['slh: 12 UnknownSet: "128f"']
