"""Builds and uses the package for JavaScript by Node, over the module as it is installed: its own tests by `node
--test`, bundles, its types, and what it leaves in memory."""
import json
import os
import re
import shutil

import pytest

from key_forms import check_key_forms
from packages import check_memory, count_tests, refuses_to_build
from support import HERE, Outcome, need, run, succeed

PACKAGE = HERE / "bindings/javascript"
LINES = """import { load, SLH_DSA_SHA2_128F } from "slh";
const slh = await load();
const message = new TextEncoder().encode("Dear reader,");
const secret = slh.generate(SLH_DSA_SHA2_128F);
const signature = secret.sign(message);
console.log(secret.check() && secret.public().verify(message, signature) ? "valid" : "invalid");
"""
BROWSER = """import { load, type SecretKey } from "slh";
import { signInWorker } from "slh/worker";
load(new URL("https://example.com/slh.wasm"));
export const sign = (it: SecretKey) => signInWorker(it, new Uint8Array(3), { signal: new AbortController().signal });
export const byModule = (it: WebAssembly.Module) => load(it);
"""
IN_WORKER = LINES.replace('secret.sign(message)', 'await signInWorker(secret, message)').replace(
    "\n", '\nimport { signInWorker } from "slh/worker";\n', 1)
VALID = Outcome(0, b"valid\n")


@pytest.fixture(scope="module")
def node():
    """Node, if it is as late as the package asks for."""
    need("node")
    wanted = re.fullmatch(r">=(\d+)", json.loads((PACKAGE / "package.json").read_text())["engines"]["node"])[1]
    version = succeed("node", "--version").decode().strip()
    if int(re.match(r"v(\d+)", version)[1]) < int(wanted):
        pytest.skip(f"Node {version} is too old (the package takes Node {wanted} or later)")
    return "node"


@pytest.fixture(scope="module")
def module(install):
    return install("wasm32") / "lib/slh.wasm"


@pytest.fixture(scope="module")
def folder(node, module, tmp_path_factory):
    """A folder of a user, which has the package and programs over it."""
    path = tmp_path_factory.mktemp("javascript")
    package = path / "node_modules/slh"
    package.mkdir(parents=True)
    for it in (module, *PACKAGE.glob("*.json"), *PACKAGE.glob("*.js"), *PACKAGE.glob("*.ts")):
        shutil.copy(it, package)
    succeed(node, package / "write_module.js")
    (path / "lines.mjs").write_text(LINES)
    (path / "inline.mjs").write_text(LINES.replace('"slh"', '"slh/inline"'))
    (path / "in_worker.mjs").write_text(IN_WORKER)
    return path


def outcome_of(node, program, **options):
    return run(node, "--no-warnings", program, **options)


@pytest.mark.parametrize("file", sorted(it.name for it in (PACKAGE / "tests").glob("*.test.js")))
def test_package_passes_its_tests(node, module, file):
    """The lines of its README are among them."""
    outcome = run(node, "--test", "--test-reporter=tap", PACKAGE / "tests" / file, timeout=1800,
                  env={**os.environ, "SLH_WASM": str(module)})
    count_tests(outcome, r"^# pass (\d+)$")


def test_package_finds_its_module(node, folder):
    assert outcome_of(node, folder / "lines.mjs") == VALID


def test_worker_finds_its_files(node, folder):
    assert outcome_of(node, folder / "in_worker.mjs") == VALID


def test_inline_needs_no_file(node, folder, tmp_path):
    shutil.copytree(folder, tmp_path / "copy")
    (tmp_path / "copy/node_modules/slh/slh.wasm").unlink()
    assert outcome_of(node, tmp_path / "copy/lines.mjs").status != 0
    assert outcome_of(node, tmp_path / "copy/inline.mjs") == VALID


def exports_of(node, folder, name):
    line = 'console.log(Object.keys(await import(process.argv[1])).join("\\n"))'
    return succeed(node, "--input-type=module", "-e", line, name, cwd=folder).decode().split()


def test_inline_exports_what_slh_does(node, folder):
    names = exports_of(node, folder, "slh")
    assert names and names == exports_of(node, folder, "slh/inline")
    line = 'import * as one from "slh"; import * as other from "slh/inline"; console.log(one.load === other.load)'
    assert succeed(node, "--input-type=module", "-e", line, cwd=folder) == b"false\n"


# ---- bundles


@pytest.fixture
def bundles(folder, tmp_path):
    """Makes a bundle of a program for a platform, in a folder in which there is nothing else: its path."""
    need("esbuild")

    def makes(platform, program):
        path = tmp_path / "bundle.mjs"
        succeed("esbuild", "--bundle", f"--platform={platform}", "--format=esm", f"--outfile={path}", folder / program)
        return path

    return makes


PLATFORMS = pytest.mark.parametrize("platform", ["browser", "node"])


@pytest.mark.slow
@PLATFORMS
def test_bundle_of_inline_signs(node, bundles, platform):
    assert outcome_of(node, bundles(platform, "inline.mjs")) == VALID


@pytest.mark.slow
@PLATFORMS
def test_esbuild_bundles_slh(bundles, platform):
    assert bundles(platform, "lines.mjs").stat().st_size > 0


@pytest.mark.slow
def test_bundle_of_slh_finds_the_module_beside_it(node, bundles, module):
    bundle = bundles("node", "lines.mjs")
    shutil.copy(module, bundle.parent)
    assert outcome_of(node, bundle) == VALID


@pytest.mark.slow
@PLATFORMS
@pytest.mark.parametrize("program", ["in_worker.mjs", "node_modules/slh/sign_in_worker.js"])
def test_bundle_has_the_workers_of_its_platform(bundles, platform, program):
    assert ("node:worker_threads" in bundles(platform, program).read_text()) == (platform == "node")


@pytest.mark.slow
def test_bundle_with_a_worker_finds_it_beside_it(node, bundles, module):
    worker = bundles("node", "node_modules/slh/sign_in_worker.js")
    worker.rename(worker.parent / "sign_in_worker.js")
    shutil.copy(module, worker.parent)
    (worker.parent / "package.json").write_text('{"type": "module"}')
    assert outcome_of(node, bundles("node", "in_worker.mjs")) == VALID


# ---- types


@pytest.fixture
def tsc(folder):
    """Compiles a program of the user's folder with types of some libraries: its words."""
    need("tsc")
    shutil.copy(PACKAGE / "tests" / "typed_program.mts", folder)
    (folder / "browser.mts").write_text(BROWSER)
    (folder / "wrong.mts").write_text('import { load } from "slh";\n(await load()).generate("128f");\n')
    strict = ["tsc", "--strict", "--noEmit", "--target", "es2022", "--module", "node16", "--moduleResolution", "node16"]
    return lambda program, libraries: [*strict, "--lib", libraries, folder / program]


@pytest.mark.slow
@pytest.mark.parametrize("program, libraries", [
    pytest.param("typed_program.mts", "es2022", id="without dom"),
    pytest.param("browser.mts", "es2022,dom", id="with dom"),
])
def test_tsc_takes_a_program(tsc, program, libraries):
    succeed(*tsc(program, libraries))


@pytest.mark.slow
def test_tsc_refuses_a_wrong_argument(tsc):
    assert refuses_to_build('"128f"\' is not assignable', *tsc("wrong.mts", "es2022,dom"))


@pytest.mark.parametrize("name, file", [("slh", "slh.d.ts"), ("slh/files", "files.d.ts"), ("slh/pkix", "pkix.d.ts"),
                                        ("slh/worker", "worker.d.ts")])
def test_types_name_what_is_exported(node, folder, name, file):
    text = (folder / "node_modules/slh" / file).read_text()
    declared = re.findall(r"^export (?:const|class|function) (\w+)", text, re.MULTILINE)
    assert declared and sorted(declared) == sorted(exports_of(node, folder, name))


# ---- keys of other programs


def test_changed_keys_of_other_programs_are_judged(node, folder):
    shutil.copy(HERE / "bindings/tests/key_forms.mjs", folder)
    check_key_forms(node, "--no-warnings", folder / "key_forms.mjs")


# ---- secrets


@pytest.mark.usefixtures("built_by_the_kit")
def test_nothing_erased_is_in_memory(node, folder, installed):
    shutil.copy(HERE / "bindings/tests/erased.mjs", folder)
    check_memory(installed / "lib/libslh.so.1", node, "--no-warnings", folder / "erased.mjs")
