"""Builds and uses the crate slh-sys, which declares the calls of the library as it is installed: its own tests by
cargo, a program of a user, and builds that find no library. test_plain_rust.py tests the crate slh. No network is used.
"""
import os

import pytest

from packages import count_tests, refuses_to_build, says_best_level
from support import HERE, need, run, succeed

CRATES = HERE / "bindings/rust"
MANIFEST = ["--manifest-path", CRATES / "Cargo.toml"]
LOCKED = ["--locked", "--offline", *MANIFEST]
# What cargo says of tests that passed, with their number.
OF_CARGO = r"^test result: ok\. (\d+) passed; 0 failed;"
LEVEL = "fn main() { println!(\"{}\", unsafe { slh_sys::slh_level() }) }\n"

pytestmark = pytest.mark.slow


@pytest.fixture(scope="module")
def built(tmp_path_factory):
    """The folder that cargo builds in."""
    need("cargo", "cc", "pkg-config")
    return tmp_path_factory.mktemp("cargo")


@pytest.fixture(scope="module")
def env(built, installed):
    return {**os.environ, "CARGO_TARGET_DIR": str(built), "SLH_PREFIX": str(installed)}


@pytest.fixture
def bare_env(built, tmp_path):
    """The environment of one who has no library."""
    env = {**os.environ, "CARGO_TARGET_DIR": str(built), "PKG_CONFIG_LIBDIR": str(tmp_path / "none")}
    return {name: value for name, value in env.items() if name not in ("SLH_PREFIX", "PKG_CONFIG_PATH")}


def test_layout():
    need("cargo", "rustfmt")
    succeed("cargo", "fmt", *MANIFEST, "--all", "--check")


def test_crate_passes_its_tests(env):
    outcome = run("cargo", "test", *LOCKED, env={**env, "RUSTFLAGS": "-Dwarnings"}, timeout=1800)
    count_tests(outcome, OF_CARGO)


def test_crate_finds_the_library_of_pkg_config(env, installed):
    env = {**env, "PKG_CONFIG_PATH": str(installed / "lib/pkgconfig")}
    del env["SLH_PREFIX"]
    count_tests(run("cargo", "test", *LOCKED, "--test", "calls", env=env, timeout=1800), OF_CARGO)


@pytest.fixture(scope="module")
def page(tmp_path_factory):
    """The manifest of a program as a user has it, in a folder of its own."""
    folder = tmp_path_factory.mktemp("page")
    (folder / "src").mkdir()
    (folder / "src/main.rs").write_text(LEVEL)
    (folder / "Cargo.toml").write_text(f'[package]\nname = "page"\nedition = "2021"\n[dependencies]\n'
                                       f'slh-sys = {{ path = "{CRATES}/slh-sys" }}\n')
    return ["--manifest-path", folder / "Cargo.toml"]


@pytest.mark.usefixtures("built_by_the_kit")
def test_code_for_the_best_level_runs(env, page):
    assert says_best_level("cargo", "run", "-q", "--offline", *page, env=env)


# ---- without a library


def test_build_without_a_library_names_what_to_set(bare_env):
    assert refuses_to_build("libslh is not found: set SLH_PREFIX", "cargo", "build", *LOCKED, env=bare_env)


def test_relative_path_of_the_library_is_named(bare_env):
    assert refuses_to_build("SLH_PREFIX has to be an absolute path", "cargo", "build", *LOCKED,
                            env={**bare_env, "SLH_PREFIX": "prefix"})


def test_documentation_needs_no_library(bare_env, tmp_path):
    succeed("cargo", "doc", "--no-deps", *LOCKED, env={**bare_env, "CARGO_TARGET_DIR": str(tmp_path / "docs")})
