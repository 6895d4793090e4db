"""Tests the WebAssembly modules, as tools/library.sh installs them: what they export, tests/vectors/ through the calls,
that they hash in vectors of 128 bits or have none, and that a call that leaves the memory traps. Modules with a memory
of 32 bits run in any Node, that with a memory of 64 bits in Node 20 or later.

Of keys and of signing some tests are run, and with --all all: tests/library_vectors.py says which.
"""
import re
import shutil

import pytest

import machines
from machines import CALLS, OTHERS
from support import TESTS, need, run, succeed

# The modules, each with the words for Node that it takes.
MODULES = {"wasm64": ["--experimental-wasm-memory64"], "wasm32": [], "wasm32-scalar": []}


def on(*targets):
    params = [pytest.param(it, marks=OTHERS if it == "wasm32-scalar" else ()) for it in targets]
    return pytest.mark.parametrize("target", params)


ON_ALL = on(*MODULES)
WITH_VECTORS = on("wasm64", "wasm32")
ON_32_BITS = on("wasm32", "wasm32-scalar")

COMPILES = """
    new WebAssembly.Module(require("node:fs").readFileSync(process.argv[1]));
    console.log("compiled");
"""
# The exports of a module, a line each. What it imports is a line, too.
EXPORTS = """
    const module = new WebAssembly.Module(require("node:fs").readFileSync(process.argv[1]));
    for (const it of WebAssembly.Module.exports(module)) console.log(`${it.kind} ${it.name}`);
    for (const it of WebAssembly.Module.imports(module)) console.log(`import ${it.name}`);
"""
# Whether a condition holds over the exports of a module, `wasm`, with `traps` of a function, and `verify` of a message
# by its place and length, under a key and a signature of zeros.
HOLDS = """
    const file = require("node:fs").readFileSync(process.argv[1]);
    const wasm = new WebAssembly.Instance(new WebAssembly.Module(file), {}).exports;
    const P = typeof wasm.__heap_base.value === "bigint" ? BigInt : Number, at = P(wasm.__heap_base.value);
    const traps = (run) => {
        try { run(); return false } catch (it) { return it instanceof WebAssembly.RuntimeError }
    };
    const verify = (place, length) => wasm.slh_verify(2, at, 32n, P(place), length, P(0), 0n, at, 17088n);
    console.log(CONDITION);
"""
# i32x4.add and i64x2.add
ADDS = [b"\xfd\xae\x01", b"\xfd\xce\x01"]


@pytest.fixture
def node(target):
    """Node, with the words that a module takes."""
    need("node")
    return ["node", *MODULES[target]]


@pytest.fixture
def prefix(pytestconfig, install, target):
    return machines.for_target(pytestconfig, install, target)


@pytest.fixture
def module(prefix):
    return prefix / "lib/slh.wasm"


@pytest.fixture
def can_run(node, module):
    """Skips a module that this Node does not compile, if it need not: Node 20 and later do. Node 18 has memory with
    64-bit addresses, and no SIMD over it."""
    version = succeed("node", "--version").decode().strip()
    major = re.match(r"v(\d+)\.", version)
    if not (major and int(major[1]) >= 20) and run(*node, "-e", COMPILES, module).output != b"compiled\n":
        pytest.skip(f"Node {version} does not compile slh.wasm (to be had by Node 20 or later)")


def holds(node, module, condition):
    return succeed(*node, "-e", HOLDS.replace("CONDITION", condition), module) == b"true\n"


@ON_ALL
def test_module_exports_the_calls(node, module, can_run):
    """It also exports its memory and where the memory is free, and asks for nothing."""
    exports = succeed(*node, "-e", EXPORTS, module).decode().splitlines()
    assert sorted(exports) == sorted([*(f"function {it}" for it in CALLS), "memory memory", "global __heap_base"])


@WITH_VECTORS
def test_module_hashes_in_vectors(module):
    """It adds words of 32 bits and of 64 there."""
    assert [it for it in ADDS if it not in module.read_bytes()] == []


@on("wasm32-scalar")
def test_module_has_no_vectors(module):
    need("llvm-objdump")
    listing = succeed("llvm-objdump", "--mattr=+simd128", "-d", module).decode()
    assert "i32.add" in listing and not re.search(r"v128\.|i32x4\.", listing)


@pytest.mark.slow
@WITH_VECTORS
def test_numbers_of_the_documents(target, prefix):
    machines.numbers_are_those_of(target, prefix)


@ON_ALL
def test_call_after_one_that_trapped_traps(node, module, can_run):
    assert holds(node, module, "wasm.slh_version() > 0 && traps(() => verify(4e9, 4n)) && traps(wasm.slh_version)")


@ON_32_BITS
def test_length_that_is_none_of_the_memory_traps(node, module, can_run):
    assert holds(node, module, "verify(at, 4n) === 30 && traps(() => verify(at, 2n ** 32n + 4n)) && "
                               "verify(at, 4n) === 30")


@pytest.mark.slow
@ON_ALL
def test_vectors(pytestconfig, node, module, can_run):
    machines.vectors_through(pytestconfig, *node, TESTS / "target_calls.mjs", module)


@pytest.mark.slow
@ON_32_BITS
def test_vectors_in_node_18(pytestconfig, module):
    """Node 18 is on the path as node-18, or as node."""
    found = [it for it in ("node-18", "node") if shutil.which(it) and run(it, "--version").output.startswith(b"v18.")]
    if not found:
        pytest.skip("there is no Node 18 (to be had by Debian 12's package nodejs)")
    machines.vectors_through(pytestconfig, found[0], TESTS / "target_calls.mjs", module, few=True)
