// README.md's lines install the package, and its blocks of JavaScript run as they stand, in their order.
//
// usage: SLH_WASM=PREFIX/lib/slh.wasm node --test bindings/javascript/tests
import assert from "node:assert/strict";
import { spawnSync } from "node:child_process";
import { copyFileSync, mkdirSync, mkdtempSync, readFileSync, rmSync, writeFileSync } from "node:fs";
import { tmpdir } from "node:os";
import { join } from "node:path";
import test, { after } from "node:test";
import { fileURLToPath } from "node:url";

import { repository } from "./support.js";

const readme = readFileSync(new URL("../README.md", import.meta.url), "utf8");
const blocksOf = (language) => readme.matchAll(new RegExp(`^\`\`\`${language}\n([^]*?)^\`\`\`$`, "gm"));
const blocks = (language) => Array.from(blocksOf(language), ([, it]) => it);
const flags = process.execArgv.filter((it) => it !== "--test");

const home = mkdtempSync(join(tmpdir(), "slh-"));
after(() => rmSync(home, { recursive: true }));

function run(words) {
    const env = { ...process.env, HOME: home, CLONE: fileURLToPath(repository), npm_config_offline: "true" };
    const done = spawnSync(words[0], words.slice(1), { cwd: home, env, encoding: "utf8" });
    assert.equal(done.status, 0, `${words.join(" ")}: ${done.error ?? done.stderr}`);
    return done.stdout;
}

/** Runs the lines that install. The module is there already: it is the one that is tested. Without npm, copies. */
function install() {
    const [lines] = blocks("sh").map((it) => it.trim().split("\n"));
    assert.match(lines[0], /^"\$CLONE"\/tools\/library\.sh --target wasm32 ~\/slh-wasm$/);
    mkdirSync(join(home, "slh-wasm", "lib"), { recursive: true });
    copyFileSync(process.env.SLH_WASM, join(home, "slh-wasm", "lib", "slh.wasm"));
    assert.equal(lines.pop(), "npm install ./slh-package");
    const hasNpm = spawnSync("npm", ["--version"]).status === 0;
    const last = hasNpm ? "npm install ./slh-package" : "mkdir node_modules && cp -r slh-package node_modules/slh";
    run(["bash", "-euc", [...lines.slice(1), last].join("\n")]);
}

test("README's lines install the package, and its blocks run", () => {
    install();
    const program = blocks("js").join("\n");
    assert.equal(blocks("js").length, 3);
    writeFileSync(join(home, "program.mjs"), program);
    const wanted = [...program.matchAll(/^console\.log\(.*\); \/\/ (.*)$/gm)].map(([, it]) => it);
    assert.ok(wanted.length > 8);
    const said = run([process.execPath, "--no-warnings", ...flags, "program.mjs"]);
    assert.deepEqual(said.trimEnd().split("\n"), wanted);
});

const SLH = JSON.stringify(new URL("../slh.js", import.meta.url));
const LOAD = `import { load } from ${SLH}; await load().catch((error) => console.log(error.message))`;

test("without WebAssembly the error says so", () => {
    assert.match(run([process.execPath, "--jitless", "--input-type=module", "-e", LOAD]), /no WebAssembly/);
});
