// Writes module.js, which has the slh.wasm beside this file inside, for inline.js: node write_module.js
import { readFileSync, writeFileSync } from "node:fs";

const digits = readFileSync(new URL("slh.wasm", import.meta.url)).toString("base64");
writeFileSync(new URL("module.js", import.meta.url), `// slh.wasm in base64.\nexport default "${digits}";\n`);
