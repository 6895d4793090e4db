// Reads slh.wasm in Node. package.json leaves this file out of bundles for browsers, which have no node:fs.
export { readFile } from "node:fs/promises";
