// Makes calls of slh.wasm that it is told on standard input, for tests/library_vectors.py --through: what
// tests/target_calls.c does, in Node. It is also an example of calling the module.
//
// usage: node tests/target_calls.mjs slh.wasm     with --experimental-wasm-memory64 for a 64-bit memory
//
// Bytes are put behind the module's own data, from __heap_base on. Lengths are 64-bit numbers, and pointers as wide as
// the memory.
import fs from "node:fs";
import readline from "node:readline";

const wasm = new WebAssembly.Instance(new WebAssembly.Module(fs.readFileSync(process.argv[2])), {}).exports;
const pointer = typeof wasm.__heap_base.value === "bigint" ? BigInt : Number;
const first = Math.ceil(Number(wasm.__heap_base.value) / 16) * 16;

// Makes the memory at least so many bytes long. `grow` counts pages of 65536 bytes, which are a BigInt to newer engines.
function reserve(end) {
    const lacking = Math.ceil((end - wasm.memory.buffer.byteLength) / 65536);
    if (lacking <= 0) return;
    try {
        wasm.memory.grow(BigInt(lacking));
    } catch (error) {
        if (!(error instanceof TypeError)) throw error;
        wasm.memory.grow(lacking);
    }
}

// slh_verify_many of items of four placed arguments each, with the verdicts in the last. An item has 64 bytes: each
// pointer takes eight, as each length does.
function verifyMany(set, placed, at) {
    const parts = placed.slice(0, -1);
    const [verdicts, verdictsLen] = placed[placed.length - 1];
    reserve(at + 16 * parts.length);
    const items = new BigUint64Array(wasm.memory.buffer, at, 2 * parts.length);
    parts.forEach(([from, len], i) => items.set([BigInt(len === 0 ? 0 : from), BigInt(len)], 2 * i));
    return wasm.slh_verify_many(
        set, pointer(at), BigInt(parts.length / 4), pointer(verdicts), BigInt(verdictsLen / 4));
}

for await (const line of readline.createInterface({ input: process.stdin })) {
    const [call, ...words] = line.split(" ");
    const placed = [];
    const given = [];
    let at = first;
    for (const word of words) {
        if (word[0] === "n") {
            given.push(Number(word.slice(1)));
            continue;
        }
        const bytes = Buffer.from(word.slice(1), "hex");
        reserve(at + bytes.length);
        new Uint8Array(wasm.memory.buffer).set(bytes, at);
        placed.push([at, bytes.length]);
        given.push(pointer(bytes.length === 0 ? 0 : at));
        if (word[0] === "b") given.push(BigInt(bytes.length));
        at = Math.ceil((at + bytes.length) / 16) * 16;
    }
    const result = (call === "slh_verify_many" ? verifyMany(given[0], placed, at) : wasm[call](...given)) >>> 0;
    const left = placed.map(([from, len]) => "b" + Buffer.from(wasm.memory.buffer, from, len).toString("hex"));
    console.log([result, ...left].join(" "));
}
