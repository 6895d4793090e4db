// A bit of the secret key that is flipped in the module's memory while it signs: no wrong signature is given.
//
// usage: SLH_WASM=PREFIX/lib/slh.wasm node --test bindings/javascript/tests
import assert from "node:assert/strict";
import { readFileSync } from "node:fs";
import test, { after } from "node:test";
import { Worker } from "node:worker_threads";

import { Fault, load, SLH_DSA_SHA2_128F, SLH_SHA2_256 } from "../slh.js";
import { hex, vectorKey, watchInstances } from "./support.js";

const MEMORY_SECTION = 5;
const SHARED_WITH_MOST = 3; // the flags of a memory: it is shared, and has a limit
const MOST_PAGES = [0xe8, 0x07]; // 1000, as LEB128

/** A number of LEB128, and the place behind it. */
function numberAt(bytes, at) {
    let end = at;
    while (bytes[end] >= 128) end += 1;
    const digits = Array.from(bytes.subarray(at, end + 1), (it) => it & 127);
    return [digits.reduceRight((sum, it) => sum * 128 + it, 0), end + 1];
}

/** The module with a memory that another thread can write to. */
function withSharedMemory(bytes) {
    let at = 8;
    while (bytes[at] !== MEMORY_SECTION) {
        const [length, body] = numberAt(bytes, at + 1);
        at = body + length;
    }
    const [length, body] = numberAt(bytes, at + 1);
    const fewest = bytes.subarray(body + 2, body + length);
    const section = [1, SHARED_WITH_MOST, ...fewest, ...MOST_PAGES];
    const head = [MEMORY_SECTION, section.length];
    return Buffer.concat([bytes.subarray(0, at), Buffer.from(head.concat(section)), bytes.subarray(body + length)]);
}

// Waits for a call, then until its first signature has begun, and flips one bit of the key.
const FLIPPER = `
    const { workerData: { memory, control } } = require("node:worker_threads");
    const words = new Int32Array(control);
    for (;;) {
        Atomics.wait(words, 0, 0);
        const [, key, scratch, bit] = words;
        const found = new Int32Array(memory.buffer);
        while (Atomics.load(words, 0) === 1 && Atomics.load(found, scratch / 4) === 0);
        if (Atomics.load(words, 0) === 1) Atomics.xor(new Uint8Array(memory.buffer), key + (bit >> 3), 1 << (bit & 7));
        Atomics.store(words, 0, 0);
        Atomics.notify(words, 0);
    }
`;

const control = new SharedArrayBuffer(16);
const words = new Int32Array(control);
const memories = [];

/** A call whose key, the slice at `keyAt`, has one bit of SK.seed or SK.prf flipped meanwhile. */
function flipped(call, keyAt) {
    return (...given) => {
        words.set([Number(given[keyAt]), Number(given.at(-4)), Math.random() * 256], 1);
        Atomics.store(words, 0, 1);
        Atomics.notify(words, 0);
        const result = call(...given);
        if (Atomics.exchange(words, 0, 2) === 1) Atomics.wait(words, 0, 2);
        Atomics.store(words, 0, 0);
        return result;
    };
}

const bytes = withSharedMemory(readFileSync(process.env.SLH_WASM));
const change = (exports) => ({
    ...exports,
    slh_sign_twice: flipped(exports.slh_sign_twice, 1),
    slh_hash_sign_twice: flipped(exports.slh_hash_sign_twice, 2),
    slh_hash_sign_digest_twice: flipped(exports.slh_hash_sign_digest_twice, 2),
});
const slh = await watchInstances(memories, change, () => load(bytes));
const flipper = new Worker(FLIPPER, { eval: true, workerData: { memory: memories[0], control } });
after(() => flipper.terminate());

const secret = slh.secretKey(SLH_DSA_SHA2_128F, vectorKey());
const text = new TextEncoder().encode("letter");
const digest = new Uint8Array(32);

const forms = {
    sign: (options) => secret.sign(text, options),
    hashSign: (options) => secret.hashSign(SLH_SHA2_256, text, options),
    hashSignDigest: (options) => secret.hashSignDigest(SLH_SHA2_256, digest, options),
};

for (const [name, sign] of Object.entries(forms)) {
    test(`${name} finds a bit of the key that was flipped between its two signatures`, () => {
        const wanted = hex(sign({ deterministic: true, once: true }));
        let faults = 0;
        for (let tries = 0; tries < 400 && faults === 0; tries += 1) {
            try {
                assert.equal(hex(sign({ deterministic: true })), wanted);
            } catch (error) {
                assert.ok(error instanceof Fault, error);
                faults += 1;
            }
        }
        assert.ok(faults > 0, "no bit was flipped in time");
        assert.equal(hex(sign({ deterministic: true, once: true })), wanted);
    });
}
