// Used by the tests: the module, keys of vectors/, and a look into the memory of all instances of the module.
import { readFileSync } from "node:fs";

export const repository = new URL("../../../", import.meta.url);
export const module = new WebAssembly.Module(readFileSync(process.env.SLH_WASM));

export const hex = (it) => Buffer.from(it).toString("hex");
export const unhex = (digits) => Uint8Array.from(Buffer.from(digits, "hex"));
export const isZeros = (it) => it.every((byte) => byte === 0);

/** A secret key of the set 128f in tests/vectors/ whose bytes are random: those of the first are 0, 1, 2 and so on. */
export function vectorKey() {
    const tests = JSON.parse(readFileSync(new URL("tests/vectors/slh-dsa-sha2-128f.json", repository), "utf8"));
    return unhex(tests.findLast((it) => it.kind === "sign").sk);
}

/** All eight bytes in a row of SK.seed and of SK.prf, the first half of a secret key. */
export function partsOf(sk) {
    const n = sk.length / 4;
    const places = [0, n].flatMap((from) => Array.from({ length: n - 7 }, (_, at) => from + at));
    return places.map((at) => Buffer.from(sk.subarray(at, at + 8)));
}

/**
 * Runs an action while each new instance of the module is watched: its memory is put into `memories`, and its exports
 * are those that `change` returns.
 */
export async function watchInstances(memories, change, action) {
    const { Instance, instantiate } = WebAssembly;
    const watched = (made) => {
        memories.push(made.exports.memory);
        return { exports: change({ ...made.exports }) };
    };
    WebAssembly.Instance = function (...given) {
        return watched(new Instance(...given));
    };
    WebAssembly.instantiate = async (...given) => watched(await instantiate(...given));
    try {
        return await action();
    } finally {
        Object.assign(WebAssembly, { Instance, instantiate });
    }
}

/** Whether any of these parts is in any of the memories. */
export function isIn(memories, parts) {
    return memories.some((it) => parts.some((part) => Buffer.from(it.buffer).includes(part)));
}

/** Puts each ArrayBuffer that is made while an action runs, also an asynchronous one, into a list. */
export function buffersOf(action, made = []) {
    const { ArrayBuffer } = globalThis;
    const restore = () => Object.assign(globalThis, { ArrayBuffer });
    globalThis.ArrayBuffer = function (length) {
        made.push(new ArrayBuffer(length));
        return made.at(-1);
    };
    try {
        const result = action();
        if (result instanceof Promise) return result.finally(restore).then(() => made);
    } catch (error) {
        restore();
        throw error;
    }
    restore();
    return made;
}
