// Signing in a worker: its signature, its errors, and what a signal does.
import assert from "node:assert/strict";
import { test } from "node:test";
import { Worker } from "node:worker_threads";

import { Erased, load, Refusal } from "../slh.js";
import { signInWorker } from "../worker.js";
import { start } from "../worker_threads.js";
import { isZeros, module, vectorKey } from "./support.js";

const slh = await load(module);
const message = new TextEncoder().encode("Dear reader,");
const key = () => slh.secretKey("SLH-DSA-SHA2-128f", vectorKey());

test("it is the signature that sign makes, and the key stays", async () => {
    const secret = key();
    const options = { deterministic: true, context: new Uint8Array([1, 2]) };
    const signature = await signInWorker(secret, message, { ...options, module });
    assert.deepEqual(signature, secret.sign(message, options));
    assert.equal(secret.public().verify(message, await signInWorker(secret, message, { module })), true);
});

test("the event loop goes on meanwhile", async () => {
    let ticks = 0;
    const timer = setInterval(() => (ticks += 1), 1);
    await signInWorker(key(), message, { module });
    clearInterval(timer);
    assert.ok(ticks > 3, `${ticks} ticks`);
});

test("a signal ends the work", async () => {
    const secret = slh.secretKey("SLH-DSA-SHA2-256s", slh.generate("SLH-DSA-SHA2-256s").toBytes());
    const control = new AbortController();
    const made = signInWorker(secret, message, { module, signal: control.signal });
    setTimeout(() => control.abort(new Error("enough")), 20);
    await assert.rejects(made, { message: "enough" });
    const late = AbortSignal.abort(new Error("before"));
    await assert.rejects(signInWorker(secret, message, { module, signal: late }), { message: "before" });
});

test("a signal that comes later changes nothing", async () => {
    const control = new AbortController();
    const signature = await signInWorker(key(), message, { module, signal: control.signal });
    control.abort();
    assert.equal(key().public().verify(message, signature), true);
});

test("errors are those of sign", async () => {
    const long = new Uint8Array(256);
    await assert.rejects(signInWorker(key(), message, { module, context: long }), (error) => {
        assert.ok(error instanceof Refusal);
        assert.deepEqual([error.number, error.name], [2, "ContextTooLong"]);
        return true;
    });
    await assert.rejects(signInWorker(key(), "Dear reader,", { module }), TypeError);
    await assert.rejects(signInWorker(key(), message, { module, contxt: long }), TypeError);
    const erased = key();
    erased.erase();
    await assert.rejects(signInWorker(erased, message, { module }), Erased);
});

test("options are those of sign: own ones of a plain object", async () => {
    class Options {
        get context() {
            return new Uint8Array([1, 2]);
        }
    }
    const ofClass = Object.assign(new Options(), { module });
    for (const it of [ofClass, Object.create({ module }), { module, [Symbol("context")]: 1 }, null]) {
        await assert.rejects(signInWorker(key(), message, it), TypeError);
    }
    Object.prototype.module = module;
    const made = signInWorker(key(), message);
    delete Object.prototype.module;
    await assert.rejects(made, /slh\.wasm/);
});

test("a worker without a module says so", async () => {
    await assert.rejects(signInWorker(key(), message, { module: new Uint8Array(3) }), Error);
});

test("a worker that ends early fails", async () => {
    const ends = new URL("data:text/javascript,process.exit(0)");
    const failure = await new Promise((resolve) => start(ends, assert.fail, resolve));
    assert.match(failure.message, /ended early/);
});

test("no copy of the key is left by the one that asks", async () => {
    for (const context of [new Uint8Array(3), new Uint8Array(256), () => 1]) {
        const bytes = key().toBytes();
        const made = signInWorker({ set: "SLH-DSA-SHA2-128f", toBytes: () => bytes }, message, { module, context });
        await made.catch(() => {});
        assert.ok(bytes.length === 0 || isZeros(bytes)); // given to the worker, or overwritten
    }
});

// Runs the worker, and tells whether any of its ArrayBuffers has the start of the key when it sends its answer.
const WATCHED = `
const { parentPort } = require("node:worker_threads");
const First = ArrayBuffer;
const made = [];
globalThis.ArrayBuffer = function (length) {
    made.push(new First(length));
    return made.at(-1);
};
let start;
parentPort.on("message", ({ bytes }) => {
    start = Buffer.from(bytes.subarray(0, 16));
    made.push(bytes.buffer);
});
const send = parentPort.postMessage.bind(parentPort);
parentPort.postMessage = ({ error }) => {
    send({ name: error?.name, count: made.length, left: made.some((it) => Buffer.from(it).includes(start)) });
};
import(${JSON.stringify(new URL("../sign_in_worker.js", import.meta.url).href)}).then(() => send("ready"));
`;

/** What the worker tells that signs with a context. */
async function watched(context) {
    const worker = new Worker(WATCHED, { eval: true });
    try {
        return await new Promise((resolve, reject) => {
            const asked = { set: "SLH-DSA-SHA2-128f", bytes: vectorKey(), message, options: { context }, module };
            worker.on("error", reject);
            worker.on("message", (it) => (it === "ready" ? worker.postMessage(asked) : resolve(it)));
        });
    } finally {
        worker.terminate();
    }
}

test("no copy of the key is left in the worker", async () => {
    for (const [length, wanted] of [[3, undefined], [256, "ContextTooLong"]]) {
        const { name, count, left } = await watched(new Uint8Array(length));
        assert.deepEqual([name, count > 1, left], [wanted, true, false]);
    }
});
