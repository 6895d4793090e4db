// The self-test: each set passes, and another result of the module is told.
//
// usage: SLH_WASM=PREFIX/lib/slh.wasm node --test bindings/javascript/tests
import assert from "node:assert/strict";
import test from "node:test";

import { Fault, load, Refusal, SelfTestFailed, SLH_DSA_SHA2_128F } from "../slh.js";
import { isZeros, module, watchInstances } from "./support.js";

const DONE = 0;
const SETS = ["128s", "128f", "192s", "192f", "256s", "256f"].map((it) => `SLH-DSA-SHA2-${it}`);

/** The package over a module whose self-test gives this result if it is done, and what each call of it was given. */
async function loadWith(result) {
    const [memories, calls] = [[], []];
    const selfTest = (exports) => (...given) => {
        calls.push(given.map(Number));
        return exports.slh_self_test(...given) || result;
    };
    const change = (exports) => ({ ...exports, slh_self_test: selfTest(exports) });
    const slh = await watchInstances(memories, change, () => load(module));
    return { slh, memories, calls };
}

test("each set passes its self-test", async () => {
    const slh = await load(module);
    for (const set of [...SETS, SLH_DSA_SHA2_128F]) assert.equal(slh.selfTest(set), undefined);
});

test("another answer is told for each set", async () => {
    const { slh } = await loadWith(40);
    for (const set of SETS) {
        assert.throws(() => slh.selfTest(set), (error) => {
            assert.ok(error instanceof SelfTestFailed && !(error instanceof Refusal));
            assert.deepEqual([error.name, error.message.slice(0, 17)], ["SelfTestFailed", "40 SelfTestFailed"]);
            return true;
        });
    }
});

test("each other result is an error", async () => {
    for (const [number, kind] of [[18, Refusal], [30, Refusal], [38, Fault]]) {
        const { slh } = await loadWith(number);
        assert.throws(() => slh.selfTest(SLH_DSA_SHA2_128F), kind);
    }
});

test("what is no set is refused", async () => {
    const slh = await load(module);
    assert.throws(() => slh.selfTest(7), { number: 8, name: "NoSuchSet" });
    assert.throws(() => slh.selfTest("128f"), { number: 12, name: "UnknownSet" });
    assert.throws(() => slh.selfTest(), TypeError);
});

test("the scratch is as long as a signature, and is cleared", async () => {
    for (const result of [DONE, 40]) {
        const { slh, memories, calls } = await loadWith(result);
        if (result === DONE) slh.selfTest(SLH_DSA_SHA2_128F);
        else assert.throws(() => slh.selfTest(SLH_DSA_SHA2_128F), SelfTestFailed);
        const [[set, at, length]] = calls;
        assert.deepEqual([set, length], [SLH_DSA_SHA2_128F, slh.lengths(SLH_DSA_SHA2_128F).signature]);
        assert.ok(isZeros(new Uint8Array(memories[0].buffer, at, length)));
    }
});
