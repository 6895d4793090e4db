// Many signatures in one call: those that other implementations made, and damaged ones.
import assert from "node:assert/strict";
import { readFileSync, readdirSync } from "node:fs";
import test from "node:test";

import { load, SLH_DSA_SHA2_128F } from "../slh.js";
import { module, repository, unhex } from "./support.js";

const slh = await load(module);
const folder = new URL("tests/vectors/", repository);
const files = readdirSync(folder).filter((it) => /^slh-dsa-.*\.json$/.test(it));
const tests = files
    .flatMap((file) => JSON.parse(readFileSync(new URL(file, folder), "utf8")))
    .filter((it) => it.kind === "verify" && it.form === "pure");
const items = tests.map((it) => ({
    publicKey: slh.publicKey(it.set, unhex(it.pk)),
    message: unhex(it.message),
    signature: unhex(it.signature),
    context: unhex(it.context),
}));

const bytes = (text) => Uint8Array.from(Buffer.from(text, "utf8"));

test("verdicts are those of other implementations, of several sets", () => {
    assert.ok(tests.length > 90);
    for (const count of [0, 1, 7, 8, 9, 17]) {
        for (let first = 0; first + count <= tests.length; first += 7) {
            const wanted = tests.slice(first, first + count).map((it) => it.valid);
            assert.deepEqual(slh.verifyMany(items.slice(first, first + count)), wanted, `${count} from ${first} on`);
        }
    }
});

test("one damaged item is found at its place", () => {
    const [secret, other] = [slh.generate(SLH_DSA_SHA2_128F), slh.generate(SLH_DSA_SHA2_128F)];
    const message = bytes("letter");
    const signature = secret.sign(message);
    const damaged = Uint8Array.from(signature);
    damaged[damaged.length - 1] ^= 1;
    const good = { publicKey: secret.public(), message, signature };
    const changes = [
        { publicKey: other.public() }, { message: bytes("letters") }, { message: bytes("") },
        { context: bytes("context") }, { context: new Uint8Array(256) },
        { signature: damaged }, { signature: signature.subarray(1) }, { signature: bytes("") },
    ];
    for (const [count, place] of [[1, 0], [7, 3], [8, 0], [8, 7], [9, 8], [17, 8], [17, 16]]) {
        for (const change of changes) {
            const given = Array.from({ length: count }, () => good);
            given[place] = { ...good, ...change };
            const wanted = given.map((_, it) => it !== place);
            assert.deepEqual(slh.verifyMany(given.values()), wanted, `${count} items, ${place}: ${Object.keys(change)}`);
        }
    }
});

test("an item of another kind is refused", () => {
    const secret = slh.generate(SLH_DSA_SHA2_128F);
    const good = { publicKey: secret.public(), message: bytes("letter"), signature: bytes("") };
    const bad = [
        { publicKey: secret }, { publicKey: new Uint8Array(32) }, { message: "letter" }, { signature: undefined },
        { context: null },
    ];
    for (const change of bad) assert.throws(() => slh.verifyMany([good, { ...good, ...change }]), TypeError);
    assert.throws(() => slh.verifyMany(7), TypeError);
});
