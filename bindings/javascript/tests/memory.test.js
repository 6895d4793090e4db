// After each way out of a call no eight bytes of SK.seed or SK.prf are in the memory of any instance of the module.
//
// usage: SLH_WASM=PREFIX/lib/slh.wasm node --test bindings/javascript/tests
import assert from "node:assert/strict";
import test from "node:test";
import { runInNewContext } from "node:vm";

import * as pkix from "../pkix.js";
import * as names from "../slh.js";
import { buffersOf, hex, isIn, isZeros, module, partsOf, vectorKey, watchInstances } from "./support.js";

const { Erased, Fault, load, Refusal, SLH_DSA_SHA2_128F, SLH_SHA2_256, Trap } = names;

const sk = vectorKey();
const parts = partsOf(sk);
const digits = parts.map((it) => Buffer.from(hex(it)));
const file = `slh-dsa-secret 2\nSLH-DSA-SHA2-128f\n${hex(sk)}\n`;
const seeds = [0, 16, 32].map((at) => sk.subarray(at, at + 16));
const text = new TextEncoder().encode("letter");
const digest = new Uint8Array(32);
const memories = [];

/** A library whose module has its exports changed, and whose memories are looked at. */
const watched = (change) => watchInstances(memories, change, () => load(module));

const slh = await watched((exports) => exports);
const secret = slh.secretKey(SLH_DSA_SHA2_128F, sk);
const publicKey = secret.public();
const signature = secret.sign(text, { deterministic: true });
const [der, pem] = [pkix.toDer(slh, secret), pkix.toPem(slh, secret)];

/** Eight characters in a row of the base64 of SK.seed and SK.prf. A line of it ends after the 64th. */
const letters = Array.from({ length: 64 - 7 - 28 }, (_, at) => Buffer.from(Buffer.from(der).toString("base64", 0, 48))
    .subarray(28 + at, 36 + at));

test("the search finds parts of a key", () => {
    const memory = new WebAssembly.Memory({ initial: 1 });
    for (const at of [0, 8, 16, 24]) {
        new Uint8Array(memory.buffer).set(sk.subarray(at, at + 8), 12345);
        assert.ok(isIn([memory], parts));
        new Uint8Array(memory.buffer).fill(0);
    }
    new Uint8Array(memory.buffer).set(pem, 12345);
    assert.ok(letters.every((it) => isIn([memory], [it])));
    new Uint8Array(memory.buffer).fill(0);
    new Uint8Array(memory.buffer).set(sk.subarray(32), 12345);
    assert.ok(!isIn([memory], parts));
});

function expectNothing(name) {
    assert.ok(memories.length > 0);
    assert.ok(!isIn(memories, [...parts, ...digits, ...letters]), `${name}: the key is in the module's memory`);
    memories.splice(0, memories.length - 1);
}

/** The calls of a key and of a library by one argument, whose position is the name. */
const callsBy = {
    "message of sign": (it) => secret.sign(it),
    "message of sign, once and verified": (it) => secret.sign(it, { once: true, verify: true }),
    "context of sign": (it) => secret.sign(text, { context: it }),
    "randomizer of sign": (it) => secret.sign(text, { randomizer: it }),
    "options of sign": (it) => secret.sign(text, it),
    "function of hashSign": (it) => secret.hashSign(it, text),
    "message of hashSign": (it) => secret.hashSign(SLH_SHA2_256, it),
    "context of hashSign": (it) => secret.hashSign(SLH_SHA2_256, text, { context: it }),
    "digest of hashSignDigest": (it) => secret.hashSignDigest(SLH_SHA2_256, it),
    "context of hashSignDigest": (it) => secret.hashSignDigest(SLH_SHA2_256, digest, { context: it }),
    "first seed of keygen": (it) => slh.keygen(SLH_DSA_SHA2_128F, it, seeds[1], seeds[2]),
    "second seed of keygen": (it) => slh.keygen(SLH_DSA_SHA2_128F, seeds[0], it, seeds[2]),
    "third seed of keygen": (it) => slh.keygen(SLH_DSA_SHA2_128F, seeds[0], seeds[1], it),
    "bytes of secretKey": (it) => slh.secretKey(SLH_DSA_SHA2_128F, it),
    "bytes of publicKey": (it) => slh.publicKey(SLH_DSA_SHA2_128F, it),
    "message of verify": (it) => publicKey.verify(it, signature),
    "signature of verify": (it) => publicKey.verify(text, it),
    "context of verify": (it) => publicKey.verify(text, signature, { context: it }),
};

function detached() {
    const bytes = new Uint8Array(16);
    structuredClone(bytes, { transfer: [bytes.buffer] });
    return bytes;
}

function shrunk() {
    const buffer = new ArrayBuffer(32, { maxByteLength: 64 });
    const bytes = new Uint8Array(buffer, 16, 16);
    buffer.resize(8);
    return bytes;
}

class Throws extends Uint8Array {
    get length() {
        throw new Error("no length");
    }
}

/** An array that says it has another length. */
function saying(length) {
    class Liar extends Uint8Array {
        get length() {
            return length;
        }
        get byteLength() {
            return length;
        }
    }
    return new Liar(16);
}

const isTypeError = (error) => error instanceof TypeError;

/** Values that are not arrays of bytes: each is a TypeError at each position. */
const notBytes = {
    "a detached array": detached,
    "an array over a buffer that has shrunk": shrunk,
    "a proxy of an array": () => new Proxy(new Uint8Array(16), {}),
    "an object with the prototype of arrays": () => Object.create(Uint8Array.prototype),
    "an array-like object": () => ({ length: 2 ** 40 }),
    "an array of 16 bits": () => new Uint16Array(16),
    "an array of 16 bits that seems of bytes": () => Object.setPrototypeOf(new Uint16Array(8), Uint8Array.prototype),
    "an ArrayBuffer": () => new ArrayBuffer(16),
    "a view": () => new DataView(new ArrayBuffer(16)),
    "a list": () => new Array(16).fill(0),
    "a text": () => "sixteen letters.",
    "null": () => null,
    "a number": () => 7.5,
    "a function": () => () => 7,
};

for (const [what, make] of Object.entries(notBytes)) {
    test(`${what} is refused at each position, and nothing is left`, () => {
        for (const [position, call] of Object.entries(callsBy)) {
            assert.throws(() => call(make()), isTypeError, position);
            expectNothing(position);
        }
    });
}

test("an array has the length that the engine knows", () => {
    const of = (bytes) => hex(secret.sign(bytes, { deterministic: true }));
    const wanted = of(new Uint8Array(16));
    const liars = [0, -1, 5, 17, 2 ** 31, 2 ** 40, 2 ** 53, NaN, Infinity, 1.5, "4", 16n, null, {}].map(saying);
    for (const it of [...liars, new Throws(16)]) {
        assert.equal(of(it), wanted);
        expectNothing("a lying length");
    }
    assert.equal(hex(slh.keygen(SLH_DSA_SHA2_128F, ...seeds.map((it) => Throws.from(it))).toBytes()), hex(sk));
    expectNothing("keygen");
});

test("arrays of another realm are taken", () => {
    const other = runInNewContext("new Uint8Array([108, 101, 116, 116, 101, 114])");
    assert.ok(!(other instanceof Uint8Array));
    assert.equal(publicKey.verify(other, signature), true);
    assert.equal(publicKey.verify(text, signature, runInNewContext("({ context: new Uint8Array(0) })")), true);
});

test("arrays over shared and resizable buffers are read as they are when they are handed in", () => {
    const of = (bytes) => hex(secret.sign(bytes, { deterministic: true }));
    const wanted = of(new Uint8Array(16).fill(9));
    const resizable = new ArrayBuffer(8, { maxByteLength: 64 });
    const tracking = new Uint8Array(resizable);
    resizable.resize(16);
    const growable = new SharedArrayBuffer(8, { maxByteLength: 64 });
    const shared = new Uint8Array(growable);
    growable.grow(16);
    for (const it of [tracking, shared, new Uint8Array(new SharedArrayBuffer(16))]) {
        assert.equal(of(it.fill(9)), wanted);
        expectNothing("a shared or resizable buffer");
    }
});

test("a message that the memory has no room for is a RangeError, and the next call works", () => {
    const large = new Uint8Array(2 ** 32);
    for (const call of [callsBy["message of sign"], callsBy["message of hashSign"], callsBy["message of verify"]]) {
        assert.throws(() => call(large), RangeError);
        expectNothing("no room");
    }
    assert.equal(publicKey.verify(text, signature), true);
});

test("an option that throws leaves nothing, and is read once", () => {
    for (const name of ["context", "randomizer", "deterministic", "once", "twice", "verify"]) {
        let count = 0;
        const options = {
            get [name]() {
                count += 1;
                throw new Error("thrown by the caller");
            },
        };
        for (const call of [
            () => secret.sign(text, options),
            () => secret.hashSign(SLH_SHA2_256, text, options),
            () => secret.hashSignDigest(SLH_SHA2_256, digest, options),
        ]) {
            count = 0;
            assert.throws(call, { message: "thrown by the caller" });
            assert.equal(count, 1);
            expectNothing(name);
        }
    }
});

test("a refusal leaves nothing", () => {
    const refused = [
        () => secret.sign(text, { context: new Uint8Array(256) }),
        () => secret.sign(text, { context: new Uint8Array(256), once: true, verify: true }),
        () => secret.sign(text, { randomizer: new Uint8Array(15) }),
        () => secret.hashSign(7, text),
        () => secret.hashSign(7, text, { once: true }),
        () => secret.hashSignDigest(SLH_SHA2_256, digest.subarray(1)),
        () => secret.hashSignDigest(SLH_SHA2_256, digest.subarray(1), { once: true }),
        () => slh.keygen(SLH_DSA_SHA2_128F, seeds[0], seeds[1], digest),
        () => slh.keygen(SLH_DSA_SHA2_128F, seeds[0], digest, seeds[2]),
        () => slh.secretKey(SLH_DSA_SHA2_128F, sk.subarray(1)),
        () => slh.publicKey(SLH_DSA_SHA2_128F, sk),
        () => slh.parseSecretKey(`${file}x`),
        () => slh.parsePublicKey(file),
        () => pkix.secretKeyFromDer(slh, der.subarray(1)),
        () => pkix.publicKeyFromDer(slh, der),
        () => pkix.secretKeyFromPem(slh, pem.subarray(1)),
        () => pkix.publicKeyFromPem(slh, pem),
    ];
    for (const call of refused) {
        assert.throws(call, Refusal);
        expectNothing(String(call));
    }
});

test("a call that is done leaves nothing", () => {
    const hows = [{}, { once: true }, { verify: true }, { once: true, verify: true, deterministic: true }];
    for (const options of hows) {
        secret.sign(text, options);
        expectNothing("sign");
        secret.hashSign(SLH_SHA2_256, text, options);
        expectNothing("hashSign");
        secret.hashSignDigest(SLH_SHA2_256, digest, options);
        expectNothing("hashSignDigest");
    }
    slh.keygen(SLH_DSA_SHA2_128F, ...seeds);
    expectNothing("keygen");
    assert.equal(secret.check(), true);
    expectNothing("check");
    secret.public();
    expectNothing("public");
    slh.parseSecretKey(file);
    expectNothing("parseSecretKey");
    secret.format();
    expectNothing("format");
    for (const [read, write] of [[pkix.secretKeyFromDer, pkix.toDer], [pkix.secretKeyFromPem, pkix.toPem]]) {
        const written = write(slh, secret);
        expectNothing(write.name);
        read(slh, written);
        expectNothing(read.name);
    }
    assert.equal(publicKey.verify(sk, signature), false);
    expectNothing("verify");
});

test("a key that is erased while the options are read signs nothing", () => {
    for (const name of ["context", "randomizer"]) {
        const other = slh.secretKey(SLH_DSA_SHA2_128F, sk);
        const options = {
            get [name]() {
                other.erase();
                return undefined;
            },
        };
        assert.throws(() => other.sign(text, options), Erased);
        expectNothing(name);
    }
});

/** Fails unless a call throws a Fault, and all bytes of a signature's or a key's length that it had are zeros. */
function expectFault(name, call, length = signature.length) {
    const made = buffersOf(() => assert.throws(call, (error) => error instanceof Fault && error.name === "Fault"));
    const found = made.filter((it) => it.byteLength === length);
    assert.ok(found.length > 0);
    for (const it of found) assert.ok(isZeros(new Uint8Array(it)), name);
    expectNothing(name);
}

test("a signature that is not valid under the key's own public part is a fault with verify", () => {
    const wrongRoot = Uint8Array.from(sk);
    wrongRoot[63] ^= 1;
    const wrong = slh.secretKey(SLH_DSA_SHA2_128F, wrongRoot);
    for (const options of [{ verify: true }, { verify: true, once: true }]) {
        expectFault("sign", () => wrong.sign(text, options));
        expectFault("hashSign", () => wrong.hashSign(SLH_SHA2_256, text, options));
        expectFault("hashSignDigest", () => wrong.hashSignDigest(SLH_SHA2_256, digest, options));
    }
    assert.equal(wrong.sign(text, { verify: false, once: true }).length, signature.length);
});

const signing = {
    slh_sign: (key, options) => key.sign(text, options),
    slh_hash_sign: (key, options) => key.hashSign(SLH_SHA2_256, text, options),
    slh_hash_sign_digest: (key, options) => key.hashSignDigest(SLH_SHA2_256, digest, options),
};

for (const [name, sign] of Object.entries(signing)) {
    test(`a bit of the signature that ${name} flips is found by verify`, async () => {
        const library = await watched((exports) => ({
            ...exports,
            [name]: (...words) => {
                const result = exports[name](...words);
                new Uint8Array(exports.memory.buffer)[Number(words.at(-2)) + 4000] ^= 4;
                return result;
            },
        }));
        const key = library.secretKey(SLH_DSA_SHA2_128F, sk);
        expectFault(name, () => sign(key, { once: true, verify: true }));
        assert.equal(sign(key, { once: true }).length, signature.length);
    });

    // The module returns SLH_FAULT, as it does if the signatures differ, and leaves the key in its scratch.
    test(`SLH_FAULT of ${name}_twice is a Fault`, async () => {
        let count = 0;
        const library = await watched((exports) => ({
            ...exports,
            [`${name}_twice`]: (...words) => {
                const scratch = Number(words.at(-4));
                assert.deepEqual(words.slice(-3), [34176n, words.at(-2), 17088n]);
                new Uint8Array(exports.memory.buffer).set(sk, scratch + 30000);
                count += 1;
                return 38;
            },
        }));
        const key = library.secretKey(SLH_DSA_SHA2_128F, sk);
        expectFault(name, () => sign(key, {}));
        expectFault(name, () => sign(key, { verify: true }));
        expectFault(name, () => sign(key, { once: true, twice: true }));
        expectFault(name, () => sign(key, { twice: true }));
        assert.equal(count, 4);
        assert.equal(sign(key, { once: true }).length, signature.length);
        assert.equal(count, 4);
    });
}

for (const at of [0, 32, 63]) {
    test(`a bit of byte ${at} of a new key that flips is found`, async () => {
        const library = await watched((exports) => ({
            ...exports,
            slh_keygen: (...words) => {
                const result = exports.slh_keygen(...words);
                new Uint8Array(exports.memory.buffer)[Number(words.at(-2)) + at] ^= 1;
                return result;
            },
        }));
        expectFault("keygen", () => library.keygen(SLH_DSA_SHA2_128F, ...seeds), sk.length);
        expectFault("generate", () => library.generate(SLH_DSA_SHA2_128F), sk.length);
    });
}

// The module traps if a message ends behind the memory.
const BEHIND = 2n ** 31n;

const traps = {
    slh_keygen: (library) => library.keygen(SLH_DSA_SHA2_128F, ...seeds),
    slh_public: (_, key) => key.public(),
    slh_check: (_, key) => key.check(),
    slh_key_read: (library) => library.parseSecretKey(file),
    slh_key_write: (_, key) => key.format(),
    slh_der_read: (library) => pkix.secretKeyFromDer(library, der),
    slh_der_write: (library, key) => pkix.toDer(library, key),
    slh_pem_read: (library) => pkix.secretKeyFromPem(library, pem),
    slh_pem_write: (library, key) => pkix.toPem(library, key),
    slh_sign: (_, key) => key.sign(text, { once: true }),
    slh_hash_sign: (_, key) => key.hashSign(SLH_SHA2_256, text, { once: true }),
    slh_hash_sign_digest: (_, key) => key.hashSignDigest(SLH_SHA2_256, digest, { once: true }),
    slh_sign_twice: (_, key) => key.sign(text),
    slh_hash_sign_twice: (_, key) => key.hashSign(SLH_SHA2_256, text),
    slh_hash_sign_digest_twice: (_, key) => key.hashSignDigest(SLH_SHA2_256, digest),
    slh_verify: (_, key) => key.sign(text, { verify: true }),
};

/** A library in whose module a call, after its work, does something. Parts of the key are in the memory then. */
function withEnd(name, act) {
    return watched((exports) => {
        const ended = (...words) => {
            exports[name](...words);
            assert.equal(isIn([exports.memory], parts), name !== "slh_verify");
            return act(exports);
        };
        return { ...exports, [name]: ended };
    });
}

const readBehind = ({ slh_verify }) => slh_verify(SLH_DSA_SHA2_128F, 0, 32n, 0, BEHIND, 0, 0n, 0, 17088n);
const withTrap = (name) => withEnd(name, readBehind);

test("a call that runs out of the engine's stack is a trap", async () => {
    const forever = () => 1 + forever();
    const library = await withEnd("slh_sign_twice", forever);
    const key = library.secretKey(SLH_DSA_SHA2_128F, sk);
    assert.throws(() => key.sign(text), (error) => error instanceof Trap && error.cause instanceof RangeError);
    expectNothing("out of stack");
    assert.equal(publicKey.verify(text, key.sign(text)), true);
});

for (const [name, act] of Object.entries(traps)) {
    test(`a trap in ${name} leaves nothing, and the next call takes a new instance`, async () => {
        const library = await withTrap(name);
        const key = library.secretKey(SLH_DSA_SHA2_128F, sk);
        const judge = library.publicKey(SLH_DSA_SHA2_128F, sk.subarray(32));
        await watchInstances(memories, (exports) => exports, () => {
            const before = memories.length;
            assert.throws(() => act(library, key), (error) => {
                assert.ok(error instanceof Trap && error.cause instanceof WebAssembly.RuntimeError);
                assert.match(error.message, /trapped.*new instance/);
                return error.name === "Trap";
            });
            assert.ok(isZeros(new Uint8Array(memories[before - 1].buffer)));
            expectNothing(name);
            act(library, key);
            assert.equal(memories.length, 2);
            expectNothing(name);
            assert.equal(judge.verify(text, key.sign(text)), true);
            assert.equal(memories.length, 1);
        });
    });
}
