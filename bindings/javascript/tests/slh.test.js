// Tests over slh.wasm, with signatures and keys that other implementations made (tests/vectors/README.md).
//
// usage: SLH_WASM=PREFIX/lib/slh.wasm node --test bindings/javascript/tests
import assert from "node:assert/strict";
import { createHash } from "node:crypto";
import { readFileSync, readdirSync } from "node:fs";
import test from "node:test";

import * as names from "../slh.js";
import { hex, isZeros, module, repository, unhex, watchInstances } from "./support.js";

const { Erased, load, Refusal, SLH_DSA_SHA2_128F, SLH_SHA2_256 } = names;
const slh = await load(module);

const FILES = readdirSync(new URL("tests/vectors/", repository)).filter((it) => /^slh-dsa-.*\.json$/.test(it));
const VECTORS = FILES.flatMap((file) => JSON.parse(readFileSync(new URL(`tests/vectors/${file}`, repository), "utf8")));

const bytes = (text) => Uint8Array.from(Buffer.from(text, "utf8"));
const setOf = (it) => names[it.set.replaceAll("-", "_").toUpperCase()];
const functionOf = (it) => names[`SLH_${it.form.replace(/[-/]/g, "_")}`];

/** The tests of a kind, but for those of the internal form, which this module does not offer. */
function ofKind(kind) {
    assert.equal(FILES.length, 6);
    const found = VECTORS.filter((it) => it.kind === kind && it.form !== "internal");
    assert.ok(found.length > 12);
    return found;
}

function digestOf(it) {
    const name = it.form.replace("SHA2-", "sha").replace("/", "-");
    return Uint8Array.from(createHash(name).update(unhex(it.message)).digest());
}

test("keys are those of their seeds", () => {
    const tests = ofKind("keygen");
    const sets = [...new Set(tests.map((it) => it.set))];
    assert.equal(sets.length, 6);
    for (const it of sets.map((set) => tests.findLast((other) => other.set === set))) {
        const secret = slh.keygen(setOf(it), unhex(it.skSeed), unhex(it.skPrf), unhex(it.pkSeed));
        assert.equal(hex(secret.toBytes()), it.sk);
        assert.equal(hex(secret.public().toBytes()), it.pk);
        assert.equal(secret.check(), true);
    }
});

// The sign tests of the sets whose names end in f: of the pure form those with the first and the last randomizer, and
// two of the pre-hash forms. Of the others, which are slow, the first of 128s.
test("signatures are those of other implementations", () => {
    const tests = ofKind("sign");
    const chosen = tests.filter((it) => it.set.endsWith("128s") && it.form === "pure").slice(0, 1);
    for (const end of ["128f", "192f", "256f"]) {
        const pure = tests.filter((it) => it.set.endsWith(end) && it.form === "pure");
        const hashed = tests.filter((it) => it.set.endsWith(end) && it.form !== "pure");
        chosen.push(pure[0], pure.at(-1), hashed[0], hashed.at(-1));
    }
    assert.ok(chosen.some((it) => it.random) && chosen.some((it) => !it.random) && chosen.some((it) => it.context));
    for (const it of chosen) {
        const secret = slh.secretKey(it.set, unhex(it.sk));
        const random = it.random ? { randomizer: unhex(it.random) } : { deterministic: true };
        const how = { once: it.set.endsWith("s"), ...random }; // the sets that end in s take long
        expectSignature(secret, it, { context: unhex(it.context), ...how });
        if (it.set.endsWith("128f")) {
            expectSignature(secret, it, { context: unhex(it.context), ...how, once: true });
            expectSignature(secret, it, { context: unhex(it.context), ...how, verify: true });
            expectSignature(secret, it, { context: unhex(it.context), ...how, once: true, verify: true });
        }
    }
});

function expectSignature(secret, it, options) {
    if (it.form === "pure") {
        assert.equal(hex(secret.sign(unhex(it.message), options)), it.signature);
    } else {
        assert.equal(hex(secret.hashSign(functionOf(it), unhex(it.message), options)), it.signature);
        assert.equal(hex(secret.hashSignDigest(functionOf(it), digestOf(it), options)), it.signature);
    }
}

test("verdicts are those of other implementations", () => {
    const tests = ofKind("verify");
    assert.ok(tests.some((it) => it.valid === true) && tests.some((it) => it.valid === false));
    for (const it of tests) {
        const publicKey = slh.publicKey(setOf(it), unhex(it.pk));
        const [signature, context] = [unhex(it.signature), unhex(it.context)];
        if (it.form === "pure") {
            assert.equal(publicKey.verify(unhex(it.message), signature, { context }), it.valid);
        } else {
            const by = functionOf(it);
            assert.equal(publicKey.hashVerify(by, unhex(it.message), signature, { context }), it.valid);
            assert.equal(publicKey.hashVerifyDigest(by, digestOf(it), signature, { context }), it.valid);
        }
    }
});

const letter = bytes("letter");
const secret = slh.generate(SLH_DSA_SHA2_128F);
const publicKey = secret.public();

/** The key with one bit changed in PK.root. */
function withWrongRoot() {
    const changed = secret.toBytes();
    changed[changed.length - 1] ^= 1;
    return slh.secretKey(SLH_DSA_SHA2_128F, changed);
}

/** Fails unless a call throws this refusal, with an expected and a given length if it is about a length. */
function refused(number, name, call, expected, given) {
    const message = `${number} ${name}`;
    const lengths = expected === undefined ? "" : `: ${expected} bytes are expected, and ${given} were given`;
    assert.throws(call, (error) => {
        assert.ok(error instanceof Refusal);
        assert.deepEqual([error.number, error.name, error.message], [number, name, message + lengths]);
        return true;
    });
}

test("generated keys differ", () => {
    const other = slh.generate(SLH_DSA_SHA2_128F);
    assert.equal(other.check(), true);
    const parts = [secret, other].flatMap((it) => [0, 16, 32].map((at) => hex(it.toBytes().subarray(at, at + 16))));
    assert.equal(new Set(parts).size, 6);
});

test("randomizers are drawn", () => {
    const deterministic = { deterministic: true };
    const made = [{}, {}, deterministic, deterministic].map((options) => secret.sign(letter, options));
    assert.equal(new Set(made.map(hex)).size, 3);
    assert.equal(hex(made[2]), hex(made[3]));
    for (const signature of made) assert.equal(publicKey.verify(letter, signature), true);
    for (const length of [0, 15]) {
        const options = { randomizer: new Uint8Array(length) };
        refused(17, "BadRandomizerLength", () => secret.sign(letter, options), 16, length);
    }
    assert.throws(() => secret.sign(letter, { randomizer: new Uint8Array(16), deterministic: true }), TypeError);
    for (const name of ["deterministic", "once", "twice", "verify"]) {
        for (const other of ["false", 1, null]) {
            const message = /true or false/;
            assert.throws(() => secret.sign(letter, { [name]: other }), { name: "TypeError", message });
        }
    }
});

test("contexts have at most 255 bytes", () => {
    const [longest, longer] = [new Uint8Array(255), new Uint8Array(256)];
    const signature = secret.sign(letter, { context: longest });
    assert.equal(publicKey.verify(letter, signature, { context: longest }), true);
    for (const context of [undefined, longest.subarray(1), longer]) {
        assert.equal(publicKey.verify(letter, signature, { context }), false);
    }
    const options = { context: longer };
    for (const call of [
        () => secret.sign(letter, options),
        () => secret.hashSign(SLH_SHA2_256, letter, options),
        () => secret.hashSignDigest(SLH_SHA2_256, new Uint8Array(32), options),
    ]) {
        refused(2, "ContextTooLong", call, "at most 255", 256);
    }
});

test("damage is invalid", () => {
    const signature = secret.sign(letter);
    assert.equal(publicKey.verify(letter, signature), true);
    for (const at of [0, 16, signature.length - 1]) {
        const damaged = Uint8Array.from(signature);
        damaged[at] ^= 1;
        assert.equal(publicKey.verify(letter, damaged), false);
    }
    for (const other of [new Uint8Array(0), signature.subarray(1), Uint8Array.from([...signature, 0])]) {
        assert.equal(publicKey.verify(letter, other), false);
    }
    assert.equal(publicKey.verify(bytes("Letter"), signature), false);
    assert.equal(publicKey.hashVerify(SLH_SHA2_256, letter, signature), false);
    assert.equal(withWrongRoot().check(), false);
});

test("what is not valid is refused", () => {
    const zeros = (count) => new Uint8Array(count);
    refused(8, "NoSuchSet", () => slh.generate(7));
    refused(8, "NoSuchSet", () => slh.publicKey(0, zeros(32)));
    refused(3, "BadLength", () => slh.secretKey(SLH_DSA_SHA2_128F, zeros(63)), 64, 63);
    refused(3, "BadLength", () => slh.publicKey(SLH_DSA_SHA2_128F, zeros(33)), 32, 33);
    refused(3, "BadLength", () => slh.publicKey("SLH-DSA-SHA2-128s", zeros(64)), 32, 64);
    for (const at of [0, 1, 2]) {
        const seeds = [0, 1, 2].map((it) => zeros(it === at ? 40 + it : 16));
        refused(10, "BadSeedLength", () => slh.keygen(SLH_DSA_SHA2_128F, ...seeds), 16, 40 + at);
    }
    refused(9, "NoSuchFunction", () => secret.hashSign(7, letter));
    refused(9, "NoSuchFunction", () => secret.hashSign(7, letter, { once: true }));
    refused(9, "NoSuchFunction", () => publicKey.hashVerify(0, letter, zeros(0)));
    for (const [hash, length] of [[1, 28], [2, 32], [3, 48], [4, 64], [5, 28], [6, 32]]) {
        const other = zeros(length - 1);
        refused(16, "BadDigestLength", () => secret.hashSignDigest(hash, other), length, length - 1);
        refused(16, "BadDigestLength", () => secret.hashSignDigest(hash, other, { once: true }), length, length - 1);
        refused(16, "BadDigestLength", () => publicKey.hashVerifyDigest(hash, other, zeros(0)), length, length - 1);
    }
    assert.throws(() => secret.hashSign(2 ** 32 + 2, letter), RangeError);
    assert.throws(() => secret.sign("letter"), TypeError);
});

test("arguments of another kind are told by what is wanted", () => {
    const set = /a parameter set is needed, as SLH_DSA_SHA2_128F or "SLH-DSA-SHA2-128f"/;
    const hash = /a pre-hash function is needed, as SLH_SHA2_256/;
    const data = new Uint8Array(64);
    const bySet = [
        (it) => slh.lengths(it),
        (it) => slh.generate(it),
        (it) => slh.keygen(it, data.subarray(48), data.subarray(48), data.subarray(48)),
        (it) => slh.secretKey(it, data),
        (it) => slh.publicKey(it, data),
    ];
    for (const name of ["", "128f", "SLH-DSA-SHA2-128F", "SLH_DSA_SHA2_128F", "undefined", "length", "2"]) {
        for (const call of bySet) assert.throws(() => call(name), { name: "UnknownSet", number: 12 });
    }
    for (const wrong of [data, undefined, null, true, 2n, 2.5, NaN]) {
        for (const call of bySet) assert.throws(() => call(wrong), { name: "TypeError", message: set });
    }
    for (const wrong of ["SHA2-256", data, undefined, null, true, 2n, 2.5, NaN]) {
        for (const call of [
            () => secret.hashSign(wrong, letter),
            () => secret.hashSignDigest(wrong, data.subarray(32)),
            () => publicKey.hashVerify(wrong, letter, data),
            () => publicKey.hashVerifyDigest(wrong, data.subarray(32), data),
        ]) {
            assert.throws(call, { name: "TypeError", message: hash });
        }
    }
    const bytesNeeded = { name: "TypeError", message: /bytes are needed, as a Uint8Array/ };
    for (const wrong of ["letter", 7, undefined, [1, 2]]) {
        assert.throws(() => secret.sign(wrong), bytesNeeded);
        assert.throws(() => publicKey.verify(letter, wrong), bytesNeeded);
        assert.throws(() => publicKey.verify(wrong, data), bytesNeeded);
        assert.throws(() => slh.secretKey(SLH_DSA_SHA2_128F, wrong), bytesNeeded);
    }
    assert.throws(() => secret.sign(letter, { context: 7 }), bytesNeeded);
    for (const wrong of [7, null, "sixteen letters.", []]) {
        assert.throws(() => secret.sign(letter, { randomizer: wrong }), bytesNeeded);
    }
});

test("options of other names are refused", () => {
    const context = bytes("letters");
    const signature = secret.sign(letter);
    const [digest, hashed] = [new Uint8Array(32), secret.hashSign(SLH_SHA2_256, letter)];
    const signing = [
        (options) => secret.sign(letter, options),
        (options) => secret.hashSign(SLH_SHA2_256, letter, options),
        (options) => secret.hashSignDigest(SLH_SHA2_256, digest, options),
    ];
    const verifying = [
        (options) => publicKey.verify(letter, signature, options),
        (options) => publicKey.hashVerify(SLH_SHA2_256, letter, hashed, options),
        (options) => publicKey.hashVerifyDigest(SLH_SHA2_256, digest, hashed, options),
    ];
    for (const call of [...signing, ...verifying]) {
        assert.throws(() => call({ ctx: context }), { name: "TypeError", message: /no option ctx/ });
        for (const options of [context, "letters", 7, true, null]) assert.throws(() => call(options), TypeError);
    }
    for (const call of verifying) {
        for (const name of ["deterministic", "randomizer", "once", "twice", "verify"]) {
            const message = new RegExp(`no option ${name}`);
            assert.throws(() => call({ [name]: true }), { name: "TypeError", message });
        }
    }
});

const OPTIONS = {
    context: bytes("other"), randomizer: new Uint8Array(16), deterministic: true, once: 7, twice: 7, verify: 7,
};

test("options that Object.prototype has change nothing", () => {
    const context = bytes("letters");
    const wanted = hex(secret.sign(letter, { deterministic: true }));
    const ofRandom = hex(secret.sign(letter, { randomizer: new Uint8Array(16).fill(1), context }));
    for (const [name, value] of Object.entries(OPTIONS)) {
        Object.prototype[name] = value;
        try {
            const drawn = [secret.sign(letter), secret.sign(letter, {}), secret.sign(letter, { __proto__: null })];
            assert.equal(new Set([wanted, ...drawn.map(hex)]).size, 4, name);
            for (const it of drawn) assert.equal(publicKey.verify(letter, it), true, name);
            const given = { randomizer: new Uint8Array(16).fill(1), context };
            assert.equal(hex(secret.sign(letter, given)), ofRandom, name);
            assert.equal(hex(secret.sign(letter, { deterministic: true })), wanted, name);
        } finally {
            delete Object.prototype[name];
        }
    }
});

test("options are a plain object, and each is read once", () => {
    class Options {
        get context() {
            return bytes("letters");
        }
    }
    const inherited = Object.create({ context: bytes("letters") });
    const ofNone = Object.create(Object.create(null, { once: { value: true } }));
    for (const options of [new Options(), inherited, ofNone, [], new Map(), () => 7]) {
        assert.throws(() => secret.sign(letter, options), { name: "TypeError", message: /plain object/ });
    }
    const hidden = Object.defineProperty({}, "ctx", { value: letter, enumerable: false });
    for (const options of [hidden, { [Symbol("context")]: letter }]) {
        assert.throws(() => secret.sign(letter, options), { name: "TypeError", message: /no option/ });
    }
    let count = 0;
    const once = {
        get context() {
            count += 1;
            return count === 1 ? letter : new Uint8Array(0);
        },
    };
    const off = { randomizer: undefined, deterministic: false, once: false, verify: undefined };
    assert.equal(publicKey.verify(letter, secret.sign(letter, { ...off, ...once }), { context: letter }), true);
    count = 0;
    const signature = secret.sign(letter, Object.assign(once, { verify: true }));
    assert.equal(count, 1);
    assert.equal(publicKey.verify(letter, signature, { context: letter }), true);
});

test("messages may be longer than the memory", async () => {
    const other = await load(module);
    const long = new Uint8Array(5_000_000).fill(7);
    const signature = secret.sign(long);
    const judge = other.publicKey(SLH_DSA_SHA2_128F, publicKey.toBytes());
    assert.equal(judge.verify(long, signature), true);
    long[4_999_999] ^= 1;
    assert.equal(judge.verify(long, signature), false);
});

/** Runs an action, and returns the arrays that the package has drawn and those that it has put into the memory. */
function watched(action) {
    const { getRandomValues } = crypto;
    const { set } = Uint8Array.prototype;
    const [drawn, put] = [[], []];
    crypto.getRandomValues = (it) => (drawn.push(it), getRandomValues.call(crypto, it));
    Uint8Array.prototype.set = function (it, at) {
        put.push(it);
        set.call(this, it, at);
    };
    try {
        return { result: action(), drawn, put };
    } finally {
        crypto.getRandomValues = getRandomValues;
        Uint8Array.prototype.set = set;
    }
}

// After each call that takes a secret, the memory is as it was before the first call, with zeros in its new pages.
// The sets whose names end in s are slow.
test("no call leaves secrets in the module's memory", async () => {
    const digest = new Uint8Array(32);
    for (const set of [SLH_DSA_SHA2_128F, names.SLH_DSA_SHA2_192F, names.SLH_DSA_SHA2_256F]) {
        const memories = [];
        const library = await watchInstances(memories, (exports) => exports, () => load(module));
        const memory = () => Buffer.from(memories[0].buffer);
        const before = Buffer.from(memory());
        const expectClear = (name) => {
            assert.ok(memory().subarray(0, before.length).equals(before), `${name} of set ${set}`);
            assert.ok(isZeros(memory().subarray(before.length)), `${name} of set ${set}, behind the first pages`);
        };
        const { n } = library.lengths(set);
        const seeds = [1, 2, 3].map((byte) => new Uint8Array(n).fill(byte));
        const secret = library.keygen(set, ...seeds);
        expectClear("keygen");
        assert.equal(secret.check(), true);
        expectClear("check");
        assert.equal(secret.public().toBytes().length, 2 * n);
        expectClear("public");
        secret.sign(letter);
        expectClear("sign");
        secret.hashSign(SLH_SHA2_256, letter);
        expectClear("hashSign");
        secret.hashSignDigest(SLH_SHA2_256, digest);
        expectClear("hashSignDigest");
        secret.sign(letter, { once: true });
        expectClear("sign, once");
        assert.throws(() => secret.sign(letter, { context: new Uint8Array(256) }), { name: "ContextTooLong" });
        expectClear("a refusal");
        assert.equal(memories.length, 1);
    }
});

test("seeds and keys that the package made are erased", () => {
    const { result: made, drawn, put } = watched(() => slh.generate(SLH_DSA_SHA2_128F));
    assert.equal(drawn.length, 3);
    assert.ok(drawn.every(isZeros));
    const key = made.toBytes();
    const copies = [...put, ...watched(() => made.check()).put];
    assert.ok(copies.some((it) => hex(it) === hex(key)));
    made.erase();
    for (const it of copies) assert.ok(isZeros(it), `${it.length} bytes`);
});

test("after it was erased a key does nothing", () => {
    const bytesOfKey = secret.toBytes();
    const made = slh.secretKey(SLH_DSA_SHA2_128F, bytesOfKey);
    made.erase();
    made.erase();
    assert.equal(hex(bytesOfKey), hex(secret.toBytes()));
    const calls = [
        () => made.toBytes(),
        () => made.public(),
        () => made.check(),
        () => made.sign(letter),
        () => made.hashSign(SLH_SHA2_256, letter),
        () => made.hashSignDigest(SLH_SHA2_256, new Uint8Array(32)),
    ];
    calls.push(() => made.format());
    for (const call of calls) assert.throws(call, Erased);
    assert.ok(!(new Erased() instanceof Refusal));
    assert.equal(new Erased().name, "Erased");
    assert.equal(String(made), "SecretKey(SLH-DSA-SHA2-128f)");
});

/** What looks like a key, and is none: a Proxy, an object that inherits from it, and nothing, for a detached method. */
const disguises = (key) => [new Proxy(key, {}), Object.create(key), undefined];

/** The methods of a key, and the arguments of each for a call that would be right. */
function methodsOf(key) {
    const digest = new Uint8Array(32);
    const signature = new Uint8Array(slh.lengths(SLH_DSA_SHA2_128F).signature);
    const given = {
        sign: [letter], hashSign: [SLH_SHA2_256, letter], hashSignDigest: [SLH_SHA2_256, digest],
        verify: [letter, signature], hashVerify: [SLH_SHA2_256, letter, signature],
        hashVerifyDigest: [SLH_SHA2_256, digest, signature],
    };
    const prototype = Object.getPrototypeOf(key);
    const names = Reflect.ownKeys(prototype).filter((name) => name !== "constructor");
    assert.ok(names.length > 8);
    return names.map((name) => {
        const { get, value } = Object.getOwnPropertyDescriptor(prototype, name);
        return [String(name), value ?? get, given[name] ?? []];
    });
}

test("erase and each other method throw unless they are called on the key itself", async () => {
    const made = slh.secretKey(SLH_DSA_SHA2_128F, secret.toBytes());
    for (const key of [made, publicKey]) {
        for (const [name, method, given] of methodsOf(key)) {
            for (const it of disguises(key)) {
                await assert.rejects(async () => method.apply(it, given), TypeError, `${name} of ${typeof it}`);
            }
        }
    }
    assert.equal(hex(made.toBytes()), hex(secret.toBytes()));
    assert.throws(() => new Proxy(made, {}).erase(), /nothing was erased: call erase on the SecretKey/);
    assert.throws(() => made.erase.call(publicKey), TypeError);
    assert.ok(!isZeros(publicKey.toBytes()));
    made.erase();
    for (const it of disguises(made)) assert.throws(() => made.erase.call(it), TypeError);
});

test("a fingerprint is the SHA-256 of the bytes", async () => {
    const digest = createHash("sha256").update(publicKey.toBytes()).digest("base64");
    assert.equal(await publicKey.fingerprint(), `SHA256:${digest.slice(0, 43)}`);
});

test("a module that is damaged, or another one, is told", async () => {
    const damaged = Uint8Array.from(readFileSync(process.env.SLH_WASM)).fill(7, 600, 700);
    await assert.rejects(load(damaged), { message: /does not compile: it is damaged/ });
    const empty = Uint8Array.of(0, 97, 115, 109, 1, 0, 0, 0);
    await assert.rejects(load(empty), { message: /has no slh_\w+: it is not the slh.wasm of this version/ });
    await assert.rejects(load("slh.wasm"), TypeError);
    await assert.rejects(load(new URL("none.wasm", import.meta.url)), { code: "ENOENT" });
});

test("numbers are those of the header", () => {
    const text = readFileSync(new URL("c/include/slh_verify.h", repository), "utf8");
    for (const [list, prefix] of [["slh_set", "SLH_DSA_"], ["slh_function", "SLH_SHA2_"]]) {
        const [, listed] = new RegExp(`enum ${list} {([^}]*)}`).exec(text);
        const numbers = [...listed.matchAll(/(\w+) = (\d+)/g)].map(([, name, number]) => [name, Number(number)]);
        const exported = Object.entries(names).filter(([name]) => name.startsWith(prefix));
        assert.equal(numbers.length, 6);
        assert.deepEqual(Object.fromEntries(exported), Object.fromEntries(numbers));
    }
});

test("the version is that of the repository", () => {
    const text = readFileSync(new URL("VERSION", repository), "utf8").trim();
    const numbers = text.split(".").map(Number);
    assert.equal(slh.version(), numbers.reduce((sum, number) => 1000 * sum + number));
    const described = JSON.parse(readFileSync(new URL("../package.json", import.meta.url), "utf8"));
    assert.equal(described.version, text);
});
