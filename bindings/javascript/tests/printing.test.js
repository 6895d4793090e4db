// All ways of printing, serialising and copying, over all holders of a secret key: no eight bytes in a row of SK.seed
// or SK.prf come out, in hexadecimal digits, decimal numbers, base64, raw or escaped.
//
// usage: SLH_WASM=PREFIX/lib/slh.wasm node --test bindings/javascript/tests
import assert from "node:assert/strict";
import { Console } from "node:console";
import inspector from "node:inspector";
import { Writable } from "node:stream";
import test from "node:test";
import { format, inspect } from "node:util";
import v8 from "node:v8";
import { MessageChannel, receiveMessageOnPort } from "node:worker_threads";

import { load, SLH_DSA_SHA2_128F } from "../slh.js";
import { hex, module, partsOf, vectorKey } from "./support.js";

const slh = await load(module);
const sk = vectorKey();
const parts = partsOf(sk);
const secret = slh.secretKey(SLH_DSA_SHA2_128F, sk);
const NAME = "SecretKey(SLH-DSA-SHA2-128f)";

// ---- the search

/** The digits of a part in base64, at each place that it can begin, without those that neighbours share. */
function base64Of(part) {
    return [0, 1, 2].map((before) => {
        const digits = Buffer.concat([Buffer.alloc(before), part]).toString("base64").replace(/=/g, "");
        return digits.slice(Math.ceil((before * 8) / 6), Math.floor(((before + part.length) * 8) / 6));
    });
}

const forms = {
    digits: parts.map((it) => it.toString("hex")),
    decimal: parts.map((it) => `,${[...it].join(",")},`),
    base64: parts.flatMap(base64Of),
    raw: parts.map((it) => it.toString("latin1")),
};

/** The forms in which a text has parts of the key. Colours are left out. */
function found(coloured) {
    const text = coloured.replace(/\x1b\[\d+m/g, "");
    const numbers = text.match(/\d+/g) ?? [];
    const every = (step, from) => numbers.filter((_, at) => at % step === from);
    const unescaped = text.replace(/\\(?:x|u00)([0-9a-f]{2})/gi, (_, digits) => String.fromCharCode(`0x${digits}`));
    const among = {
        digits: text.toLowerCase().replace(/0x|[^0-9a-f]/g, ""),
        decimal: [numbers, every(2, 0), every(2, 1), every(3, 0), every(3, 1), every(3, 2)]
            .map((it) => `,${it.join(",")},`)
            .join(" "),
        base64: text.replaceAll("-", "+").replaceAll("_", "/"),
        raw: text + unescaped + Buffer.from(text, "latin1").toString("utf8"),
    };
    return Object.keys(forms).filter((form) => forms[form].some((it) => among[form].includes(it)));
}

test("the search finds eight bytes in each form", () => {
    const part = sk.subarray(3, 11);
    const bytes = Buffer.from(part);
    const listed = Array.from(part);
    const raw = bytes.toString("latin1");
    const inDigits = listed.map((it) => it.toString(16).padStart(2, "0"));
    const padded = [0, 1, 2].map((at) => Buffer.concat([Buffer.alloc(at, 9), bytes, Buffer.alloc(5, 9)]));
    const texts = {
        digits: ["", " ", ":", ", 0x"].map((it) => inDigits.join(it)).concat(inspect(bytes), bytes.toString("hex")),
        decimal: [String(part), inspect(part), ...[part, bytes, listed].map((it) => JSON.stringify(it, null, 1))],
        base64: ["base64", "base64url"].flatMap((it) => padded.map((data) => data.toString(it))),
        raw: [raw, Buffer.from(raw, "utf8").toString("latin1"), inDigits.map((it) => `\\x${it}`).join("")],
    };
    texts.digits.push(...texts.digits.map((it) => it.toUpperCase()));
    texts.raw.push(v8.serialize(part).toString("latin1"));
    for (const [form, all] of Object.entries(texts)) {
        for (const text of all) assert.ok(found(`a ${text} b`).includes(form), `${form}: ${text}`);
    }
    assert.deepEqual(found(inspect(sk.subarray(32))), []);
    assert.deepEqual(found(inspect(sk.subarray(3, 10))), []);
});

// ---- the holders

class Server {
    name = "a";
    key = secret;
}

class Closed {
    #key = secret;
    has() {
        return this.#key === secret;
    }
}

const holders = {
    "the key": secret,
    "a property": { key: secret },
    "a property by a symbol": { [Symbol("key")]: secret },
    "a property that is not enumerable": Object.defineProperty({}, "key", { value: secret }),
    "a getter": {
        get key() {
            return secret;
        },
    },
    "a deep property": { a: { b: { c: { d: { key: secret } } } } },
    "a field": new Server(),
    "a private field": new Closed(),
    "a list": [1, secret],
    "a map's value": new Map([["key", secret]]),
    "a map's key": new Map([[secret, 1]]),
    "a set": new Set([secret]),
    "a weak map": new WeakMap([[secret, secret]]),
    "a weak set": new WeakSet([secret]),
    "a closure": () => secret,
    "a bound function": function () {}.bind(secret, secret),
    "an iterator": [secret].values(),
    "a map's iterator": new Map([["key", secret]]).entries(),
    "a promise": Promise.resolve(secret),
    "a proxy": new Proxy(secret, {}),
    "a proxy's handler": new Proxy({}, { key: secret }),
    "a derived object": Object.create(secret),
    "an error's cause": new Error("cause", { cause: secret }),
    "an error's property": Object.assign(new Error("property"), { key: secret }),
    "an error of errors": new AggregateError([secret], "errors"),
    "an error's message": new Error(`the key ${secret}`),
    "the methods": Object.getPrototypeOf(secret),
    "a library": { slh, secret },
};

// ---- the ways

const WHOLE = { depth: null, maxArrayLength: null, maxStringLength: null };
const ALL = { ...WHOLE, showHidden: true, colors: true, getters: true, showProxy: true };

/** The text that a console writes. */
function printed(write) {
    const pieces = [];
    const stream = new Writable({
        write(piece, _, done) {
            pieces.push(String(piece));
            done();
        },
    });
    write(new Console(stream));
    return pieces.join("");
}

function thrown(action) {
    try {
        action();
        return "";
    } catch (error) {
        return `${error.message} ${error.stack} ${inspect(error, ALL)} ${inspect(error, { customInspect: false })}`;
    }
}

function posted(it) {
    const { port1, port2 } = new MessageChannel();
    try {
        port1.postMessage(it);
        return inspect(receiveMessageOnPort(port2), ALL);
    } finally {
        port1.close();
    }
}

function namesAndValues(it) {
    const lines = [];
    for (const name in it) lines.push(name, inspect(it[name], ALL));
    return lines.join();
}

const session = new inspector.Session();
session.connect();

/** Asks the debugger at once: its answers come before `post` returns. */
function ask(method, parameters) {
    let answer;
    session.post(method, parameters, (error, result) => {
        answer = error ? assert.fail(error.message) : result;
    });
    return answer;
}

const ASIDE = ["[[Prototype]]", "[[Scopes]]", "[[FunctionLocation]]", "__proto__", "constructor"];

/** A value as a debugger or a console of a browser shows it, with its fields, some levels deep. */
function shown(value, levels = 7) {
    if (!value?.objectId || levels === 0 || Number(/\((\d+)\)/.exec(value.description)?.[1]) > 300) return "";
    const { objectId } = value;
    const got = ask("Runtime.getProperties", { objectId, ownProperties: true, generatePreview: true });
    const all = [...got.result, ...(got.privateProperties ?? []), ...(got.internalProperties ?? [])];
    const inside = all.filter(({ name }) => !ASIDE.includes(name));
    return JSON.stringify(inside) + inside.map((it) => shown(it.value, levels - 1)).join("\n");
}

function inDebugger(it) {
    globalThis.held = it;
    try {
        const { result } = ask("Runtime.evaluate", { expression: "held", generatePreview: true });
        return JSON.stringify(result) + shown(result);
    } finally {
        delete globalThis.held;
    }
}

const ways = {
    "console.log": (it) => printed((to) => to.log(it)),
    "console.log of a format": (it) => printed((to) => to.log("%s %o %O %j %d", it, it, it, it, it)),
    "console.error": (it) => printed((to) => to.error("failed", it)),
    "console.dir": (it) => printed((to) => to.dir(it, ALL)),
    "console.table": (it) => printed((to) => to.table([it])),
    "console.table of rows": (it) => printed((to) => to.table(it)),
    "console.trace": (it) => printed((to) => to.trace(it)),
    "console.assert": (it) => printed((to) => to.assert(false, it)),
    inspect: (it) => inspect(it),
    "inspect of all": (it) => inspect(it, ALL),
    "inspect of all, without custom functions": (it) => inspect(it, { ...ALL, customInspect: false }),
    "inspect in lines": (it) => inspect(it, { ...ALL, compact: false, sorted: true, breakLength: 1 }),
    "format %s": (it) => format("%s", it),
    "format %d": (it) => format("%d", it),
    "format %i": (it) => format("%i", it),
    "format %f": (it) => format("%f", it),
    "format %j": (it) => format("%j", it),
    "format %o": (it) => format("%o", it),
    "format %O": (it) => format("%O", it),
    "format %c": (it) => format("%c %s", it, it),
    format: (it) => format(it, it),
    "JSON.stringify": (it) => String(JSON.stringify(it)),
    "JSON.stringify in lines": (it) => String(JSON.stringify([it], null, 2)),
    "JSON.stringify of each value": (it) => String(JSON.stringify(it, (_, value) => value)),
    structuredClone: (it) => inspect(structuredClone(it), ALL),
    postMessage: posted,
    "v8.serialize": (it) => v8.serialize(it).toString("latin1"),
    spread: (it) => inspect({ ...it }, ALL),
    "spread as arguments": (it) => inspect([...it], ALL),
    "Object.assign": (it) => inspect(Object.assign({}, it), ALL),
    "Object.entries": (it) => inspect(Object.entries(it), ALL),
    "Object.values": (it) => inspect(Object.values(it), ALL),
    "own properties": (it) => inspect(Object.getOwnPropertyDescriptors(it), ALL),
    "for in": namesAndValues,
    String: (it) => String(it),
    template: (it) => `${it}`,
    concatenation: (it) => it + "",
    toString: (it) => it.toString(),
    toLocaleString: (it) => it.toLocaleString(),
    "valueOf": (it) => inspect(it.valueOf(), ALL),
    "assert.equal": (it) => thrown(() => assert.equal(it, 1)),
    "assert.deepEqual": (it) => thrown(() => assert.deepEqual(it, { key: 1 })),
    "assert.deepEqual of lists": (it) => thrown(() => assert.deepEqual([it], [2])),
    "assert.fail": (it) => thrown(() => assert.fail(`${it}`)),
    "assert.match": (it) => thrown(() => assert.match(it, /x/)),
    "assert.ifError": (it) => thrown(() => assert.ifError(it)),
    "an error that is thrown": (it) => thrown(() => {
        throw new Error("thrown", { cause: it });
    }),
    "an error of an argument": (it) => thrown(() => process.chdir(it)),
    "a call of another key": (it) => thrown(() => slh.secretKey(SLH_DSA_SHA2_128F, it)),
    "a set": (it) => thrown(() => slh.lengths(it)),
    "an option": (it) => thrown(() => secret.sign(new Uint8Array(1), it)),
    "a debugger": inDebugger,
};

/** The text of a way, and that of its error if it refuses. */
function outcome(way, it) {
    let text = "";
    const refused = thrown(() => {
        text = way(it);
    });
    return text + refused;
}

// These ways print no part of their argument, or not all of it.
const TELL_LESS = [
    "format %s", "format %d", "format %i", "format %f", "an error of an argument", "a call of another key", "a set",
    "an option",
];

test("each way tells bytes that are no key's", () => {
    for (const [name, way] of Object.entries(ways)) {
        const tells = [sk, Array.from(sk), hex(sk)].some((it) => found(outcome(way, it)).length > 0);
        assert.ok(tells || TELL_LESS.includes(name), `${name}: ${outcome(way, sk)}`);
    }
});

for (const [name, way] of Object.entries(ways)) {
    test(`secrets do not come out by ${name}`, () => {
        for (const [holder, it] of Object.entries(holders)) {
            assert.deepEqual(found(outcome(way, it)), [], `${holder} tells the key`);
        }
    });
}

test("a secret key is printed as its set", () => {
    for (const text of [inspect(secret, ALL), `${secret}`, secret + "", JSON.parse(JSON.stringify(secret))]) {
        assert.equal(text, NAME);
    }
    assert.equal(inspect([secret]), `[ ${NAME} ]`);
    assert.deepEqual(Reflect.ownKeys(secret), []);
});

test("a public key is printed as its set", () => {
    const publicKey = secret.public();
    const name = "PublicKey(SLH-DSA-SHA2-128f)";
    for (const text of [inspect(publicKey, ALL), `${publicKey}`, JSON.parse(JSON.stringify(publicKey))]) {
        assert.equal(text, name);
    }
});

test("secret bytes that are taken for a public key are not printed", () => {
    const mistaken = slh.publicKey("SLH-DSA-SHA2-256f", sk);
    for (const [name, way] of Object.entries(ways)) {
        assert.deepEqual(found(outcome(way, mistaken)), [], name);
    }
});
