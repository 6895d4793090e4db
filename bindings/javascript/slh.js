/**
 * SLH-DSA (FIPS 205) with SHA-2: keys, signing and verifying, over the WebAssembly module slh.wasm.
 *
 *     const slh = await load();
 *     const secret = slh.generate(SLH_DSA_SHA2_128F);
 *     const publicKey = secret.public();
 *     secret.check(); // true
 *     const signature = secret.sign(message);
 *     publicKey.verify(message, signature); // true
 *
 * The names are those of libslh, whose calls and proofs docs/LIBRARY.md of its repository describes. Bytes are
 * Uint8Arrays. A call that is refused throws a Refusal, with libslh's number and name. An argument of another
 * kind, or an option of another name, throws a TypeError. `verify` and `check` return true or false.
 *
 * Each signature has a fresh randomizer from crypto.getRandomValues, unless one is given or `deterministic: true` asks
 * for none. After each call, also one that throws, its arguments and results are cleared in the module's memory, and
 * the module's stack too if the call takes secrets. `erase` clears a secret key. The caller's arrays stay as they are,
 * and an engine may keep copies in its own stack and registers.
 *
 * It runs in Node 20 and later, and in browsers.
 */

import { byteLength, copyOf, NONE, zeros } from "./bytes.js";
import { Calls, keepCalls, Scratch } from "./calls.js";
import { Erased, Fault, Refusal } from "./errors.js";
import { formatKey, parseKey } from "./key_files.js";
import { readOptions, SIGN_OPTIONS } from "./options.js";
import { DIGEST_LENGTHS, NAMES } from "./sets.js";

export { Erased, Fault, Refusal, SelfTestFailed, Trap } from "./errors.js";
export {
    SLH_DSA_SHA2_128F, SLH_DSA_SHA2_128S, SLH_DSA_SHA2_192F, SLH_DSA_SHA2_192S, SLH_DSA_SHA2_256F, SLH_DSA_SHA2_256S,
    SLH_SHA2_224, SLH_SHA2_256, SLH_SHA2_384, SLH_SHA2_512, SLH_SHA2_512_224, SLH_SHA2_512_256,
} from "./sets.js";

const CONTEXT_TOO_LONG = 2;
const BAD_LENGTH = 3;
const BAD_SEED_LENGTH = 10;
const UNKNOWN_SET = 12;
const BAD_DIGEST_LENGTH = 16;
const BAD_RANDOMIZER_LENGTH = 17;

const VERIFY_OPTIONS = ["context"];
const INSPECT = Symbol.for("nodejs.util.inspect.custom");

// The bytes of each key. They are not fields: consoles of browsers and debuggers print private fields, too. Those of a
// public key may be secret, if somebody took a secret key for one.
const bytesOf = new WeakMap();

// All secret keys, so that `erase` can tell one from a Proxy of it.
const secretKeys = new WeakSet();

function fillRandom(bytes) {
    return globalThis.crypto.getRandomValues(bytes);
}

function checkedNumber(it, wanted, example) {
    if (!Number.isInteger(it)) throw new TypeError(`${wanted} is needed, as ${example}`);
    if (it >>> 0 !== it) throw new RangeError(`${wanted} is a number of 32 bits, as ${example}`);
    return it;
}

/** The number of a set, which is given by it or by its name. */
function checkedSet(it) {
    if (typeof it !== "string") return checkedNumber(it, "a parameter set", 'SLH_DSA_SHA2_128F or "SLH-DSA-SHA2-128f"');
    const set = NAMES.indexOf(it);
    if (set < 0) throw new Refusal(UNKNOWN_SET, "UnknownSet", 'a set\'s name is needed, as "SLH-DSA-SHA2-128f"');
    return set;
}

function checkedFunction(it) {
    return checkedNumber(it, "a pre-hash function", "SLH_SHA2_256");
}

function checkedFlags(flags) {
    for (const [name, it] of Object.entries(flags)) {
        if (typeof it !== "boolean") throw new TypeError(`${name} is true or false`);
    }
}

/** For the refusals of a context's and of a digest's length: the expected and the given one. */
function lengthsOf(hash, text, context) {
    return {
        __proto__: null,
        [CONTEXT_TOO_LONG]: ["at most 255", byteLength(context)],
        [BAD_DIGEST_LENGTH]: [DIGEST_LENGTHS[hash], byteLength(text)],
    };
}

/** A copy of a key's bytes. Throws the Refusal BadLength if there are more or fewer. */
function keyBytes(calls, bytes, length) {
    const given = byteLength(bytes);
    if (given !== length) throw calls.refusal(BAD_LENGTH, length, given);
    return copyOf(bytes);
}

/** A public key, PK.seed and PK.root: 2n bytes. `publicKey` of a Library makes one. */
class PublicKey {
    #calls;
    #set;

    constructor(calls, set, bytes) {
        bytesOf.set(this, keyBytes(calls, bytes, calls.lengths(set).publicKey));
        this.#calls = calls;
        this.#set = set;
    }

    get set() {
        return this.#set;
    }

    toBytes() {
        return Uint8Array.from(bytesOf.get(this));
    }

    format() {
        return formatKey(this.#calls, "public", this.#set, bytesOf.get(this));
    }

    async fingerprint() {
        const digest = await globalThis.crypto.subtle.digest("SHA-256", bytesOf.get(this));
        return `SHA256:${btoa(String.fromCharCode(...new Uint8Array(digest))).replace("=", "")}`;
    }

    verify(message, signature, options = {}) {
        return this.#verify("slh_verify", [], message, signature, options);
    }

    hashVerify(hash, message, signature, options = {}) {
        return this.#verify("slh_hash_verify", [checkedFunction(hash)], message, signature, options);
    }

    hashVerifyDigest(hash, digest, signature, options = {}) {
        return this.#verify("slh_hash_verify_digest", [checkedFunction(hash)], digest, signature, options);
    }

    #verify(call, hash, text, signature, options) {
        const { context = NONE } = readOptions(options, VERIFY_OPTIONS);
        const lengths = lengthsOf(hash, text, context);
        return this.#calls.judge(call, [this.#set, ...hash], lengths, bytesOf.get(this), text, context, signature);
    }

    toString() {
        return `PublicKey(${NAMES[this.#set]})`;
    }

    toJSON() {
        return this.toString();
    }

    [INSPECT]() {
        return this.toString();
    }
}

/** A secret key, SK.seed, SK.prf, PK.seed and PK.root: 4n bytes, which are not printed. */
class SecretKey {
    #calls;
    #set;

    constructor(calls, set, bytes) {
        bytesOf.set(this, keyBytes(calls, bytes, calls.lengths(set).secretKey));
        secretKeys.add(this);
        this.#calls = calls;
        this.#set = set;
    }

    get set() {
        return this.#set;
    }

    toBytes() {
        return copyOf(this.#held());
    }

    format() {
        return formatKey(this.#calls, "secret", this.#set, this.#held());
    }

    public() {
        const { publicKey } = this.#calls.lengths(this.#set);
        const bytes = this.#calls.write("slh_public", publicKey, [this.#set], {}, this.#held());
        return new PublicKey(this.#calls, this.#set, bytes);
    }

    check() {
        return this.#calls.judge("slh_check", [this.#set], {}, this.#held());
    }

    erase() {
        if (!secretKeys.has(this)) {
            throw new TypeError("nothing was erased: call erase on the SecretKey, not on a Proxy or an object over it");
        }
        bytesOf.get(this)?.fill(0);
        bytesOf.delete(this);
    }

    /** The bytes, unless they were erased: zeros would sign, too. */
    #held() {
        const bytes = bytesOf.get(this);
        if (bytes === undefined) throw new Erased();
        return bytes;
    }

    sign(message, options = {}) {
        return this.#sign("sign", [], message, options);
    }

    hashSign(hash, message, options = {}) {
        return this.#sign("hash_sign", [checkedFunction(hash)], message, options);
    }

    hashSignDigest(hash, digest, options = {}) {
        return this.#sign("hash_sign_digest", [checkedFunction(hash)], digest, options);
    }

    #sign(form, hash, text, options) {
        const own = readOptions(options, SIGN_OPTIONS);
        const { context = NONE, once = false, twice = false, verify = false } = own;
        checkedFlags({ once, twice, verify });
        const isOnce = once && !twice; // the deprecated word prevails
        const randomizer = this.#randomizer(own);
        const { signature: length } = this.#calls.lengths(this.#set);
        const call = isOnce ? `slh_${form}` : `slh_${form}_twice`;
        const given = [this.#held(), text, context, randomizer, ...(isOnce ? [] : [new Scratch(2 * length)])];
        const lengths = lengthsOf(hash, text, context);
        const signature = this.#calls.write(call, length, [this.#set, ...hash], lengths, ...given);
        if (verify) this.#verify(`slh_${form.replace("sign", "verify")}`, hash, text, context, signature);
        return signature;
    }

    /** The n bytes of a randomizer. Only `deterministic` asks for none at all, the deterministic variant. */
    #randomizer({ randomizer, deterministic = false }) {
        checkedFlags({ deterministic });
        if (deterministic && randomizer !== undefined) {
            throw new TypeError("a deterministic signature has no randomizer");
        }
        if (deterministic) return NONE;
        const { n } = this.#calls.lengths(this.#set);
        if (randomizer === undefined) return fillRandom(zeros(n));
        const given = byteLength(randomizer);
        if (given !== n) throw this.#calls.refusal(BAD_RANDOMIZER_LENGTH, n, given);
        return randomizer;
    }

    /** Overwrites a signature and throws a Fault, unless the signature is valid under the key's own public part. */
    #verify(call, hash, text, context, signature) {
        const publicPart = this.#held().subarray(-this.#calls.lengths(this.#set).publicKey);
        let isValid = false;
        try {
            isValid = this.#calls.judge(call, [this.#set, ...hash], {}, publicPart, text, context, signature);
        } finally {
            if (!isValid) signature.fill(0);
        }
        if (!isValid) throw new Fault("the signature is not valid under the key's own public part");
    }

    toString() {
        return `SecretKey(${NAMES[this.#set]})`;
    }

    toJSON() {
        return this.toString();
    }

    [INSPECT]() {
        return this.toString();
    }
}

/** The set and the parts of an item of `verifyMany`. */
function checkedItem({ publicKey, message, signature, context = NONE }) {
    if (!(publicKey instanceof PublicKey)) throw new TypeError("an item needs a publicKey, as of publicKey()");
    return { set: publicKey.set, parts: [bytesOf.get(publicKey), message, context, signature] };
}

/** A key that was just made. Erases it and throws a Fault, unless PK.root is the root of its seeds. */
function expectConsistent(secret) {
    let isConsistent = false;
    try {
        isConsistent = secret.check();
    } finally {
        if (!isConsistent) secret.erase();
    }
    if (!isConsistent) throw new Fault("the root of the key that was made is not the one that its seeds give");
    return secret;
}

/** The calls over the module. `load` makes it. */
class Library {
    #calls;

    constructor(calls) {
        this.#calls = calls;
        keepCalls(this, calls);
    }

    version() {
        return this.#calls.call("slh_version", []);
    }

    lengths(set) {
        return this.#calls.lengths(checkedSet(set));
    }

    selfTest(set) {
        const number = checkedSet(set);
        // The scratch is the last argument. It has a signature of a known key.
        this.#calls.write("slh_self_test", this.lengths(number).signature, [number], {});
    }

    generate(set) {
        const { n } = this.lengths(set);
        const seeds = [zeros(n), zeros(n), zeros(n)];
        try {
            seeds.forEach(fillRandom);
            return this.keygen(set, ...seeds);
        } finally {
            for (const seed of seeds) seed.fill(0);
        }
    }

    keygen(set, skSeed, skPrf, pkSeed) {
        const number = checkedSet(set);
        const { n, secretKey } = this.lengths(number);
        const seeds = [skSeed, skPrf, pkSeed];
        const given = seeds.map(byteLength).find((it) => it !== n);
        const made = this.#calls.write("slh_keygen", secretKey, [number], { [BAD_SEED_LENGTH]: [n, given] }, ...seeds);
        return expectConsistent(this.#takeKey(number, made));
    }

    secretKey(set, bytes) {
        return new SecretKey(this.#calls, checkedSet(set), bytes);
    }

    publicKey(set, bytes) {
        return new PublicKey(this.#calls, checkedSet(set), bytes);
    }

    verifyMany(items) {
        const given = [...items].map(checkedItem);
        const valid = given.map(() => false);
        for (const set of new Set(given.map((it) => it.set))) {
            const places = [...given.keys()].filter((place) => given[place].set === set);
            const verdicts = this.#calls.judgeMany(set, places.map((place) => given[place].parts));
            places.forEach((place, it) => { valid[place] = verdicts[it]; });
        }
        return valid;
    }

    parseSecretKey(file) {
        const { set, bytes } = parseKey(this.#calls, "secret", file);
        return this.#takeKey(set, bytes);
    }

    parsePublicKey(file) {
        const { set, bytes } = parseKey(this.#calls, "public", file);
        return this.publicKey(set, bytes);
    }

    /** The secret key of bytes that the package made, which are overwritten. */
    #takeKey(set, bytes) {
        try {
            return this.secretKey(set, bytes);
        } finally {
            bytes.fill(0);
        }
    }
}

/** Reads the module's bytes. Node's fetch does not read files. */
async function read(url) {
    if (url.protocol === "file:") return (await import("./read_file.js")).readFile(url);
    const response = await fetch(url);
    if (!response.ok) throw new Error(`${url}: ${response.status}`);
    return response.arrayBuffer();
}

function expectWebAssembly() {
    if (typeof WebAssembly !== "object") throw new Error("this engine has no WebAssembly");
}

async function compile(bytes) {
    try {
        return await WebAssembly.compile(bytes);
    } catch (cause) {
        if (!(cause instanceof WebAssembly.CompileError)) throw cause;
        throw new Error("the module does not compile: it is damaged, or the engine is older than Node 20", { cause });
    }
}

/** Makes an instance of slh.wasm: the one beside this file, or of a URL, of its bytes, or of a compiled module. */
export async function load(source = new URL("slh.wasm", import.meta.url)) {
    expectWebAssembly();
    if (source instanceof WebAssembly.Module) return new Library(new Calls(source));
    return new Library(new Calls(await compile(source instanceof URL ? await read(source) : source)));
}
