// The calls of slh.wasm, with bytes in and out of its memory.

import { byteLength, zeros } from "./bytes.js";
import { Fault, Refusal, SelfTestFailed, Trap } from "./errors.js";

const DONE = 0;
const INVALID = 30;
const FAULT = 38;
const SELF_TEST_FAILED = 40;
const MAX_NAME = 20;
const MAX_SECRET_KEY = 128;
const PAGE = 65536;

// These calls take no secret. The module's stack is cleared after each other one.
// tools/call_tables.py writes the lines from here on.
const OPEN = [
    "slh_self_test", "slh_version", "slh_verify", "slh_hash_verify_digest", "slh_hash_verify", "slh_verify_hardened",
    "slh_hash_verify_digest_hardened", "slh_verify_many", "slh_verify_front", "slh_verify_hashed",
    "slh_verify_internal", "slh_lengths", "slh_refusal_name", "slh_sign_jobs", "slh_answer_place", "slh_keygen_jobs",
];
const SECRET = [
    "slh_keygen", "slh_public", "slh_check", "slh_key_read", "slh_key_write", "slh_der_read", "slh_pem_read",
    "slh_der_write", "slh_pem_write", "slh_sign", "slh_hash_sign_digest", "slh_hash_sign", "slh_sign_twice",
    "slh_hash_sign_digest_twice", "slh_hash_sign_twice", "slh_sign_internal", "slh_sign_start", "slh_hash_sign_start",
    "slh_sign_job", "slh_sign_join", "slh_keygen_job", "slh_keygen_join",
];
// tools/call_tables.py has written the lines up to here.

/** Memory of the module that a call writes to, and that is not copied out. */
export class Scratch {
    constructor(length) {
        this.length = length;
    }
}

/** Bytes that a call writes. */
class Room extends Scratch {
    constructor(length) {
        super(length);
        this.bytes = zeros(length);
    }
}

/** Bytes that an item of slh_verify_many points to. */
class Part extends Scratch {
    constructor(bytes) {
        super(byteLength(bytes));
        this.bytes = bytes;
    }
}

/** The items of slh_verify_many: four pointers and four lengths, of 64 bits each. */
class Items extends Scratch {
    constructor(count) {
        super(64 * count);
    }
}

/** Verdicts that slh_verify_many writes, of 32 bits each. */
class Verdicts extends Room {
    constructor(count) {
        super(4 * count);
    }

    get values() {
        const view = new DataView(this.bytes.buffer);
        return Array.from({ length: this.length / 4 }, (_, at) => view.getUint32(4 * at, true));
    }
}

/** One number of 64 bits that a call writes, or one of 32 bits: the memory is cleared before. */
export class NumberRoom extends Room {
    constructor() {
        super(8);
    }

    get value() {
        return Number(new DataView(this.bytes.buffer).getBigUint64(0, true));
    }
}

/** One instance of the module. */
class Instance {
    #exports;
    #first;
    #stackEnd;

    constructor(module) {
        this.#exports = new WebAssembly.Instance(module, {}).exports;
        const lacking = [...OPEN, ...SECRET].find((name) => typeof this.#exports[name] !== "function");
        if (lacking) throw new Error(`the module has no ${lacking}: it is not the slh.wasm of this version`);
        this.#first = aligned(Number(this.#exports.__heap_base.value));
        this.#stackEnd = stackEnd(new Int32Array(this.#exports.memory.buffer));
    }

    /** Finds a place in the memory for each argument. Copies nothing yet. Throws a RangeError if there is no room. */
    places(given) {
        const places = [];
        let end = this.#first;
        for (const it of given) {
            const length = it instanceof Scratch ? it.length : byteLength(it);
            places.push({ it, at: end, length });
            end = aligned(end + length);
        }
        this.#reserve(end);
        return places;
    }

    /** Copies the bytes in, calls, and copies out what was written. Returns the call's number. */
    run(name, numbers, places) {
        places.forEach((place) => this.#copyIn(place, places));
        const result = this.#enter(name, [...numbers, ...places.flatMap(wordsOf)]);
        places.forEach((place) => this.#copyOut(place));
        return result;
    }

    #copyIn({ it, at, length }, places) {
        if (it instanceof Items) this.#point(at, length, places);
        else if (it instanceof Part) this.#bytes(at, length).set(it.bytes);
        // No verdict begins as valid.
        else if (it instanceof Verdicts) this.#bytes(at, length).fill(0xff);
        else if (!(it instanceof Scratch)) this.#bytes(at, length).set(it);
    }

    /** Writes where the parts of items are, and their lengths. */
    #point(at, length, places) {
        const view = new DataView(this.#exports.memory.buffer, at, length);
        const words = places.filter((place) => place.it instanceof Part).flatMap((place) => [place.at, place.length]);
        words.forEach((word, it) => view.setBigUint64(8 * it, BigInt(word), true));
    }

    #copyOut({ it, at, length }) {
        if (it instanceof Room) it.bytes.set(this.#bytes(at, length));
    }

    #enter(name, words) {
        try {
            return this.#exports[name](...words) >>> 0;
        } catch (error) {
            throw new Trap(error);
        }
    }

    /** Clears what a call was handed and has written, and its stack if it took secrets. */
    clear(name, places) {
        for (const { at, length } of places) this.#bytes(at, length).fill(0);
        if (!OPEN.includes(name)) this.#clearStack();
    }

    /** Clears pages from the stack's end down, until there is one that no call has written to. */
    #clearStack() {
        for (let end = this.#stackEnd; end > 0; end -= PAGE) {
            const page = new Int32Array(this.#exports.memory.buffer, Math.max(end - PAGE, 0), Math.min(end, PAGE) / 4);
            if (end !== this.#stackEnd && areZeros(page)) return;
            page.fill(0);
        }
    }

    /** Clears the whole memory. No call may follow. */
    destroy() {
        new Uint8Array(this.#exports.memory.buffer).fill(0);
    }

    #bytes(at, length) {
        return new Uint8Array(this.#exports.memory.buffer, at, length);
    }

    #reserve(end) {
        const { memory } = this.#exports;
        const lacking = Math.ceil((end - memory.buffer.byteLength) / PAGE);
        if (lacking > 0) memory.grow(lacking);
    }
}

/** The calls over an instance of the module, and over a new one after a trap. */
export class Calls {
    #module;
    #instance;
    #lengths = new Map();

    constructor(module) {
        this.#module = module;
        this.#instance = new Instance(module);
    }

    /** Calls with numbers, then with a pointer and a length for each array of bytes and each room. */
    call(name, numbers, ...given) {
        const instance = (this.#instance ??= new Instance(this.#module));
        const places = instance.places(given);
        this.#instance = null; // until all is cleared: an instance whose call or clearing has failed is not used again
        try {
            const result = instance.run(name, numbers, places);
            instance.clear(name, places);
            this.#instance = instance;
            return result;
        } finally {
            if (this.#instance === null) instance.destroy();
        }
    }

    /**
     * Calls, and returns true for SLH_DONE and false for SLH_INVALID. Throws a Refusal for any other number. `lengths`
     * has the expected and the given length for each refusal of a length.
     */
    judge(name, numbers, lengths, ...given) {
        const result = this.call(name, numbers, ...given);
        if (result !== DONE && result !== INVALID) throw this.#error(result, lengths);
        return result === DONE;
    }

    /**
     * The verdicts of slh_verify_many on items of four arrays: key, message, context and signature. Each is true or
     * false. Throws a Refusal if the call is refused.
     */
    judgeMany(set, items) {
        const verdicts = new Verdicts(items.length);
        const parts = items.flat().map((bytes) => new Part(bytes));
        this.judge("slh_verify_many", [set], {}, ...parts, new Items(items.length), verdicts);
        return verdicts.values.map((it) => it === DONE);
    }

    /**
     * Calls one that writes bytes into its last argument, and returns them. Throws a Fault, a SelfTestFailed or a
     * Refusal.
     */
    write(name, length, numbers, lengths, ...given) {
        const room = new Room(length);
        const result = this.call(name, numbers, ...given, room);
        if (result !== DONE) throw this.#error(result, lengths);
        return room.bytes;
    }

    /** The result of a call that reads a key; and its set, its kind and its bytes, with zeros behind them. */
    readKey(name, file) {
        const [set, kind, key] = [new NumberRoom(), new NumberRoom(), new Room(MAX_SECRET_KEY)];
        const result = this.call(name, [], file, set, kind, key);
        return { result, set: set.value, kind: kind.value, key: key.bytes };
    }

    #error(result, lengths) {
        if (result === SELF_TEST_FAILED) return new SelfTestFailed();
        if (result === FAULT) return new Fault("signing two times gave two different signatures");
        return this.refusal(result, ...(lengths[result] ?? []));
    }

    refusal(number, expected, given) {
        const detail = `${expected} bytes are expected, and ${given} were given`;
        return this.named(number, expected === undefined ? undefined : detail);
    }

    /** The refusal of a number, with its name. */
    named(number, detail) {
        const room = new Room(MAX_NAME);
        const isOne = this.call("slh_refusal_name", [number], room) === DONE;
        const letters = room.bytes.subarray(0, room.bytes.indexOf(0));
        const name = isOne ? String.fromCharCode(...letters) : "NoSuchRefusal";
        return new Refusal(number, name, detail);
    }

    /** The lengths of a set's public keys, secret keys, signatures and seeds. */
    lengths(set) {
        if (!this.#lengths.has(set)) this.#lengths.set(set, this.#askLengths(set));
        return { ...this.#lengths.get(set) };
    }

    #askLengths(set) {
        const rooms = [new NumberRoom(), new NumberRoom(), new NumberRoom(), new NumberRoom()];
        this.judge("slh_lengths", [set], {}, ...rooms);
        const [publicKey, secretKey, signature, n] = rooms.map((it) => it.value);
        return { publicKey, secretKey, signature, n };
    }
}

const callsOfLibraries = new WeakMap();

/** Keeps the calls of a library for `callsOf`. */
export function keepCalls(library, calls) {
    callsOfLibraries.set(library, calls);
}

/** The calls of a library. Throws a TypeError unless `load` has made it. */
export function callsOf(library) {
    const calls = callsOfLibraries.get(library);
    if (calls === undefined) throw new TypeError("a library is needed, as of load()");
    return calls;
}

/** The pointer and the length of a place, which has 64 bits. A number has no length, and items point to their parts. */
function wordsOf({ it, at, length }) {
    if (it instanceof Part) return [];
    if (it instanceof Items) return [at, BigInt(length / 64)];
    if (it instanceof Verdicts) return [at, BigInt(length / 4)];
    return it instanceof NumberRoom ? [at] : [at, BigInt(length)];
}

function aligned(at) {
    return Math.ceil(at / 16) * 16;
}

/**
 * Where the module's stack ends: it is below the constants, and is zeros before the first call. A constant's own zeros
 * may be taken for it, which clearing leaves as they are. Words are those of the whole memory.
 */
function stackEnd(words) {
    const end = 4 * words.findIndex((word) => word !== 0);
    if (end < PAGE) throw new Error("the module does not have its stack below its constants");
    return end - (end % 16);
}

function areZeros(words) {
    let all = 0;
    for (let at = 0; at < words.length; at += 1) all |= words[at];
    return all === 0;
}
