// Key files (docs/FORMATS.md of the repository, "Key file"), as bytes: text of a secret key could not be overwritten.
// The library reads and writes them.

import { byteLength, copyOf } from "./bytes.js";
import { NAMES } from "./sets.js";

const DONE = 0;
const NOT_A_KEY_FILE = 11;
const UNKNOWN_SET = 12;
const BAD_KEY_LENGTH = 14;
const LINE_FEED = 10;

// The library's numbers of the kinds.
export const KINDS = { public: 1, secret: 2 };

// Where lines 2 and 3 begin, in a file of one of the six sets.
const NAME = 17;
const DIGITS = 35;

/** A copy of a file, which is its bytes or its text. */
export function copyOfFile(file) {
    return typeof file === "string" ? new TextEncoder().encode(file) : copyOf(file);
}

/**
 * Reads a file with a key of a kind, "public" or "secret", by a call. Returns the set and the key's bytes. Overwrites
 * the file's bytes. If the call refuses, throws what `refusalOf` gives for its result. That is DONE if the key is of the
 * other kind.
 */
export function readKey(calls, name, kind, data, refusalOf) {
    try {
        const { result, set, kind: found, key } = calls.readKey(name, data);
        if (result === DONE && found === KINDS[kind]) return { set, bytes: key.subarray(0, lengthOf(calls, kind, set)) };
        key.fill(0);
        throw refusalOf(result);
    } finally {
        data.fill(0);
    }
}

/**
 * Reads a key file of a kind, of version 1 or 2. Returns the set and the key's bytes. Throws a Refusal with the first
 * fault: NotAKeyFile, UnknownSet, BadHex, BadKeyLength, TrailingBytes.
 */
export function parseKey(calls, kind, file) {
    const data = copyOfFile(file);
    return readKey(calls, "slh_key_read", kind, data, (result) => refusalOf(calls, result, kind, data));
}

function lengthOf(calls, kind, set) {
    return calls.lengths(set)[`${kind}Key`];
}

/**
 * The refusal of a file that the library refuses, or whose key is of the other kind. The library reads files of both
 * kinds, and names the other faults of a set without a number before that set. Here these two come first.
 */
function refusalOf(calls, number, kind, data) {
    if (number === NOT_A_KEY_FILE) {
        return calls.named(number, hasAt(data, 0, "-----BEGIN ") ? "this is a PEM file" : undefined);
    }
    if (!hasAt(data, 0, `slh-dsa-${kind} `)) {
        const other = kind === "public" ? "secret" : "public";
        return calls.named(NOT_A_KEY_FILE, `this is a ${other} key file, and a ${kind} one is needed`);
    }
    if (number === UNKNOWN_SET || hasAt(data, NAME, "custom:")) return calls.named(UNKNOWN_SET);
    return calls.named(number, number === BAD_KEY_LENGTH ? wrongDigits(calls, kind, data) : undefined);
}

function hasAt(data, at, text) {
    return at + text.length <= data.length && Array.from(text).every((it, i) => data[at + i] === it.charCodeAt(0));
}

function wrongDigits(calls, kind, data) {
    const set = NAMES.findIndex((name) => hasAt(data, NAME, `${name}\n`));
    const feed = data.indexOf(LINE_FEED, DIGITS);
    const given = (feed < 0 ? data.length : feed) - DIGITS;
    return `${2 * lengthOf(calls, kind, set)} digits are expected, and ${given} were given`;
}

/** The key file of version 2 of a key, as ASCII in an array of its own. The library writes a zero byte after it. */
export function formatKey(calls, kind, set, bytes) {
    const length = DIGITS + 2 * byteLength(bytes) + 2;
    const written = calls.write("slh_key_write", length, [set, KINDS[kind]], {}, bytes);
    const file = copyOf(written.subarray(0, length - 1));
    written.fill(0);
    return file;
}
