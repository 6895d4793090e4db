// Keys as other programs read them: SubjectPublicKeyInfo and PKCS#8, as DER and PEM. The library reads and writes one
// form of each set and kind.

import { copyOf } from "./bytes.js";
import { callsOf, NumberRoom } from "./calls.js";
import { copyOfFile, KINDS, readKey } from "./key_files.js";

const DONE = 0;
const NOT_A_KEY_FILE = 11;

// The most bytes that the library writes, with a zero byte after PEM.
const MAX_DER = 150;
const MAX_PEM = 259;

/** The public key of a SubjectPublicKeyInfo, a Uint8Array. Throws a Refusal: NotAKeyFile. */
export function publicKeyFromDer(slh, der) {
    return keyOf(slh, "public", der, false);
}

/** The public key of a PEM file, PUBLIC KEY, a string or Uint8Array. Throws a Refusal: NotAKeyFile. */
export function publicKeyFromPem(slh, pem) {
    return keyOf(slh, "public", pem, true);
}

/** The secret key of a PKCS#8 PrivateKeyInfo, a Uint8Array. Throws a Refusal: NotAKeyFile. */
export function secretKeyFromDer(slh, der) {
    return keyOf(slh, "secret", der, false);
}

/** The secret key of a PEM file, PRIVATE KEY, a Uint8Array, or a string that stays. Throws a Refusal: NotAKeyFile. */
export function secretKeyFromPem(slh, pem) {
    return keyOf(slh, "secret", pem, true);
}

/** A key in DER. That of a secret key is not encrypted, and the caller's to overwrite. Throws Erased. */
export function toDer(slh, key) {
    return written(slh, key, "slh_der_write", MAX_DER);
}

/** A key in PEM, as ASCII in an array. That of a secret key is the caller's to overwrite. Throws Erased. */
export function toPem(slh, key) {
    return written(slh, key, "slh_pem_write", MAX_PEM);
}

/** The key of a file. */
function keyOf(slh, kind, given, isPem) {
    const calls = callsOf(slh);
    const data = isPem ? copyOfFile(given) : copyOf(given);
    const refusalOf = (result) => {
        if (result !== DONE && result !== NOT_A_KEY_FILE) return calls.named(result);
        return calls.named(NOT_A_KEY_FILE, why(kind, data, isPem, result === DONE));
    };
    const { set, bytes } = readKey(calls, isPem ? "slh_pem_read" : "slh_der_read", kind, data, refusalOf);
    try {
        return kind === "public" ? slh.publicKey(set, bytes) : slh.secretKey(set, bytes);
    } finally {
        bytes.fill(0);
    }
}

/** Why a file is refused, with the command that converts it. */
function why(kind, data, isPem, isOtherKind) {
    if (kind === "public" && isOtherKind) return "the key is secret, and a public one is asked for";
    const [from, to] = isPem ? ["-in FILE", "-out NEW"] : ["-inform DER -in FILE", "-outform DER -out NEW"];
    const convert = kind === "public" ? `openssl pkey -pubin ${from} -pubout ${to}` : `openssl pkey ${from} ${to}`;
    const isEncrypted = Array.from("-----BEGIN ENCRYPTED PRIVATE").every((it, at) => data[at] === it.charCodeAt(0));
    if (isEncrypted) return `the key is encrypted; this asks for its password: ${convert}`;
    return `this is not the one form of a ${kind} key of the six sets; this converts it: ${convert}`;
}

/** What a call writes of a key, in an array of its own. */
function written(slh, key, call, most) {
    const calls = callsOf(slh);
    const bytes = key.toBytes();
    try {
        const kind = bytes.length === calls.lengths(key.set).publicKey ? KINDS.public : KINDS.secret;
        const length = new NumberRoom();
        const made = calls.write(call, most, [key.set, kind], {}, bytes, length);
        const file = copyOf(made.subarray(0, length.value));
        made.fill(0);
        return file;
    } finally {
        bytes.fill(0);
    }
}
