/** Key files of the program `slh` on disk, for Node. In a browser take `format` and the parse calls of slh.js. */

import { open, unlink } from "node:fs/promises";

import { zeros } from "./bytes.js";

// A key file has at most 292 bytes. More are read for the sake of the refusal; of a longer file, these.
const MOST = 2 ** 20;
const SECRET = new TextEncoder().encode("slh-dsa-secret");

/** Reads a secret key file. Throws a Refusal, or the error of node:fs. */
export async function loadSecretKey(slh, path) {
    return withFile(path, (bytes) => slh.parseSecretKey(bytes));
}

/** Reads a public key file. Throws a Refusal, or the error of node:fs. */
export async function loadPublicKey(slh, path) {
    return withFile(path, (bytes) => slh.parsePublicKey(bytes));
}

/** Hands on the bytes of a file, and overwrites them. */
async function withFile(path, take) {
    const file = await open(path, "r");
    const room = zeros(MOST);
    try {
        return take(room.subarray(0, await readInto(room, file)));
    } finally {
        room.fill(0);
        await file.close();
    }
}

/** Reads until the file ends or the room is full. Returns the number of bytes. */
async function readInto(room, file) {
    let length = 0;
    for (;;) {
        const { bytesRead } = await file.read(room, length, room.length - length);
        length += bytesRead;
        if (bytesRead === 0 || length === room.length) return length;
    }
}

/**
 * Writes a key into a new key file of version 2, with mode 0600 if the key is secret. Throws the error of node:fs if
 * the file exists or writing fails, and leaves no file then.
 */
export async function dump(key, path) {
    const bytes = key.format();
    try {
        const isSecret = SECRET.every((it, at) => bytes[at] === it);
        await create(path, bytes, isSecret ? 0o600 : 0o666);
    } finally {
        bytes.fill(0);
    }
}

/** Writes a new file, or none. */
async function create(path, bytes, mode) {
    const file = await open(path, "wx", mode);
    try {
        await file.writeFile(bytes);
        await file.sync();
    } catch (error) {
        await unlink(path);
        throw error;
    } finally {
        await file.close();
    }
}
