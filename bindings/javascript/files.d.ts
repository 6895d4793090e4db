/** Key files of the program `slh` on disk, for Node: docs/FORMATS.md of the repository describes them. */

import type { Library, PublicKey, SecretKey } from "./slh.js";

/**
 * Reads a secret key file of either version, and overwrites the bytes that were read. Throws a Refusal (NotAKeyFile,
 * UnknownSet, BadHex, BadKeyLength, TrailingBytes), or the error of node:fs.
 */
export function loadSecretKey(slh: Library, path: string | URL): Promise<SecretKey>;

/** Reads a public key file of either version. Throws as `loadSecretKey`. */
export function loadPublicKey(slh: Library, path: string | URL): Promise<PublicKey>;

/**
 * Writes a key into a new key file of version 2, with mode 0600 if the key is secret. Throws the error of node:fs if
 * the file exists or writing fails, and leaves no file then.
 */
export function dump(key: SecretKey | PublicKey, path: string | URL): Promise<void>;
