/**
 * Keys as other programs read them: SubjectPublicKeyInfo and PKCS#8, as DER and PEM. All but the one form of each set is
 * refused as NotAKeyFile, also an encrypted key. The refusal has the command of OpenSSL 3.5 that converts the file.
 */

import type { Library, PublicKey, SecretKey } from "./slh.js";

/** The public key of a SubjectPublicKeyInfo. */
export function publicKeyFromDer(slh: Library, der: Uint8Array): PublicKey;

/** The public key of a PEM file, PUBLIC KEY. */
export function publicKeyFromPem(slh: Library, pem: Uint8Array | string): PublicKey;

/** The secret key of a PKCS#8 PrivateKeyInfo. The bytes stay the caller's. Call `check` once on it. */
export function secretKeyFromDer(slh: Library, der: Uint8Array): SecretKey;

/** The secret key of a PEM file, PRIVATE KEY. The bytes stay the caller's, and a string can't be overwritten. */
export function secretKeyFromPem(slh: Library, pem: Uint8Array | string): SecretKey;

/** A key in DER. That of a secret key is not encrypted, and the caller's to overwrite. Throws Erased. */
export function toDer(slh: Library, key: SecretKey | PublicKey): Uint8Array;

/** A key in PEM, as ASCII. That of a secret key is not encrypted, and the caller's to overwrite. Throws Erased. */
export function toPem(slh: Library, key: SecretKey | PublicKey): Uint8Array;
