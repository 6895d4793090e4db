/**
 * SLH-DSA (FIPS 205) with SHA-2: keys, signing and verifying, over the WebAssembly module slh.wasm. The names are those
 * of libslh, whose calls and proofs docs/LIBRARY.md of its repository describes.
 *
 * Each call throws a TypeError if an argument is of another kind, if an array's buffer is detached, and if options have
 * a name that is not one of theirs. Only own properties of options count. Each call throws a Trap if the module ends it
 * early, and a RangeError if the module's memory can't grow.
 *
 * Arrays over a SharedArrayBuffer are taken: each is copied once for a call, and once more with `verify`. Arrays over a
 * resizable buffer have the length that they have when a call begins.
 */

/** libslh's number of a parameter set (FIPS 205, section 11, Table 2). */
export type ParameterSet = 1 | 2 | 3 | 4 | 5 | 6;
export const SLH_DSA_SHA2_128S: 1;
export const SLH_DSA_SHA2_128F: 2;
export const SLH_DSA_SHA2_192S: 3;
export const SLH_DSA_SHA2_192F: 4;
export const SLH_DSA_SHA2_256S: 5;
export const SLH_DSA_SHA2_256F: 6;

/** The name of a parameter set, which each call takes for its number. Other names: Refusal UnknownSet. */
export type ParameterSetName =
    | "SLH-DSA-SHA2-128s"
    | "SLH-DSA-SHA2-128f"
    | "SLH-DSA-SHA2-192s"
    | "SLH-DSA-SHA2-192f"
    | "SLH-DSA-SHA2-256s"
    | "SLH-DSA-SHA2-256f";

/** libslh's number of a pre-hash function (FIPS 205, section 10.2.2). */
export type HashFunction = 1 | 2 | 3 | 4 | 5 | 6;
export const SLH_SHA2_224: 1;
export const SLH_SHA2_256: 2;
export const SLH_SHA2_384: 3;
export const SLH_SHA2_512: 4;
export const SLH_SHA2_512_224: 5;
export const SLH_SHA2_512_256: 6;

/**
 * A call was refused: `number` and `name` are libslh's, as 2 and "ContextTooLong". The message has both, and the
 * expected and the given length if a length was wrong.
 */
export class Refusal extends Error {
    constructor(number: number, name: string, detail?: string);
    readonly number: number;
}

/** A secret key was used after `erase`. */
export class Erased extends Error {
    constructor();
}

/**
 * Two computations of a signature differ, `verify` found an invalid one, or a new key is wrong: memory or the processor
 * failed, or the key's PK.root is not the root of its seeds (`check`). What was made is overwritten, and not given.
 */
export class Fault extends Error {
    constructor(message: string);
}

/** An answer of `selfTest` is not the known one: the module may not be used on this engine. */
export class SelfTestFailed extends Error {
    constructor();
}

/**
 * The module ended a call early; `cause` is the engine's error. Its memory was cleared, and the next call takes a new
 * instance. Keys stay usable.
 */
export class Trap extends Error {
    constructor(cause: Error);
}

/** Lengths in bytes. n is that of a seed and of a randomizer. */
export interface Lengths {
    readonly publicKey: number;
    readonly secretKey: number;
    readonly signature: number;
    readonly n: number;
}

/** How a signature is verified. */
export interface VerifyOptions {
    /** At most 255 bytes; without it the context is empty. */
    context?: Uint8Array;
}

/** How a signature is made. */
export interface SignOptions {
    /** At most 255 bytes; without it the context is empty. */
    context?: Uint8Array;
    /** n bytes; without it they are drawn from crypto.getRandomValues. */
    randomizer?: Uint8Array;
    /** No randomizer (FIPS 205, section 9.2): more exposed to hardware faults. */
    deterministic?: boolean;
    /**
     * Signs one time, which takes half the time. By default the signature is computed two times and compared, and a
     * difference is a Fault: a fault of the hardware can else give a signature from which others are forged.
     */
    once?: boolean;
    /**
     * Signs two times, even with `once`.
     * @deprecated this is the default; version 2.0 or later may remove the option
     */
    twice?: boolean;
    /** Verifies the signature under the key's own public part. Throws a Fault if it is not valid. */
    verify?: boolean;
}

/** A signature with its key, message and context: an item of `verifyMany`. */
export interface Signed {
    publicKey: PublicKey;
    message: Uint8Array;
    signature: Uint8Array;
    /** Without it the context is empty. */
    context?: Uint8Array;
}

/** A public key, PK.seed and PK.root: 32, 48 or 64 bytes. */
export interface PublicKey {
    readonly set: ParameterSet;

    /** A copy of the 2n bytes. */
    toBytes(): Uint8Array;

    /** The key file of version 2, as ASCII. */
    format(): Uint8Array;

    /** SHA-256 of the bytes, as "SHA256:" and base64 without padding. A browser has it in secure contexts alone. */
    fingerprint(): Promise<string>;

    /**
     * Whether a signature of the pure form is valid (Algorithm 24). Bytes of another length than the set's signatures,
     * and a context of over 255 bytes, are not.
     */
    verify(message: Uint8Array, signature: Uint8Array, options?: VerifyOptions): boolean;

    /** The same of the pre-hash form, with the message (Algorithm 25). Throws a Refusal: NoSuchFunction. */
    hashVerify(hash: HashFunction, message: Uint8Array, signature: Uint8Array, options?: VerifyOptions): boolean;

    /** The same with the message's digest. Throws a Refusal: NoSuchFunction, BadDigestLength. */
    hashVerifyDigest(hash: HashFunction, digest: Uint8Array, signature: Uint8Array, options?: VerifyOptions): boolean;
}

/**
 * A secret key, SK.seed, SK.prf, PK.seed and PK.root: 64, 96 or 128 bytes. It is printed and serialised as its set
 * alone; a copy by structuredClone, postMessage or spread has nothing of it. After `erase` each other call throws
 * Erased.
 */
export interface SecretKey {
    readonly set: ParameterSet;

    /** A copy of the 4n bytes. Overwrite it after use. */
    toBytes(): Uint8Array;

    /** The key file of version 2, as ASCII. Overwrite it after use. */
    format(): Uint8Array;

    /** The public key, the last 2n bytes. */
    public(): PublicKey;

    /** Whether PK.root is the root that the seeds give. This takes as long as making a key. */
    check(): boolean;

    /**
     * Overwrites the bytes of this key with zeros. Arrays that it was made of, and those of `toBytes`, are the caller's
     * and stay as they are.
     */
    erase(): void;

    /**
     * Signs a message in the pure form (Algorithm 22). Throws a Refusal: ContextTooLong for a context of over 255
     * bytes; BadRandomizerLength. Throws a Fault if two computations differ, or if `verify` finds one.
     */
    sign(message: Uint8Array, options?: SignOptions): Uint8Array;

    /**
     * Signs a message in the pre-hash form (Algorithm 23), with a digest that this computes. A function that is weaker
     * than the set makes a weaker signature. Throws a Refusal: as `sign`, and NoSuchFunction.
     */
    hashSign(hash: HashFunction, message: Uint8Array, options?: SignOptions): Uint8Array;

    /** The same by the message's digest. Throws a Refusal: as `hashSign`, and BadDigestLength. */
    hashSignDigest(hash: HashFunction, digest: Uint8Array, options?: SignOptions): Uint8Array;
}

/** The calls over an instance of the module, whose memory grows to the longest message, and does not shrink. */
export interface Library {
    /** The version of libslh: 1,000,000 times its first number, 1,000 times its second, and its third. */
    version(): number;

    /** The lengths of a set's keys and signatures. Throws a Refusal: NoSuchSet. */
    lengths(set: ParameterSet | ParameterSetName): Lengths;

    /**
     * Tests a set on this engine before it is used, as when a page or a service starts. A known key is made, and a
     * known message is signed. PK.root and the SHA-256 of the signature have to be those that OpenSSL gave. The
     * signature has to be valid, and invalid for another message. The test takes as long as to make a key, to sign once
     * and to verify two times.
     *
     * It shows nothing about other sets, keys and messages, the pre-hash forms, random bytes and later faults, and does
     * not replace a hash of slh.wasm. Throws a SelfTestFailed if an answer is not the known one. Throws a Refusal:
     * NoSuchSet.
     */
    selfTest(set: ParameterSet | ParameterSetName): void;

    /** Makes a key from random bytes of crypto.getRandomValues (Algorithm 21). Throws as `keygen`. */
    generate(set: ParameterSet | ParameterSetName): SecretKey;

    /**
     * Makes the key of three seeds of n bytes each (Algorithm 18), and checks it. They are as secret as the key. Throws
     * a Refusal: NoSuchSet, BadSeedLength. Throws a Fault if `check` finds another root.
     */
    keygen(set: ParameterSet | ParameterSetName, skSeed: Uint8Array, skPrf: Uint8Array, pkSeed: Uint8Array): SecretKey;

    /**
     * The secret key of these bytes. Call `check` once on one that comes from elsewhere. Throws a Refusal: NoSuchSet;
     * BadLength unless there are 4n.
     */
    secretKey(set: ParameterSet | ParameterSetName, bytes: Uint8Array): SecretKey;

    /** The public key of these bytes. Throws a Refusal: NoSuchSet; BadLength unless there are 2n. */
    publicKey(set: ParameterSet | ParameterSetName, bytes: Uint8Array): PublicKey;

    /**
     * Whether each signature of the pure form is valid, in order: in less time than by `verify` for each. The keys may
     * be of several sets.
     */
    verifyMany(items: Iterable<Signed>): boolean[];

    /**
     * The secret key of a key file of either version. A string cannot be overwritten: hand in bytes, and overwrite
     * them. Throws a Refusal: NotAKeyFile, UnknownSet, BadHex, BadKeyLength, TrailingBytes.
     */
    parseSecretKey(file: Uint8Array | string): SecretKey;

    /** The public key of a key file of either version. Throws a Refusal: as `parseSecretKey`. */
    parsePublicKey(file: Uint8Array | string): PublicKey;
}

/** The type of a class of the engine, or never if the program's libraries of types do not have it. */
type InstanceOf<Class> = Class extends { prototype: infer Instance } ? Instance : never;
type Url = typeof globalThis extends { URL: infer Class } ? InstanceOf<Class> : never;
type Module = typeof globalThis extends { WebAssembly: { Module: infer Class } } ? InstanceOf<Class> : never;

/** What `load` takes: a URL of slh.wasm, its bytes, or the compiled module. */
export type Source = Url | ArrayBuffer | ArrayBufferView | Module;

/**
 * Makes an instance of slh.wasm: the one beside slh.js, or the one that is given. Throws an Error if this engine has no
 * WebAssembly.
 */
export function load(source?: Source): Promise<Library>;
