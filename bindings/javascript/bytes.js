// Arrays of bytes that callers hand in. Their length is the one that the engine knows: a subclass may answer otherwise.

const TypedArray = Object.getPrototypeOf(Uint8Array);
const kindOf = Object.getOwnPropertyDescriptor(TypedArray.prototype, Symbol.toStringTag).get;
const lengthOf = Object.getOwnPropertyDescriptor(TypedArray.prototype, "byteLength").get;

export const NONE = new Uint8Array(0);

/**
 * The length of a Uint8Array, also of another realm. Runs no code of the caller. It does not ask for the ArrayBuffer:
 * that would make V8 move a short array, and leave a copy of its bytes. Throws a TypeError if the array is none, or if
 * its ArrayBuffer is detached or has shrunk: the engine answers 0 then, and an empty message would be signed.
 */
export function byteLength(it) {
    if (kindOf.call(it) !== "Uint8Array") throw new TypeError("bytes are needed, as a Uint8Array");
    const length = lengthOf.call(it);
    if (length === 0) expectThere(it);
    return length;
}

function expectThere(empty) {
    try {
        NONE.set(empty);
    } catch (cause) {
        throw new TypeError("the ArrayBuffer of these bytes is detached, or has shrunk", { cause });
    }
}

/** Zeros in memory of their own: engines move the bytes of short arrays that have none, and leave copies behind. */
export function zeros(length) {
    return new Uint8Array(new ArrayBuffer(length));
}

export function copyOf(bytes) {
    const copy = zeros(byteLength(bytes));
    copy.set(bytes);
    return copy;
}
