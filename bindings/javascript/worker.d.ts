/** Signs in a worker: a page or an event loop goes on meanwhile, and an AbortSignal ends the work. */
import type { SecretKey, SignOptions, Source } from "./slh.js";

/** The options of `sign`, and two more. */
export type WorkerOptions = SignOptions & {
    /** Ends the work: the promise is rejected with its reason. An AbortSignal is one. */
    signal?: {
        readonly reason: unknown;
        throwIfAborted(): void;
        addEventListener(type: "abort", listener: () => void): void;
        removeEventListener(type: "abort", listener: () => void): void;
    };
    /** The argument for `load`, if slh.wasm is not beside the files of the package. */
    module?: Source;
};

/**
 * Makes the signature that `secret.sign` makes, in a worker. The promise is rejected with the errors of `sign`, or with
 * the reason of the signal.
 */
export function signInWorker(secret: SecretKey, message: Uint8Array, options?: WorkerOptions): Promise<Uint8Array>;
