/**
 * Signs in a worker: a page or an event loop goes on meanwhile, and an AbortSignal ends the work.
 *
 *     const signature = await signInWorker(secret, message, { signal: AbortSignal.timeout(5000) });
 *
 * Each call starts a worker, which makes one signature and ends. The worker gets the key's bytes, and overwrites them.
 * If a signal ends it, the engine frees its memory, and nobody overwrites that.
 */
import { Fault, Refusal } from "./errors.js";
import { readOptions, SIGN_OPTIONS } from "./options.js";
import { start } from "./worker_threads.js";

/** The error that a worker has sent, as an error of its class. */
function errorOf({ kind, message, number, name }) {
    if (kind === "Refusal") return Object.assign(new Refusal(number, name), { message });
    return kind === "Fault" ? new Fault(message) : new (kind === "TypeError" ? TypeError : Error)(message);
}

export async function signInWorker(secret, message, given = {}) {
    const { signal, module, ...options } = readOptions(given, [...SIGN_OPTIONS, "signal", "module"]);
    signal?.throwIfAborted();
    const bytes = secret.toBytes();
    let worker;
    let stop;
    try {
        return await new Promise((resolve, reject) => {
            stop = () => reject(signal.reason);
            signal?.addEventListener("abort", stop);
            const heard = ({ signature, error }) => (error ? reject(errorOf(error)) : resolve(signature));
            worker = start(new URL("./sign_in_worker.js", import.meta.url), heard, reject);
            worker.postMessage({ set: secret.set, bytes, message, options, module }, [bytes.buffer]);
        });
    } finally {
        signal?.removeEventListener("abort", stop);
        if (bytes.length > 0) bytes.fill(0);
        worker?.terminate();
    }
}
