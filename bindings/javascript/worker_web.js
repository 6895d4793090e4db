// Workers of browsers, in place of worker_threads.js.

/** Starts the worker of a file. `heard` gets each message, and `failed` an error that ends the worker. */
export function start(url, heard, failed) {
    const worker = new Worker(url, { type: "module" });
    worker.onmessage = ({ data }) => heard(data);
    worker.onerror = (event) => failed(new Error(event.message || "the worker of slh can't be started"));
    return worker;
}

/** In a worker: has `heard` get each message. */
export function listen(heard) {
    globalThis.onmessage = ({ data }) => heard(data);
}

/** In a worker: sends a message, and gives these buffers away. */
export function send(message, buffers) {
    globalThis.postMessage(message, buffers);
}
