// Workers of Node. package.json puts worker_web.js in its place in bundles for browsers.
import { parentPort, Worker } from "node:worker_threads";

/**
 * Starts the worker of a file. `heard` gets each message, and `failed` an error that ends the worker, or that it ended: a
 * promise that has its signature by then ignores that.
 */
export function start(url, heard, failed) {
    const worker = new Worker(url);
    worker.on("message", heard);
    worker.on("error", failed);
    worker.on("exit", () => failed(new Error("the worker of slh ended early")));
    return worker;
}

/** In a worker: has `heard` get each message. */
export function listen(heard) {
    parentPort.on("message", heard);
}

/** In a worker: sends a message, and gives these buffers away. */
export function send(message, buffers) {
    parentPort.postMessage(message, buffers);
}
