/**
 * The package with slh.wasm inside, so that `load` reads no file: for bundles, and for engines without either. It takes
 * module.js, which `node write_module.js` writes.
 */

import digits from "./module.js";
import { load as loadFrom } from "./slh.js";

export * from "./slh.js";

/** Makes an instance of the module inside, or of another one, as `load` of slh.js. */
export async function load(source = Uint8Array.from(atob(digits), (it) => it.charCodeAt(0))) {
    return loadFrom(source);
}
