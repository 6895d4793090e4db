// Options of calls, which are plain objects.

export const SIGN_OPTIONS = ["context", "randomizer", "deterministic", "once", "twice", "verify"];

/** Whether the prototype is null or an Object.prototype, also of another realm: other ones may have options. */
function isPlain(it) {
    if (typeof it !== "object" || it === null) return false;
    const prototype = Object.getPrototypeOf(it);
    if (prototype === null) return true;
    return Object.getPrototypeOf(prototype) === null && Object.hasOwn(prototype, "isPrototypeOf");
}

/**
 * The options of these names, each read once. A misspelt name is refused. Only own properties are read, so that a
 * changed Object.prototype changes no signature. An object of a class is refused: its getters are inherited.
 */
export function readOptions(it, names) {
    if (!isPlain(it)) throw new TypeError("options are needed as a plain object, as { context }");
    const options = { __proto__: null };
    for (const name of Reflect.ownKeys(it)) {
        if (!names.includes(name)) throw new TypeError(`there is no option ${String(name)}`);
        options[name] = it[name];
    }
    return options;
}
