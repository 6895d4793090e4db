// The worker of worker.js: it makes one signature, and overwrites its copies of the key.
import { Fault, Refusal } from "./errors.js";
import { load } from "./slh.js";
import { listen, send } from "./worker_threads.js";

async function signed({ set, bytes, message, options, module }) {
    try {
        const slh = await load(module);
        const secret = slh.secretKey(set, bytes);
        try {
            return secret.sign(message, options);
        } finally {
            secret.erase();
        }
    } finally {
        bytes.fill(0);
    }
}

/** The class of an error by its name, which a bundle does not change. */
function kindOf(error) {
    if (error instanceof Refusal) return "Refusal";
    if (error instanceof Fault) return "Fault";
    return error instanceof TypeError ? "TypeError" : "Error";
}

listen(async (asked) => {
    try {
        const signature = await signed(asked);
        send({ signature }, [signature.buffer]);
    } catch (error) {
        const { message, number, name } = error;
        send({ error: { kind: kindOf(error), message, number, name } }, []);
    }
});
