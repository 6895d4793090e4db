// A program for `check_key_forms` of tests/key_forms.py, which says what it does.
import { createInterface } from "node:readline";

import { load } from "slh";
import * as pkix from "slh/pkix";

const READ = {
    "public der": pkix.publicKeyFromDer,
    "public pem": pkix.publicKeyFromPem,
    "secret der": pkix.secretKeyFromDer,
    "secret pem": pkix.secretKeyFromPem,
};
const WRITE = { der: pkix.toDer, pem: pkix.toPem };

const slh = await load();

function verdict(kind, form, file) {
    try {
        const key = READ[`${kind} ${form}`](slh, file);
        return `${key.set} ${Buffer.from(WRITE[form](slh, key)).toString("hex")}`;
    } catch (error) {
        return error.number;
    }
}

for await (const line of createInterface({ input: process.stdin })) {
    const [kind, form, digits] = line.split(" ");
    console.log(verdict(kind, form, Uint8Array.from(Buffer.from(digits, "hex"))));
}
