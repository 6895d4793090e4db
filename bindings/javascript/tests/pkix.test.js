// Tests of pkix.js, over keys that OpenSSL 3.5 makes and reads where it is there.
import assert from "node:assert/strict";
import { execFileSync } from "node:child_process";
import { mkdtempSync, readFileSync, rmSync, writeFileSync } from "node:fs";
import { tmpdir } from "node:os";
import { join } from "node:path";
import { test } from "node:test";

import * as pkix from "../pkix.js";
import { load } from "../slh.js";
import { module, unhex } from "./support.js";

const slh = await load(module);
const SETS = ["128s", "128f", "192s", "192f", "256s", "256f"].map((it) => `SLH-DSA-SHA2-${it}`);
const openssl = [process.env.OPENSSL, "openssl-3.5", "/usr/local/bin/openssl-3.5", "openssl"].find(hasSets);

function hasSets(name) {
    try {
        return execFileSync(name, ["list", "-signature-algorithms"], { stdio: "pipe" }).includes("SLH-DSA-SHA2-128f");
    } catch {
        return false;
    }
}

const run = (input, ...words) => execFileSync(openssl, words, { input, stdio: ["pipe", "pipe", "ignore"] });
const same = (one, other) => assert.deepEqual(Buffer.from(one), Buffer.from(other));
const skip = openssl ? false : "there is no OpenSSL 3.5";

function pem(label, der) {
    const lines = Buffer.from(der).toString("base64").match(/.{1,64}/g).join("\n");
    return `-----BEGIN ${label}-----\n${lines}\n-----END ${label}-----\n`;
}

function isRefused(call, data, why) {
    assert.throws(() => call(slh, data), (error) => {
        assert.equal(error.name, "NotAKeyFile");
        assert.equal(error.number, 11);
        assert.match(error.message, why);
        return true;
    });
}

test("keys of OpenSSL come in, and keys go to it, for the six sets", { skip }, () => {
    for (const [at, name] of SETS.entries()) {
        const text = run("", "genpkey", "-algorithm", name);
        const secret = pkix.secretKeyFromPem(slh, text);
        assert.ok(secret.check() && secret.set === at + 1);
        same(pkix.toPem(slh, secret), text);
        const der = run(text, "pkey", "-outform", "DER");
        same(pkix.toDer(slh, secret), der);
        same(pkix.secretKeyFromDer(slh, new Uint8Array(der)).toBytes(), secret.toBytes());
        const publicText = run(text, "pkey", "-pubout").toString();
        const key = pkix.publicKeyFromPem(slh, publicText);
        same(key.toBytes(), secret.public().toBytes());
        same(pkix.toPem(slh, key), Buffer.from(publicText));
        const publicDer = run(text, "pkey", "-pubout", "-outform", "DER");
        same(pkix.toDer(slh, key), publicDer);
        same(pkix.publicKeyFromDer(slh, new Uint8Array(publicDer)).toBytes(), key.toBytes());
        const made = slh.generate(at + 1);
        const found = run(pkix.toPem(slh, made), "pkey", "-check", "-pubout").toString();
        assert.ok(found.includes(Buffer.from(pkix.toPem(slh, made.public())).toString().trim()));
    }
});

test("the commands that refusals name convert", { skip }, () => {
    const text = run("", "genpkey", "-algorithm", SETS[1]);
    const encrypted = run(text, "pkey", "-aes256", "-passout", "pass:word");
    isRefused(pkix.secretKeyFromPem, encrypted, /the key is encrypted/);
    const folder = mkdtempSync(join(tmpdir(), "slh-"));
    try {
        for (const other of [encrypted, Buffer.concat([Buffer.from("a comment\n"), text])]) {
            writeFileSync(join(folder, "FILE"), other);
            let words;
            isRefused(pkix.secretKeyFromPem, other, /openssl pkey -in FILE -out NEW$/);
            try {
                pkix.secretKeyFromPem(slh, other);
            } catch (error) {
                words = error.message.split(": ").pop().split(" ").slice(1);
            }
            execFileSync(openssl, [...words, "-passin", "pass:word"], { cwd: folder });
            same(readFileSync(join(folder, "NEW")), text);
        }
    } finally {
        rmSync(folder, { recursive: true });
    }
});

test("the prefixes are those of the standards, and PEM is that of Node", () => {
    for (const [at, n] of [16, 16, 24, 24, 32, 32].entries()) {
        const oid = `300b0609608648016503040${(0x314 + at).toString(16)}`;
        const sk = Uint8Array.from({ length: 4 * n }, (_, it) => it);
        const head = { 16: `3052020100${oid}0440`, 24: `3072020100${oid}0460`, 32: `308193020100${oid}048180` }[n];
        const secret = slh.secretKey(at + 1, sk);
        const der = Buffer.concat([unhex(head), sk]);
        same(pkix.toDer(slh, secret), der);
        assert.equal(Buffer.from(pkix.toPem(slh, secret)).toString(), pem("PRIVATE KEY", der));
        const publicHead = { 16: `3030${oid}032100`, 24: `3040${oid}033100`, 32: `3050${oid}034100` }[n];
        const publicDer = Buffer.concat([unhex(publicHead), sk.subarray(2 * n)]);
        same(pkix.toDer(slh, secret.public()), publicDer);
        assert.equal(Buffer.from(pkix.toPem(slh, secret.public())).toString(), pem("PUBLIC KEY", publicDer));
    }
});

test("each byte of a prefix and each character count", () => {
    const secret = slh.keygen(6, new Uint8Array(32), new Uint8Array(32), new Uint8Array(32));
    const der = pkix.toDer(slh, secret);
    for (let at = 0; at < der.length - 128; at += 1) {
        for (let bit = 0; bit < 8; bit += 1) {
            const other = Uint8Array.from(der);
            other[at] ^= 1 << bit;
            if (der[at] === 0x19 && other[at] === 0x18) continue;
            isRefused(pkix.secretKeyFromDer, other, /this converts it: openssl pkey -inform DER/);
        }
    }
    const text = pkix.toPem(slh, secret);
    for (let at = 0; at < text.length; at += 1) {
        for (const char of [10, 13, 45, 61]) {
            const other = Uint8Array.from(text);
            other[at] = char;
            if (text[at] !== char) isRefused(pkix.secretKeyFromPem, other, /NotAKeyFile/);
        }
    }
    for (const other of [text.subarray(0, -2), text.subarray(1), Uint8Array.from([...text, 10]), new Uint8Array(0)]) {
        isRefused(pkix.secretKeyFromPem, other, /this converts it/);
    }
    same(pkix.secretKeyFromPem(slh, text.subarray(0, -1)).toBytes(), secret.toBytes());
    isRefused(pkix.publicKeyFromPem, text, /the key is secret/);
    isRefused(pkix.publicKeyFromDer, der, /the key is secret/);
    secret.erase();
    for (const call of [pkix.toDer, pkix.toPem]) assert.throws(() => call(slh, secret), { name: "Erased" });
});
