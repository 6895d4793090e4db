// A program over the package slh for tsc --strict, without the types of browsers. tests/test_javascript.py compiles it.
import { Fault, load, Refusal, SelfTestFailed } from "slh";
import { type SecretKey, type Signed, SLH_DSA_SHA2_128F, SLH_SHA2_256 } from "slh";
import { toPem } from "slh/pkix";
import { signInWorker, type WorkerOptions } from "slh/worker";

export function later(secret: SecretKey, message: Uint8Array, signal: WorkerOptions["signal"]): Promise<Uint8Array> {
    return signInWorker(secret, message, { signal, once: true });
}

export async function allValid(items: Iterable<Signed>): Promise<boolean> {
    const slh = await load();
    return slh.verifyMany(items).every((isValid) => isValid);
}

export async function mayStart(): Promise<boolean> {
    const slh = await load();
    try {
        const nothing: void = slh.selfTest("SLH-DSA-SHA2-128f");
        return nothing === undefined;
    } catch (error) {
        if (error instanceof SelfTestFailed) return false;
        throw error;
    }
}

export async function sign(message: Uint8Array): Promise<Uint8Array | number> {
    const slh = await load();
    const secret: SecretKey = slh.generate(SLH_DSA_SHA2_128F);
    try {
        const signature = secret.hashSign(SLH_SHA2_256, message, { twice: true });
        const isValid: boolean = secret.public().hashVerify(SLH_SHA2_256, message, signature);
        return isValid ? signature : toPem(slh, secret.public());
    } catch (error) {
        if (error instanceof Refusal) return error.number;
        if (error instanceof Fault) return -1;
        throw error;
    } finally {
        secret.erase();
    }
}
