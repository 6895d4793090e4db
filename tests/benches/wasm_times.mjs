// Times signing by a WebAssembly module in Node, as portable_times.c times a library:
//
//     node tests/benches/wasm_times.mjs MODULE RUNS
//
// It prints the nanoseconds of the shortest run: the deterministic 128f signature of "abc" with an empty context, by the
// key of the seeds 00, 01, 02, .. Node 20 needs --experimental-wasm-memory64 for a module with a 64-bit memory.
import fs from "fs";

const SET = 2, N = 16, SIGNATURE = 17088;
const [module, runs] = process.argv.slice(2);
const { instance } = await WebAssembly.instantiate(fs.readFileSync(module));
const { memory, __heap_base: base, slh_keygen, slh_sign } = instance.exports;
const pointer = typeof base.value === "bigint" ? BigInt : Number;
const seeds = Number(base.value), sk = seeds + 3 * N, message = sk + 4 * N, signature = message + N;
const bytes = new Uint8Array(memory.buffer);
for (let i = 0; i < 3 * N; i++) bytes[seeds + i] = i;
bytes.set(Buffer.from("abc"), message);

// An argument that is bytes: their address and their number.
const at = (address, length) => [pointer(address), BigInt(length)];

function run(call, ...words) {
    const before = process.hrtime.bigint();
    const result = call(SET, ...words.flat());
    if (result !== 0) throw new Error(`refused: ${result}`);
    return Number(process.hrtime.bigint() - before);
}

run(slh_keygen, at(seeds, N), at(seeds + N, N), at(seeds + 2 * N, N), at(sk, 4 * N));
const sign = () => run(slh_sign, at(sk, 4 * N), at(message, 3), at(0, 0), at(0, 0), at(signature, SIGNATURE));
console.log(Math.min(...Array.from({ length: Number(runs) }, sign)));
