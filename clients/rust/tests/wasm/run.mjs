// node run.mjs MODULE WORD < INPUT: prints what the example `intern` in wasm answers, and ends as it does.

import { readFileSync, writeSync } from "node:fs";

const [path, word] = process.argv.slice(2);
const { instance } = await WebAssembly.instantiate(readFileSync(path));
const wasm = instance.exports;
const input = Buffer.concat([Buffer.from(`${word}\n`), readFileSync(0)]);
const room = wasm.room(input.length);
new Uint8Array(wasm.memory.buffer).set(input, room);
const answer = wasm.answer(room, input.length);
const printed = Buffer.from(wasm.memory.buffer, wasm.printed(answer), wasm.printed_len(answer));
const status = wasm.status(answer);
writeSync(status === 0 ? 1 : 2, printed);
process.exitCode = status;
