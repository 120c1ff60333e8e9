// node words.mjs < TEXT: tells how often a text has each word, and the numbers that they get.

import { readFileSync } from "node:fs";
import { Interner, tell } from "./interner.mjs";

// Node has it by itself from 20 on.
globalThis.crypto ??= (await import("node:crypto")).webcrypto;
const interner = await Interner.make(readFileSync(new URL("interner.wasm", import.meta.url)));
console.log(tell(interner, readFileSync(0, "utf8")).join("\n"));
