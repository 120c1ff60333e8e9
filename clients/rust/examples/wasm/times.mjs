// node times.mjs: the size of the module, and processor time for a text, beside a Map: the least of nine runs.

import { readFileSync } from "node:fs";
import { gzipSync } from "node:zlib";
import { Interner } from "./interner.mjs";

globalThis.crypto ??= (await import("node:crypto")).webcrypto;

const COUNT = 200_000;
const TOGETHER = 10_000;
const RUNS = 9;
const module = readFileSync(new URL("interner.wasm", import.meta.url));

// Texts as a program reads them: each is a string of its own, whose hash code V8 does not know yet.
const read = () => Buffer.from(Array.from({ length: COUNT }, (_, at) => `name_${(at * 7919) % 1000003}`).join(" ")).toString().split(" ");

const ways = {
  "a `Map`": {
    make: () => new Map(),
    intern: (map, texts) => {
      for (const text of texts) if (!map.has(text)) map.set(text, map.size);
    },
  },
  "the module, a call each": {
    make: () => Interner.make(module),
    intern: (interner, texts) => {
      for (const text of texts) interner.intern(text);
    },
  },
  "the module, 10,000 texts a call": {
    make: () => Interner.make(module),
    intern: (interner, texts) => {
      for (let from = 0; from < COUNT; from += TOGETHER) interner.intern(texts.slice(from, from + TOGETHER).join(" "));
    },
  },
};

/** Returns the nanoseconds for a text that a call takes. */
function time(call) {
  const before = process.cpuUsage();
  call();
  const { user, system } = process.cpuUsage(before);
  return ((user + system) * 1000) / COUNT;
}

console.log(`${module.length} bytes, ${gzipSync(module, { level: 9 }).length} by gzip; node ${process.version}`);
for (const [name, { make, intern }] of Object.entries(ways)) {
  let [fresh, known] = [Infinity, Infinity];
  for (let run = 0; run < RUNS; run++) {
    const store = await make();
    const [first, second] = [read(), read()];
    fresh = Math.min(fresh, time(() => intern(store, first)));
    known = Math.min(known, time(() => intern(store, second)));
  }
  console.log(`| ${name} | ${fresh.toFixed(0)} | ${known.toFixed(0)} |`);
}
