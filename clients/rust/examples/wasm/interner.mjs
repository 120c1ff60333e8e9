// An interner of words in wasm, for a page and for node.

const encoder = new TextEncoder();
const decoder = new TextDecoder();

export class Interner {
  /** Makes an interner, under random keys, of the bytes of the module. */
  static async make(bytes) {
    const { instance } = await WebAssembly.instantiate(bytes);
    return new Interner(instance.exports);
  }

  constructor(wasm) {
    this.wasm = wasm;
    this.address = wasm.make(...crypto.getRandomValues(new BigUint64Array(2)));
  }

  /** Returns the numbers of the words of a text. New words get the next ones. */
  intern(text) {
    const most = 3 * text.length;
    const room = this.wasm.room(this.address, most) >>> 0;
    if (room === 0) throw new RangeError("out of memory");
    const { written } = encoder.encodeInto(text, new Uint8Array(this.wasm.memory.buffer, room, most));
    const count = this.wasm.intern(this.address, written);
    if (count < 0) throw new RangeError("out of memory");
    return new Uint32Array(this.wasm.memory.buffer, this.wasm.numbers(this.address) >>> 0, count).slice();
  }

  /** Returns the word with a number, or undefined. */
  resolve(number) {
    const found = BigInt.asUintN(64, this.wasm.resolve(this.address, number));
    if (found === 0n) return undefined;
    const [length, start] = [Number(found >> 32n), Number(found & 0xffffffffn)];
    return decoder.decode(new Uint8Array(this.wasm.memory.buffer, start, length));
  }

  /** How many distinct words there are. */
  get count() {
    return this.wasm.count(this.address) >>> 0;
  }
}

/** Returns lines that tell how often a text has each word, which get their numbers here. */
export function tell(interner, text) {
  const numbers = interner.intern(text);
  const counts = new Map();
  for (const number of numbers) counts.set(number, (counts.get(number) ?? 0) + 1);
  const lines = Array.from(counts, ([number, count]) => `${number} ${interner.resolve(number)}: ${count}`);
  return [`${numbers.length} words, ${counts.size} distinct`, ...lines];
}
