// The executor as a module for browsers and Node: what `qs` writes, and its status, from a script and words.
//
//     import { load } from "./qs.mjs";
//     const qs = await load(await readFile("qs.wasm"));
//     const { text, status } = qs.ask("play", script, "--mode", "static");
//
// Memories of `qs.wasm` are addressed by 64 bits: Node 20 wants `--experimental-wasm-memory64`, later ones nothing.
// A call that runs out of stack throws `WebAssembly.RuntimeError`; load the module anew after it. Where memory runs out
// the answer says so, with the status 3.

/** The words that have a call. */
export const WORDS = Object.freeze(["check", "graph", "rules", "play", "syncs", "outcomes", "ask", "fronts", "estimate"]);

const FIRST_ROOM = 1 << 20;
const encoder = new TextEncoder();

/** Whether this engine has memories of 64-bit addresses. */
export function isSupported() {
  // A module of one memory: its head, and the section of memories with limits of 64 bits.
  const module = [0x00, 0x61, 0x73, 0x6d, 0x01, 0x00, 0x00, 0x00, 0x05, 0x03, 0x01, 0x04, 0x01];
  return WebAssembly.validate(Uint8Array.from(module));
}

/** The executor from the bytes of `qs.wasm`, or from a `WebAssembly.Module` that was compiled before. */
export async function load(source) {
  const module = source instanceof WebAssembly.Module ? source : await WebAssembly.compile(source);
  return new Executor((await WebAssembly.instantiate(module, {})).exports);
}

class Executor {
  #calls;
  #room;
  #roomLength = 0;

  constructor(calls) {
    this.#calls = calls;
    this.#widen(FIRST_ROOM);
  }

  /** What `qs WORD WORDS..` writes for a script, as text, and its status. */
  ask(word, script, ...words) {
    const { bytes, status } = this.askBytes(word, script, ...words);
    return { text: new TextDecoder().decode(bytes), status };
  }

  /** The same, with the bytes of the text. A script is a string or bytes. */
  askBytes(word, script, ...words) {
    if (!WORDS.includes(word)) throw new RangeError(`there is no call for ${word}`);
    if (words.some((it) => it.includes("\n"))) throw new RangeError("a word has no line feed in it");
    const given = typeof script === "string" ? encoder.encode(script) : script;
    const line = encoder.encode(words.join("\n"));
    const [scriptAt, lineAt, statusAt] = [this.#put(given), this.#put(line), this.#take(1)];
    try {
      return this.#answer(word, [scriptAt, BigInt(given.length), lineAt, BigInt(line.length)], statusAt);
    } finally {
      for (const place of [statusAt, lineAt, scriptAt]) this.#calls.qs_give_back(place);
    }
  }

  /** How many bytes of memory there are, and how many of them are taken. */
  memory() {
    return { all: this.#calls.memory.buffer.byteLength, taken: Number(this.#calls.qs_in_use()) };
  }

  #answer(word, places, statusAt) {
    const call = () => Number(this.#calls[`qs_${word}`](...places, this.#room, BigInt(this.#roomLength), statusAt));
    let length = call();
    if (length > this.#roomLength) {
      this.#widen(length);
      length = call();
    }
    const shown = new Uint8Array(this.#calls.memory.buffer, Number(this.#room), Math.min(length, this.#roomLength));
    return { bytes: shown.slice(), status: new DataView(this.#calls.memory.buffer).getUint8(Number(statusAt)) };
  }

  #widen(length) {
    if (this.#roomLength > 0) this.#calls.qs_give_back(this.#room);
    this.#roomLength = 0;
    this.#room = this.#take(length);
    this.#roomLength = length;
  }

  #take(length) {
    const place = this.#calls.qs_take(BigInt(length));
    if (place === 0n) throw new RangeError("there is no memory for a text");
    return place;
  }

  #put(bytes) {
    const place = this.#take(bytes.length);
    new Uint8Array(this.#calls.memory.buffer, Number(place), bytes.length).set(bytes);
    return place;
  }
}
