// Takes, resizes and gives back pieces of the memory of qs.wasm by chance: node tests/wasm.mjs qs.wasm.
//
// Each piece is filled with bytes of its own, which have to stand there until it is resized or given back, and begins
// at a multiple of 16. In the end nothing may be taken, and the whole memory has to be one piece again, so that the
// greatest that was there before can be had without more from the machine.
import { readFile } from "node:fs/promises";

const { instance } = await WebAssembly.instantiate(await readFile(process.argv[2]), {});
const { qs_take: take, qs_resize: resize, qs_give_back: giveBack, qs_in_use: inUse, memory } = instance.exports;
const pieces = [];
let seed = 12345;

/** A number below a bound, by a generator that is the same each time. */
function chance(bound) {
  seed = (Math.imul(seed, 1664525) + 1013904223) >>> 0;
  return Math.floor((seed / 2 ** 32) * bound);
}

/** A size: most are small, some have pages. */
const size = () => chance([64, 600, 5000, chance(20) ? 5000 : 300000][chance(4)]);

const bytesOf = (piece) => new Uint8Array(memory.buffer, piece.place, piece.length);

function check(holds, what) {
  if (!holds) {
    console.log(what);
    process.exit(1);
  }
}

function fill(piece) {
  piece.byte = chance(256);
  bytesOf(piece).fill(piece.byte);
}

function step() {
  const index = chance(pieces.length);
  const what = chance(pieces.length < 400 ? 5 : 8);
  if (pieces.length === 0 || what < 3) {
    const length = size();
    const place = Number(take(BigInt(length)));
    check(place % 16 === 0 && place > 0, "a piece lies at another place than a multiple of 16");
    pieces.push({ place, length });
    fill(pieces.at(-1));
    return;
  }
  const piece = pieces[index];
  check(bytesOf(piece).every((byte) => byte === piece.byte), "a piece was written to by another");
  if (what < 5) {
    const length = size();
    piece.place = Number(resize(BigInt(piece.place), BigInt(length)));
    const kept = new Uint8Array(memory.buffer, piece.place, Math.min(length, piece.length));
    check(kept.every((byte) => byte === piece.byte), "a piece lost its bytes as it was resized");
    piece.length = length;
    fill(piece);
  } else {
    giveBack(BigInt(piece.place));
    pieces.splice(index, 1);
  }
}

const before = inUse();
for (let count = 0; count < 40000; count++) step();
for (const piece of pieces) giveBack(BigInt(piece.place));
check(inUse() === before, "not all memory went back");
const all = memory.buffer.byteLength;
const whole = take(BigInt(all - (10 << 20)));
check(whole !== 0n && memory.buffer.byteLength === all, "pieces that were given back did not grow together");
giveBack(whole);
check(take(1n << 41n) === 0n && take((1n << 64n) - 1n) === 0n, "more is given than there can be");
