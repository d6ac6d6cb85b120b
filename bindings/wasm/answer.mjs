// Answers calls as `qs` does: each line of standard input is JSON, `{"words": [..], "script": BASE64}`, and so is each
// line of the answer, `{"text": BASE64, "status": N, "taken": BYTES, "all": BYTES}`, with the memory after the call.
//
//     node --experimental-wasm-memory64 answer.mjs qs.wasm < calls
import { readFile } from "node:fs/promises";
import { createInterface } from "node:readline";
import { load } from "./qs.mjs";

const qs = await load(await readFile(process.argv[2]));
for await (const line of createInterface({ input: process.stdin })) {
  const { words, script } = JSON.parse(line);
  const { bytes, status } = qs.askBytes(words[0], Buffer.from(script, "base64"), ...words.slice(1));
  const text = Buffer.from(bytes).toString("base64");
  process.stdout.write(`${JSON.stringify({ text, status, ...qs.memory() })}\n`);
}
