// The executor in a worker of its own: it gets the compiled module once, and then calls.
import { type Executor, load } from "../../bindings/wasm/qs.mjs";
import { type Refusal, refusalIn } from "./answers";
import { type Readings, readings } from "./readings";

export interface Call {
  number: number;
  word: string;
  script: string;
  words: string[];
  /** How the answer is read; without it, it comes as text. */
  reading?: keyof Readings;
  given?: unknown;
}

export interface Reply {
  number: number;
  text?: string;
  status?: number;
  value?: unknown;
  refusal?: Refusal;
  failed?: string;
}

let loading: Promise<Executor> | undefined;

async function reply({ number, word, script, words, reading, given }: Call): Promise<Reply> {
  try {
    if (loading === undefined) throw new Error("there is no module yet");
    const answer = (await loading).ask(word, script, ...words);
    if (reading === undefined) return { number, ...answer };
    const refusal = refusalIn(answer.text);
    if (refusal !== undefined) return { number, refusal };
    const read = readings[reading] as (text: string, given: unknown) => unknown;
    return { number, value: read(answer.text, given) };
  } catch (error) {
    return { number, failed: String(error) };
  }
}

addEventListener("message", async ({ data }: MessageEvent<WebAssembly.Module | Call>) => {
  if (data instanceof WebAssembly.Module) loading = load(data);
  else postMessage(await reply(data));
});
