// Calls of the executor, which runs in a worker, so that the page never waits for it and can end a long search.
import type { Refusal } from "./answers";
import type { Readings } from "./readings";
import type { Call, Reply } from "./worker";

export interface Answer {
  text: string;
  status: number;
}

/** A call was stopped, and has no answer. */
export class Stopped extends Error {}

/** Asks what `qs WORD WORDS..` writes for a script. */
export type Ask = (word: string, script: string, ...words: string[]) => Promise<Answer>;

/** An answer as it was read, or why it was refused. */
export type Read<It> = { value: It; refusal?: undefined } | { value?: undefined; refusal: Refusal };

interface Waiting {
  resolve: (reply: Reply) => void;
  reject: (error: Error) => void;
}

export class Executor {
  private worker: Worker | undefined;
  private readonly waiting = new Map<number, Waiting>();
  private count = 0;

  constructor(
    private readonly module: WebAssembly.Module,
    private readonly source: string,
  ) {}

  readonly ask: Ask = async (word, script, ...words) => {
    const { text = "", status = 0 } = await this.call({ word, script, words });
    return { text, status };
  };

  /** Asks the same, and has the answer read in the worker, by the name of a reading and what is given to it. */
  async read<Name extends keyof Readings>(
    reading: Name | [Name, Parameters<Readings[Name]>[1]],
    word: string,
    script: string,
    ...words: string[]
  ): Promise<Read<ReturnType<Readings[Name]>>> {
    const [name, given] = Array.isArray(reading) ? reading : [reading, undefined];
    const { value, refusal } = await this.call({ word, script, words, reading: name, given });
    return refusal === undefined ? { value: value as ReturnType<Readings[Name]> } : { refusal };
  }

  private call(call: Omit<Call, "number">): Promise<Reply> {
    const number = ++this.count;
    return new Promise((resolve, reject) => {
      this.waiting.set(number, { resolve, reject });
      this.started().postMessage({ ...call, number });
    });
  }

  /** Ends all calls, which are then stopped. */
  stop(): void {
    if (this.waiting.size > 0) this.end(new Stopped("stopped"));
  }

  /** Ends the worker, which gives its memory back, and all calls with it; the next call starts another. */
  end(error: Error = new Stopped("stopped")): void {
    this.worker?.terminate();
    this.worker = undefined;
    for (const { reject } of this.waiting.values()) reject(error);
    this.waiting.clear();
  }

  private started(): Worker {
    if (this.worker === undefined) {
      this.worker = new Worker(this.source);
      this.worker.onmessage = ({ data }: MessageEvent<Reply>) => this.take(data);
      this.worker.onerror = (event) => this.end(new Error(event.message));
      this.worker.postMessage(this.module);
    }
    return this.worker;
  }

  private take(reply: Reply): void {
    const waiting = this.waiting.get(reply.number);
    if (waiting === undefined) return;
    this.waiting.delete(reply.number);
    if (reply.failed === undefined) {
      waiting.resolve(reply);
      return;
    }
    // A module that has failed in the middle of a call may be in any state.
    waiting.reject(new Error(reply.failed));
    this.end(new Error(reply.failed));
  }
}
