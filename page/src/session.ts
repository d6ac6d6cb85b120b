// One script stepped by one machine. Every state is what the program answers for the picks that led to it.
import type { Block, ClientVariables, Step } from "./answers";
import type { Executor, Read } from "./executor";
import { sentenceOf } from "./faults";
import type { Names, RunPart } from "./readings";

export interface Machine {
  word: "rules" | "play";
  mode: string;
  chunk: number;
}

/** A state, and the steps that led to it. */
export interface Shown extends RunPart {
  picks: readonly string[];
  /** The variables, and whether they are only those after the blocks that are done. */
  variables: ClientVariables[];
  areOfDoneBlocks: boolean;
}

/** A client or a handler, as `c0` or `h1`, and what its step would be, if it has one. */
export interface Choice {
  actor: string;
  step: Step | undefined;
}

/** The steps to the end that are asked for at once. */
export const MOST_STEPS = 4000;

export class Refused extends Error {}

function answered<It>({ value, refusal }: Read<It>): It {
  if (refusal !== undefined) throw new Refused(sentenceOf(refusal));
  return value;
}

/** The clients of an order of blocks, as `c0`. */
export function orderOf(order: readonly Block[], names: Names): string[] {
  return order.map(({ client }) => `c${names.clients.indexOf(client)}`);
}

/** All clients and handlers of a script, as picks name them. */
export function actorsOf({ clients, objects }: Names): string[] {
  return [...clients.keys()].map((it) => `c${it}`).concat([...objects.keys()].map((it) => `h${it}`));
}

/** The words of a line that plays picks, and then rounds. */
function schedule(picks: string, rounds = 0): string[] {
  return [...(picks === "" ? [] : ["--pick", picks]), "--rounds", String(rounds)];
}

export class Session {
  private constructor(
    private readonly executor: Executor,
    private readonly script: string,
    readonly machine: Machine,
    readonly names: Names,
  ) {}

  static async begin(executor: Executor, script: string, machine: Machine): Promise<Session> {
    const words = ["--rounds", "0", "--queues", "--format", "json"];
    const names = answered(await executor.read("names", "rules", script, ...words));
    return new Session(executor, script, machine, names);
  }

  /** The words of a schedule as the machine plays them, with the steps and whatever more is asked for. */
  private words(...words: string[]): [word: string, script: string, ...words: string[]] {
    const { word, mode, chunk } = this.machine;
    const settings = word === "rules" ? [] : ["--mode", mode, "--chunk", String(chunk)];
    return [word, this.script, ...settings, ...words, "--steps", "--format", "json"];
  }

  /** The state after picks. */
  async look(picks: readonly string[]): Promise<Shown> {
    const words = this.words(...schedule(picks.join(",")), "--counts", "--queues");
    const run = answered(await this.executor.read("run", ...words));
    const variables = run.variables ?? (await this.variablesAfterDone(run));
    return { ...run, picks, variables, areOfDoneBlocks: run.variables === null };
  }

  /** The variables after the blocks that are done: the witness of what is never so, from there on. */
  private async variablesAfterDone({ order }: RunPart): Promise<ClientVariables[]> {
    const done = orderOf(order.filter((it) => it.done), this.names);
    const after = done.length === 0 ? [] : ["--after", done.join(",")];
    const words = [...after, "--throughout", "0 == 1", "--format", "json"];
    const { value } = await this.executor.read("verdicts", "ask", this.script, ...words);
    return value?.[0]?.witness?.clients ?? [];
  }

  /** What each actor would do after picks: each is picked once more, and the program says it. */
  async choices({ picks, finished }: Shown): Promise<Choice[]> {
    const actors = actorsOf(this.names);
    if (finished) return actors.map((actor) => ({ actor, step: undefined }));
    const before = picks.length === 0 ? "" : `${picks.join(",")},`;
    const steps = await Promise.all(actors.map((actor) => this.stepOf(before + actor)));
    return steps.map((step, index) => {
      return { actor: actors[index]!, step: step.does === "nothing" ? undefined : step };
    });
  }

  private async stepOf(picks: string): Promise<Step> {
    return answered(await this.executor.read("lastStep", ...this.words(...schedule(picks))));
  }

  /** The picks to the end, or as many as are asked for at once. */
  toEnd(picks: readonly string[]): Promise<string[]> {
    const actors = Math.max(actorsOf(this.names).length, 1);
    return this.picksOf(schedule(picks.join(","), Math.ceil(MOST_STEPS / actors)));
  }

  /** The picks that play whole blocks in an order. */
  async playing(order: readonly string[]): Promise<string[]> {
    return order.length === 0 ? [] : this.picksOf(["--order", order.join(",")]);
  }

  private async picksOf(words: string[]): Promise<string[]> {
    return answered(await this.executor.read(["picks", this.names], ...this.words(...words)));
  }
}
