// The part of the page that shows all that a script can come to, and answers questions about it.
import {
  type ClientVariables,
  type End,
  type Refusal,
  type State,
  type Verdict,
  type Witness,
  estimateIn,
  refusalIn,
  stateText,
} from "./answers";
import { Chart } from "./chart";
import { codeOf } from "./code";
import { clientName } from "./drawing";
import { byId, counted, element, fill, fillInSlices } from "./element";
import { type Executor, type Read, Stopped } from "./executor";
import { sentenceOf, toldQuestion } from "./faults";
import type { Names, Part } from "./readings";
import { MANY, isOverLimit, limit, overLimit } from "./search";
import { drawValues } from "./values";
import { orderTo, sentenceOfVerdict } from "./verdicts";

const MOST_CHARTED = 200;
const MOST_BLOCKS = 64;

const OF_SUMS = "a sum adds up numbers, variables and queries, as in `a.balance() + ann.x - 3`";

/** Asks by these words and draws the answer. */
type Reader = (words: string[], script: string) => Promise<Read<unknown>>;

export class Ends {
  private script: string | undefined;
  private names: Names = { clients: [], objects: [] };
  private isCurrent = false;
  private running = 0;
  private readonly chart: Chart;

  constructor(
    private readonly executor: Executor,
    private readonly playOrder: (order: readonly string[]) => void,
  ) {
    this.chart = new Chart(byId("chart"), playOrder);
    byId("find").addEventListener("click", () => void this.find());
    byId("stop").addEventListener("click", () => this.executor.stop());
    this.onSubmit("ask", () => this.question());
    this.onSubmit("ask-values", () => this.values());
    this.onInput(["kind", "condition"], "answer");
    this.onInput(["sum"], "values");
  }

  /** Where the question is written anew, the answer below it is of the one before. */
  private onInput(fields: string[], id: string): void {
    for (const field of fields) byId(field).addEventListener("input", () => byId(id).classList.add("before"));
  }

  private onSubmit(id: string, act: () => Promise<void>): void {
    byId(id).addEventListener("submit", (event) => {
      event.preventDefault();
      void act();
    });
  }

  /** Another script, with the names of its clients: unless only its comments differ, what is shown is taken off. */
  begin(script: string | undefined, names: Names): void {
    if (script === this.script) return;
    const isSame = codeOf(script ?? "") === codeOf(this.script ?? "");
    this.script = script;
    if (isSame) return;
    this.names = names;
    this.isCurrent = false;
    this.executor.stop();
    for (const id of ["ends", "chart", "answer", "values", "found"]) fill(byId(id));
  }

  /** Finds the ends when the part is looked at for the first time. */
  async look(): Promise<void> {
    if (!this.isCurrent) await this.find();
  }

  private async find(): Promise<void> {
    const script = this.script;
    if (script === undefined) return;
    this.isCurrent = true;
    await this.guarded("found", async () => {
      const began = performance.now();
      const words = ["--limit", limit(), "--format", "json"];
      const { value, refusal } = await this.executor.read("ends", "outcomes", script, ...words);
      if (refusal !== undefined) return this.tellRefused(script, refusal);
      const { ends, configurations } = value;
      await this.drawEnds(ends, configurations, performance.now() - began);
      if (configurations > MANY) this.executor.end();
      await this.drawChart(script, configurations);
    });
  }

  /** Runs a search with the button that stops it, and says what came in between. */
  private async guarded(id: string, act: () => Promise<void>): Promise<void> {
    byId<HTMLButtonElement>("stop").disabled = false;
    this.running++;
    byId(id).textContent = "Searching ..";
    try {
      await act();
    } catch (error) {
      byId(id).textContent = error instanceof Stopped ? "The search was stopped." : String(error);
    }
    this.running--;
    byId<HTMLButtonElement>("stop").disabled = this.running === 0;
  }

  private async tellRefused(script: string, refusal: Refusal): Promise<void> {
    if (!isOverLimit(refusal)) {
      byId("found").textContent = sentenceOf(refusal);
      return;
    }
    const estimate = await this.executor.ask("estimate", script, "--format", "json");
    const most = estimateIn(estimate.text) ?? "over 10^18";
    byId("found").textContent = `There are more than ${limit()} configurations, the limit; at most there are ${most}.`;
    fill(byId("ends"));
    fill(byId("chart"));
  }

  private async drawEnds(ends: Part<End>, configurations: number, time: number): Promise<void> {
    const seconds = time < 1000 ? "" : ` in ${(time / 1000).toFixed(1)} seconds`;
    const found = [counted(ends.count, "end"), counted(configurations, "configuration")];
    const items = ends.items.map((it) => () => this.endItem(it));
    const rest = ends.count - ends.items.length;
    const more = () => rest > 0 && element("li", { class: "note" }, `and ${rest} more`);
    await fillInSlices(byId("ends"), [...items, more]);
    byId("found").textContent = `${found.join(", ")}${seconds}`;
  }

  private endItem(end: End): HTMLElement {
    return element(
      "li",
      { class: "card", "data-outcome": end.outcome },
      element("h4", {}, `End ${end.outcome} `, this.playButton(end.order)),
      element("p", { class: "blocks" }, ...this.blocks(end.order)),
      this.facts(end.states, end.clients),
    );
  }

  private playButton(order: readonly string[]): HTMLElement {
    const play = () => this.playOrder(order);
    return element("button", { class: "play", "data-order": order.join(","), onclick: play }, "Play it");
  }

  /** The blocks of an order, by their clients' names and numbers. */
  private blocks(order: readonly string[]): (HTMLElement | string)[] {
    const counts = new Map<string, number>();
    const names = order.slice(0, MOST_BLOCKS).map((client) => {
      const block = counts.get(client) ?? 0;
      counts.set(client, block + 1);
      const name = this.names.clients[Number(client.slice(1))]!;
      return clientName(this.names, name, `${name} ${block}`);
    });
    const rest = order.length - names.length;
    return rest > 0 ? [...names, ` and ${rest} more`] : names;
  }

  private facts(states: State[], clients: ClientVariables[]): HTMLElement {
    const objects = states.map((it) => element("li", {}, element("b", {}, it.object), ` ${stateText(it)}`));
    const variables = clients.map(({ client, variables: own }) => {
      const values = own.map(({ variable, value }) => ` ${variable} ${value}`).join("");
      return element("li", {}, clientName(this.names, client), values);
    });
    return element("ul", { class: "facts" }, ...objects, ...variables);
  }

  private async drawChart(script: string, configurations: number): Promise<void> {
    if (configurations > MOST_CHARTED) {
      const text = `A chart is drawn of up to ${MOST_CHARTED} configurations.`;
      fill(byId("chart"), element("p", { class: "note" }, text));
      return;
    }
    const { value } = await this.executor.read("chart", "outcomes", script, "--format", "dot");
    if (value !== undefined) this.chart.draw(value, this.names);
  }

  private async question(): Promise<void> {
    const kind = byId<HTMLSelectElement>("kind").value;
    await this.ask("answer", kind, byId<HTMLInputElement>("condition").value, async (words, script) => {
      const read = await this.executor.read("verdicts", "ask", script, ...words);
      if (read.value === undefined) return read;
      const verdict = read.value[0]!;
      fill(byId("answer"), ...this.drawAnswer(verdict));
      if (verdict.witness !== null) this.chart.show(orderTo(verdict.witness));
      return read;
    });
  }

  private async values(): Promise<void> {
    await this.ask("values", "values", byId<HTMLInputElement>("sum").value, async (words, script) => {
      const read = await this.executor.read("values", "ask", script, ...words);
      if (read.value !== undefined) await drawValues(byId("values"), read.value, this.playOrder);
      return read;
    });
  }

  /** Asks a question by a setting of `ask`, and tells at its place what was refused. */
  private async ask(id: string, setting: string, written: string, read: Reader): Promise<void> {
    const script = this.script;
    const question = written.trim().replace(/\n/g, " ");
    if (script === undefined || question === "") return;
    byId(id).classList.remove("before");
    await this.guarded(id, async () => {
      const words = [`--${setting}=${question}`, "--limit", limit(), "--format", "json"];
      const { refusal } = await read(words, script);
      if (refusal === undefined) return;
      if (isOverLimit(refusal)) fill(byId(id), overLimit());
      else fill(byId(id), ...toldQuestion(await this.explained(refusal, setting, question), question));
    });
  }

  /** A refusal with its cause. Of a condition that cannot be parsed the program tells it where that is a claim. */
  private async explained(refusal: Refusal, setting: string, question: string): Promise<Refusal> {
    if (refusal.cause !== undefined) return refusal;
    if (setting === "values") return { ...refusal, cause: "the sum cannot be parsed", help: OF_SUMS };
    const head = `#? ${setting} `;
    const { text } = await this.executor.ask("ask", head + question, "--format", "json");
    const { column, ...told } = refusalIn(text) ?? refusal;
    const claim = "a claim of the script";
    if (told.cause !== undefined) {
      told.cause = told.cause.replace(`${claim} cannot be parsed: `, "").replace(claim, "the condition");
    }
    return column === undefined ? told : { ...told, column: column - head.length };
  }

  private drawAnswer(verdict: Verdict): HTMLElement[] {
    const { kind, witness, configurations } = verdict;
    const looked = ` (${counted(configurations, "configuration")} looked at)`;
    const head = element("p", { class: "verdict" }, element("b", {}, sentenceOfVerdict(verdict)), looked);
    const holds = ["some", "ever", "never"].includes(kind);
    return witness === null ? [head] : [head, this.witness(witness, holds)];
  }

  private witness(witness: Witness, holds: boolean): HTMLElement {
    const { after, states, clients } = witness;
    const order = orderTo(witness);
    const what = after === undefined ? "An end" : "A state between blocks";
    const head = `${what} where it is ${holds ? "true" : "false"}: `;
    const blocks = order.length === 0 ? ["the beginning"] : this.blocks(order);
    return element(
      "div",
      { class: "card witness" },
      element("p", {}, head, this.playButton(order)),
      element("p", { class: "blocks" }, ...blocks),
      this.facts(states, clients),
    );
  }
}
