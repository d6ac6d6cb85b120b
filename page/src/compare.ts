// The part of the page that compares the four modes: how many synchronisations each block sends in one order.
import { clientName } from "./drawing";
import { byId, element, fill, fillInSlices } from "./element";
import type { Executor } from "./executor";
import type { Names, Readings, TicketPart } from "./readings";
import { orderOf } from "./session";

const MODES = ["none", "dynamic", "static", "both"];
const MOST_ROWS = 300;
const MOST_TIMES = 1000;

type Syncs = ReturnType<Readings["syncs"]>;
type Counted = Omit<TicketPart, "trace">;

/** An order as it is shown: its clients' names, as the program takes them too, but for one that is an object's too. */
function shownOrder(order: readonly string[], { clients, objects }: Names): string {
  const shown = (client: string) => {
    const name = clients[Number(client.slice(1))]!;
    return objects.includes(name) ? client : `@${name}`;
  };
  return order.map(shown).join(",");
}

/** The parts of an order as the program takes them; a name of a client may stand alone, and several times. */
function writtenOrder(text: string, { clients }: Names): string {
  const parts = text.replace(/\s/g, "").split(",").map((part) => {
    const [, at, name = "", times = "1"] = /^(@?)([a-z]\w*)(?:\*(\d+))?$/.exec(part) ?? [];
    const number = clients.indexOf(name);
    const isNumbered = at === "" && /^c\d$/.test(name);
    if (isNumbered || number < 0 || Number(times) > MOST_TIMES) return part;
    return Array.from({ length: Number(times) }, () => `c${number}`).join(",");
  });
  return parts.join(",");
}

export class Compare {
  private script: string | undefined;
  private names: Names = { clients: [], objects: [] };
  private turn = 0;

  constructor(private readonly executor: Executor) {
    byId("compare-form").addEventListener("submit", (event) => {
      event.preventDefault();
      void this.look();
    });
  }

  /** Another script or order to compare. */
  begin(script: string | undefined, names: Names, order: readonly string[]): void {
    this.script = script;
    this.names = names;
    byId<HTMLInputElement>("compare-order").value = shownOrder(order, names);
  }

  async look(): Promise<void> {
    const { script } = this;
    if (script === undefined) return;
    const turn = ++this.turn;
    const place = byId("comparison");
    place.setAttribute("aria-busy", "true");
    await this.compare(script, turn);
    if (turn === this.turn) place.setAttribute("aria-busy", "false");
  }

  private async compare(script: string, turn: number): Promise<void> {
    const field = byId<HTMLInputElement>("compare-order");
    if (field.value.trim() === "") field.value = shownOrder(await this.wholeOrder(script), this.names);
    const order = writtenOrder(field.value, this.names);
    if (order === "") return this.tell("The script has no block.");
    const settings = ["--order", order, "--counts", "--format", "json"];
    const asked = MODES.map((mode) => this.executor.read("syncs", "play", script, "--mode", mode, ...settings));
    const answers = await Promise.all(asked);
    if (turn !== this.turn) return;
    const refusal = answers[0]!.refusal;
    if (refusal !== undefined) return this.tell(this.refusedOrder(refusal.fault));
    await this.draw(answers.flatMap(({ value }) => value ?? []));
  }

  /** The order of a whole run. */
  private async wholeOrder(script: string): Promise<string[]> {
    const { value } = await this.executor.read("syncs", "play", script, "--format", "json");
    return value === undefined ? [] : orderOf(value.order, this.names);
  }

  private refusedOrder(fault: string): string {
    if (fault !== "play 4 Order" && fault !== "command line") return `Refused: ${fault}.`;
    return "An order is a list of clients, as @ann,@bob or c0,c1, each as often as it has blocks at most.";
  }

  private tell(text: string): void {
    fill(byId("comparison"), element("p", { class: "note" }, text));
  }

  private async draw(inModes: Syncs[]): Promise<void> {
    const head = element("tr", {}, this.head("Block"), this.head("Object"), ...MODES.map((mode) => this.head(mode)));
    const blocks = inModes[0]!.order;
    const rows = blocks.flatMap((block, index) => this.rows(block, inModes.map(({ order }) => order[index]!)));
    const more = rows.length - MOST_ROWS;
    const most = inModes[0]!.syncs;
    const totals = inModes.map(({ syncs }) => element("td", { class: syncs < most ? "fewer" : undefined }, syncs));
    const foot = element("tr", {}, element("th", { scope: "row", colspan: 2 }, "All blocks"), ...totals);
    const body = element("tbody");
    const table = element(
      "table",
      { class: "comparison" },
      element("caption", {}, "Synchronisations that each block sends, by mode"),
      element("thead", {}, head),
      body,
      element("tfoot", {}, foot),
    );
    const scroll = element("div", { class: "scroll", tabindex: 0, role: "group", "aria-label": "Comparison" }, table);
    const rest = more > 0 && element("p", { class: "note" }, `and ${more} more rows`);
    await fillInSlices(body, rows.slice(0, MOST_ROWS));
    fill(byId("comparison"), scroll, rest);
  }

  private head(text: string): HTMLElement {
    return element("th", { scope: "col" }, text);
  }

  /** The rows of a block: one for each object that it reserves. */
  private rows({ client, block, syncs }: Counted, inModes: Counted[]): (() => HTMLElement)[] {
    return syncs.map(({ object }, index) => () => {
      const numbers = inModes.map((it) => it.syncs[index]?.count ?? 0);
      const most = numbers[0]!;
      const cells = numbers.map((count) => element("td", { class: count < most ? "fewer" : undefined }, count));
      const name = element("th", { scope: "row" }, clientName(this.names, client, `${client} ${block}`));
      return element("tr", {}, name, element("td", {}, object), ...cells);
    });
  }
}
