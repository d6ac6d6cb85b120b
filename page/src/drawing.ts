// A state as it is drawn: clients, objects with their handlers and queues, the order of blocks and the steps so far.
import {
  type Parcel,
  type Standing,
  type State,
  type Step,
  eventText,
  standingWords,
  stateText,
  stepWords,
} from "./answers";
import { counted, element } from "./element";
import type { Entry, LanePart, Names, Part, QueuePart, ReservationPart, TicketPart } from "./readings";
import type { Machine, Shown } from "./session";

/** How many variables stand on a line of a card, about, and how many lines it has for them. */
const VARIABLES_IN_LINE = 4;
const MOST_LINES = 3;
/** How many values of a buffer are drawn, the first one first. */
const MOST_CELLS = 100;

/** What a drawing needs beside the state. */
export interface Scene {
  names: Names;
  machine: Machine["word"];
  /** The line on which a block begins, by its ticket. */
  lines: Map<string, number>;
  showLine: (line: number) => void;
}

/** A name in its client's colour. */
export function clientName(names: Names, client: string, text = client): HTMLElement {
  return element("span", { class: `client k${names.clients.indexOf(client)}` }, text);
}

function blockName(names: Names, client: string, block: number): HTMLElement {
  return clientName(names, client, `${client} ${block}`);
}

function list(items: Iterable<string>): string {
  return [...items].join(", ");
}

function fact(label: string, className: string, ...content: (Node | string)[]): HTMLElement {
  return element("div", { class: "fact" }, element("dt", {}, label), element("dd", { class: className }, ...content));
}

/** The variables of a client, on as many lines in each state, so that nothing moves where a value grows. */
function variablesOf(shown: Shown, client: string): HTMLElement | null {
  const variables = shown.variables.find((it) => it.client === client)?.variables ?? [];
  if (variables.length === 0) return null;
  const label = shown.areOfDoneBlocks ? "Variables after its done blocks" : "Variables";
  const each = variables.map(({ variable, value }) => element("span", { class: "variable" }, `${variable} = ${value}`));
  const lines = Math.min(Math.ceil(variables.length / VARIABLES_IN_LINE), MOST_LINES);
  return fact(label, `variables lines${lines}`, ...each.flatMap((it) => [it, " "]));
}

function openBlock({ order }: Shown, client: string, scene: Scene): HTMLElement {
  const open = order.find((it) => it.client === client && !it.done);
  if (open === undefined) return fact("In block", "open");
  const ticket = `${client} ${open.block}`;
  const line = scene.lines.get(ticket);
  const go = () => line !== undefined && scene.showLine(line);
  const where = line !== undefined && element("button", { class: "link", onclick: go }, `line ${line}`);
  return fact("In block", "open", ticket, " ", where || "");
}

function clientCard(shown: Shown, standing: Standing, scene: Scene): HTMLElement {
  const { client } = standing;
  const words = standingWords(standing);
  const waits = element("span", { class: "standing" }, words);
  const held = list(shown.holdings.objects.get(client) ?? []);
  const chunks = list(shown.holdings.chunks.get(client) ?? []);
  const isOptimised = scene.machine === "play";
  return element(
    "article",
    { class: `card client-card k${scene.names.clients.indexOf(client)}`, "data-client": client },
    element("h4", { title: `${client} ${words}` }, clientName(scene.names, client), " ", waits),
    element(
      "dl",
      {},
      openBlock(shown, client, scene),
      isOptimised && fact("Holds", "holds", held),
      isOptimised && fact("Fills a chunk for", "chunks", chunks),
      variablesOf(shown, client),
    ),
  );
}

function cells(values: (string | number)[], capacity: number): HTMLElement {
  const drawn = values.slice(0, MOST_CELLS).map((value) => element("li", {}, value));
  const others = values.length - drawn.length;
  const more = others > 0 && element("li", { class: "room" }, `and ${others} more`);
  const rest = capacity - values.length;
  const room = rest > 0 && element("li", { class: "room" }, `room for ${rest}`);
  return element("ol", { class: "cells" }, ...drawn, more, room);
}

function grid({ rows = 0, columns = 0, values = [] }: State): HTMLElement {
  const row = (index: number) => {
    const slice = values.slice(index * columns, (index + 1) * columns);
    return element("tr", {}, ...slice.map((value) => element("td", {}, value)));
  };
  const body = element("tbody", {}, ...Array.from({ length: rows }, (_, index) => row(index)));
  const attributes = { class: "scroll", tabindex: 0, role: "group", "aria-label": "Cells" };
  return element("div", attributes, element("table", { class: "grid" }, body));
}

function stateOf(state: State): HTMLElement {
  if (state.kind === "buffer") return cells(state.values ?? [], state.capacity ?? 0);
  if (state.kind === "grid") return grid(state);
  return element("span", { class: "balance" }, state.balance);
}

/** How many of a list are not drawn, if there are such. */
function more({ count, items }: Part<unknown>): string | false {
  return count > items.length && `and ${count - items.length} more`;
}

function queued(names: Names, { client, block, items }: ReservationPart): HTMLElement {
  const drawn = items.items.map(({ item, request }) =>
    element("span", { class: request === undefined ? "item end" : "item" }, request ? eventText(request) : item),
  );
  const rest = more(items);
  const content = [...drawn.flatMap((it) => [" ", it]), rest && ` ${rest}`];
  return element("li", { class: "queued" }, blockName(names, client, block), ...content);
}

function parcelBox({ parcel, requests }: Parcel): HTMLElement {
  if (requests === undefined) return element("span", { class: `parcel ${parcel}` }, parcel);
  const drawn = requests.map((request) => element("span", { class: "item" }, eventText(request)));
  return element("span", { class: "parcel work", title: "a chunk" }, ...drawn.flatMap((it) => [it, " "]));
}

function laneItem(names: Names, { client, parcels }: LanePart): HTMLElement {
  const drawn = parcels.items.flatMap((it) => [" ", parcelBox(it)]);
  const content = ["lane of ", clientName(names, client), ":", ...drawn, more(parcels)];
  return element("li", { class: "lane", "data-client": client }, ...content);
}

function queueOf(queue: QueuePart | undefined, names: Names): HTMLElement[] {
  const reservations = queue?.reservations ?? { count: 0, items: [] };
  const lanes = queue?.lanes.filter(({ parcels }) => parcels.count > 0) ?? [];
  const head = reservations.count === 0 ? "No block waits here." : "Its queue, the first one first:";
  const rest = more(reservations);
  const items = reservations.items.map((it) => queued(names, it));
  const rows = [...items, rest && element("li", {}, rest), ...lanes.map((it) => laneItem(names, it))];
  return [element("p", { class: "note" }, head), element("ol", { class: "queue", "aria-label": "Queue" }, ...rows)];
}

/** The last of what an object has run: its place shows the end of the list. */
function journalOf(journal: Part<Entry>, object: string, names: Names): HTMLElement[] {
  const { count, items } = journal;
  const drawn = items.map(({ client, block, event }) => {
    const code = element("code", {}, eventText(event).slice(object.length + 1));
    return element("li", {}, blockName(names, client, block), " ", code);
  });
  const head = `Journal: ${count} run${count > items.length ? `, the last ${items.length}` : ""}`;
  const list = element("ol", { class: "journal", start: count - items.length + 1 }, ...drawn);
  const scroll = element("div", { class: "to-end", role: "group", "aria-label": "Journal" }, list);
  return [element("p", { class: "note" }, head), scroll];
}

function objectCard(shown: Shown, state: State, { names, machine }: Scene): HTMLElement {
  const { object } = state;
  const doing = shown.holdings.handlers.get(object);
  const kind = `${state.kind}${state.capacity === undefined ? "" : ` of ${state.capacity}`}`;
  return element(
    "article",
    { class: "card object-card", "data-object": object },
    element("h4", {}, element("span", { class: "name" }, object), " ", element("span", { class: "kind" }, kind)),
    element("div", { class: `value ${state.kind}`, title: stateText(state) }, stateOf(state)),
    element(
      "dl",
      {},
      fact("Refused", "refused", String(state.refused)),
      machine === "play" && fact("Handler", "doing", doing ?? ""),
    ),
    ...queueOf(shown.queues.find((it) => it.object === object), names),
    ...journalOf(shown.journals.get(object) ?? { count: 0, items: [] }, object, names),
  );
}

/** All clients, and all objects with their handlers. */
export function drawState(shown: Shown, scene: Scene): HTMLElement[] {
  const clients = shown.standings.map((standing) => clientCard(shown, standing, scene));
  const objects = shown.states.map((state) => objectCard(shown, state, scene));
  return [
    element("section", { "aria-label": "Clients" }, element("h3", {}, "Clients"), ...clients),
    element("section", { "aria-label": "Objects" }, element("h3", {}, "Objects and their handlers"), ...objects),
  ];
}

function ticketItem({ client, block, done, trace, syncs }: TicketPart, names: Names): HTMLElement {
  const events = trace.items.map((event) => {
    const mark = event.refused === true ? "refused" : event.none ? "none" : event.refused === null ? "waiting" : "ran";
    return element("li", { class: mark }, element("code", {}, eventText(event)));
  });
  const counts = syncs.map(({ object, count }) => `${object} ${count}`);
  const last = `The last ${events.length} of ${trace.count}:`;
  const earlier = trace.count > events.length && element("p", { class: "note" }, last);
  return element(
    "li",
    { class: "ticket", "data-ticket": `${client} ${block}` },
    blockName(names, client, block),
    " ",
    element("span", { class: "done" }, done ? "done" : "open"),
    counts.length > 0 && element("span", { class: "syncs", title: "Synchronisations" }, ` syncs: ${list(counts)}`),
    earlier,
    element("ol", { class: "trace" }, ...events),
  );
}

/** The blocks in the order of their reservations. */
export function drawOrder({ tickets, syncs }: Shown, names: Names): HTMLElement {
  const { count, items } = tickets;
  const drawn = items.map((it) => ticketItem(it, names));
  const last = count > items.length ? `; the last ${items.length}:` : "";
  return element(
    "div",
    {},
    element("p", { class: "note" }, `${count} begun, ${counted(syncs, "synchronisation")} sent${last}`),
    element("ol", { class: "tickets", start: count - items.length + 1 }, ...drawn),
  );
}

/** Who steps: a client in its colour, or the object whose handler does. */
export function actorName({ client, object = "" }: Step, names: Names): HTMLElement {
  return client === undefined ? element("b", {}, object) : clientName(names, client);
}

/** A step as a sentence. */
export function stepText(step: Step, names: Names): HTMLElement {
  return element("span", { class: "step-text" }, actorName(step, names), ` ${stepWords(step)}`);
}

/** The last of the steps so far, the very last one first. */
export function drawSteps({ steps }: Shown, names: Names): HTMLElement {
  const items = [...steps.items].reverse().map((step) => element("li", {}, stepText(step, names)));
  return element("ol", { reversed: true, start: steps.count }, ...items);
}
