// What the program's answers say. This is the only module that reads its texts; docs/SPEC.md defines them ("Output").

/** A number as the program wrote it; one that a double can't hold exactly is kept as its digits. */
export type Value = number | string;

export interface ReportEvent {
  object: string;
  operation: string;
  arguments: Value[];
  reply: Value | null;
  refused: boolean | null;
  none: boolean;
}

export interface Block {
  client: string;
  block: number;
}

export interface Ticket extends Block {
  done: boolean;
  trace: ReportEvent[];
  sync_counts?: { object: string; count: number }[];
}

export interface State {
  object: string;
  kind: "account" | "buffer" | "grid";
  refused: Value;
  balance?: Value;
  capacity?: number;
  rows?: number;
  columns?: number;
  values?: Value[];
}

export interface ClientVariables {
  client: string;
  variables: { variable: string; value: Value }[];
}

export interface Report {
  order: Ticket[];
  states: State[];
  /** The variables so far; null where the program does not tell those of a run that is not finished. */
  clients: ClientVariables[] | null;
  syncs: number;
  finished: boolean;
}

export interface End {
  outcome: number;
  order: string[];
  states: State[];
  clients: ClientVariables[];
}

export interface Ends {
  ends: End[];
  configurations: number;
}

export interface Witness {
  order?: string[];
  after?: string[];
  states: State[];
  clients: ClientVariables[];
}

/** The answer to a question, or to a claim of the script, which has a line. */
export interface Verdict {
  line?: number;
  kind: string;
  yes: boolean;
  witness: Witness | null;
  configurations: number;
}

/** A value that a sum has at so many ends, and an order that leads to one of these. */
export interface SumValue {
  value: Value;
  ends: number;
  order: string[];
}

export interface SumValues {
  values: SumValue[];
  configurations: number;
}

export interface Counts {
  objects: number;
  clients: number;
  blocks: number;
  load: number;
  weight: number;
}

/** What was refused, and what the program says of it: of a place in the script, with a line, or in a condition. */
export interface Refusal {
  fault: string;
  line?: number;
  /** From 1 on, in bytes. */
  column?: number;
  /** In characters. */
  length?: number;
  cause?: string;
  /** What stands beside the marks. */
  label?: string;
  /** One sentence on each line. */
  help?: string;
}

/** JSON whose numbers of 16 and more digits become strings, since they may need 64 bits. */
function parsed(text: string): unknown {
  return JSON.parse(text.replace(/([:[,])(-?\d{16,})(?=[,\]}])/g, '$1"$2"'));
}

function linesOf(text: string): string[] {
  return text === "" ? [] : text.replace(/\n$/, "").split("\n");
}

/** The objects of an answer, each of which has a line. */
function objectsIn(text: string): unknown[] {
  return linesOf(text).map(parsed);
}

/** What was refused, or undefined if the answer is none of a refusal. */
export function refusalIn(text: string): Refusal | undefined {
  const asJson = text.startsWith('{"refused":{"fault"');
  if (asJson) return (JSON.parse(text) as { refused: Refusal }).refused;
  const fault = /^refused: (.*)\n$/.exec(text)?.[1];
  return fault === undefined ? undefined : { fault };
}

export function countsIn(text: string): Counts {
  return parsed(text) as Counts;
}

export function reportIn(text: string): Report {
  return parsed(text) as Report;
}

export function endsIn(text: string): Ends {
  const objects = objectsIn(text);
  const last = objects.pop() as { configurations: number };
  return { ends: objects as End[], configurations: last.configurations };
}

/** The answers to questions or to claims. */
export function verdictsIn(text: string): Verdict[] {
  return objectsIn(text).map((it) => {
    const { line, witness, configurations, ...rest } = it as Omit<Verdict, "kind" | "yes">;
    const [kind, yes] = Object.entries(rest)[0] as [string, boolean];
    return { ...(line === undefined ? {} : { line }), kind, yes, witness, configurations };
  });
}

export function valuesIn(text: string): SumValues {
  return parsed(text) as SumValues;
}

/** How many configurations there are at most, or null for over 10^18. */
export function estimateIn(text: string): Value | null {
  return (parsed(text) as { configurations_at_most: Value | null }).configurations_at_most;
}

// Steps and queues.

/** A step of a client or of an object's handler, and what is needed to say what it does. */
export interface Step {
  step: number;
  client?: string;
  object?: string;
  does: string;
  ticket?: Block;
  objects?: string[];
  request?: ReportEvent;
  requests?: ReportEvent[];
  /** The object of a client's step. */
  at?: string;
  /** The client of a handler's step. */
  of?: string;
}

export interface Item {
  item: "command" | "query" | "end";
  request?: ReportEvent;
}

/** A block that waits for an object; by the plain rules with what is in its private queue. */
export interface Reservation extends Block {
  items?: Item[];
}

export interface Parcel {
  parcel: "chunk" | "sync" | "home" | "end";
  requests?: ReportEvent[];
}

export interface Lane {
  client: string;
  parcels: Parcel[];
}

export interface ObjectQueue {
  object: string;
  reservations: Reservation[];
  lanes?: Lane[];
}

/** What a client waits for. */
export interface Standing {
  client: string;
  done: boolean;
  waits: "nothing" | "reply" | "object" | "chunk" | "room";
  at?: string;
}

export interface Queues {
  queues: ObjectQueue[];
  clients: Standing[];
}

/** An answer with steps, a report and queues. */
export interface Run {
  steps: Step[];
  report: Report;
  queues: ObjectQueue[];
  standings: Standing[];
}

export function runIn(text: string): Run {
  const objects = objectsIn(text);
  const { queues, clients } = objects.pop() as Queues;
  const report = objects.pop() as Report;
  return { steps: objects as Step[], report, queues, standings: clients };
}

export function queuesIn(text: string): Queues {
  return objectsIn(text).at(-1) as Queues;
}

/** The steps before a report. */
export function stepsIn(text: string): Step[] {
  return objectsIn(text).slice(0, -1) as Step[];
}

/** The last of them, of which there has to be one. */
export function lastStepIn(text: string): Step {
  const report = text.lastIndexOf("\n", text.length - 2);
  return parsed(text.slice(text.lastIndexOf("\n", report - 1) + 1, report)) as Step;
}

/** What the steps so far say of who has what. */
export interface Holdings {
  /** The objects that a client holds, by its name. */
  objects: Map<string, Set<string>>;
  /** The objects for whose handlers a client has an open chunk. */
  chunks: Map<string, Set<string>>;
  /** What a handler does, by its object's name, as `serves ann 0` or `is with ann`. */
  handlers: Map<string, string>;
}

function put(sets: Map<string, Set<string>>, name: string, value: string, isIn: boolean): void {
  const set = sets.get(name) ?? new Set<string>();
  if (isIn) set.add(value);
  else set.delete(value);
  sets.set(name, set);
}

function noteClient({ objects, chunks }: Holdings, client: string, { does, at, requests }: Step): void {
  if (does === "gets") put(objects, client, at!, true);
  if (does === "returns") put(objects, client, at!, false);
  if (does === "takes") put(chunks, client, at!, true);
  if (does === "sends") put(chunks, client, requests![0]!.object, false);
}

function noteHandler({ handlers }: Holdings, object: string, { does, ticket, of }: Step): void {
  if (does === "serves") handlers.set(object, `serves ${ticket!.client} ${ticket!.block}`);
  if (does === "gives_itself") handlers.set(object, `is with ${of}`);
  if (does === "comes_back") handlers.set(object, `serves ${of} again`);
  if (does === "leaves") handlers.delete(object);
}

export function holdingsOf(steps: Step[]): Holdings {
  const holdings: Holdings = { objects: new Map(), chunks: new Map(), handlers: new Map() };
  for (const step of steps) {
    if (step.client !== undefined) noteClient(holdings, step.client, step);
    if (step.object !== undefined) noteHandler(holdings, step.object, step);
  }
  return holdings;
}

// Drawings of graphs and of outcomes.

/** The line on which each block of each client begins. */
export function blockLinesIn(dot: string): Map<string, number> {
  const lines = new Map<string, number>();
  let block = "";
  for (const line of linesOf(dot)) {
    block = /^ {4}label="(.*)";$/.exec(line)?.[1] ?? block;
    const entry = /label="0 entry\\nline (\d+)/.exec(line);
    if (entry !== null) lines.set(block, Number(entry[1]));
  }
  return lines;
}

export interface Configuration {
  number: number;
  /** The number of its outcome, if no block is left. */
  outcome: number | undefined;
  lines: string[];
}

export interface Move {
  from: number;
  to: number;
  client: string;
}

export interface ConfigurationGraph {
  configurations: Configuration[];
  moves: Move[];
}

export function configurationsIn(dot: string): ConfigurationGraph {
  const graph: ConfigurationGraph = { configurations: [], moves: [] };
  for (const line of linesOf(dot)) {
    const node = /^ {2}n(\d+) \[label="([^"]*)"/.exec(line);
    const edge = /^ {2}n(\d+) -> n(\d+) \[label=<.*<td>(\w+) \d+<\/td>/.exec(line);
    if (edge !== null) graph.moves.push({ from: Number(edge[1]), to: Number(edge[2]), client: edge[3]! });
    else if (node !== null) {
      const [what, ...lines] = node[2]!.split("\\n");
      const outcome = /^outcome (\d+)$/.exec(what!)?.[1];
      const number = Number(node[1]);
      graph.configurations.push({ number, outcome: outcome === undefined ? undefined : Number(outcome), lines });
    }
  }
  return graph;
}

// How facts are written, as in a report.

export function eventText(event: ReportEvent): string {
  const request = `${event.object}.${event.operation}(${event.arguments.join(",")})`;
  const reply = event.reply === null ? "" : ` = ${event.reply}`;
  return `${request}${reply}${event.refused === true ? " refused" : ""}${event.none ? " none" : ""}`;
}

export function stateText(state: State): string {
  const values = `[${(state.values ?? []).join(" ")}]`;
  if (state.kind === "account") return `account ${state.balance} refused ${state.refused}`;
  if (state.kind === "buffer") return `buffer ${state.capacity} ${values} refused ${state.refused}`;
  return `grid ${state.rows} ${state.columns} ${values} refused ${state.refused}`;
}

/** What a step does, without who. */
export function stepWords({ does, ticket, objects, request, requests, at, of }: Step): string {
  const block = ticket && `ticket ${ticket.client} ${ticket.block}`;
  const asked = (request === undefined ? requests : [request])?.map(eventText).join(" ");
  switch (does) {
    case "nothing":
      return "does nothing";
    case "reserves":
      return `reserves ${objects?.join(" ")} (${block})`;
    case "ends":
      return at === undefined ? `ends ${block}` : `ends ${block} at ${at}`;
    case "runs":
    case "answers":
      return `${does} ${asked} of ${block}`;
    case "takes":
      return `takes an empty chunk of ${at}`;
    case "waits":
      return `waits for ${at}`;
    case "gives_chunk":
      return `gives an empty chunk to ${of}`;
    case "sees":
      return `sees that ${of} waits`;
    case "gives_itself":
      return `gives itself to ${of}`;
    case "comes_back":
      return `comes back from ${of}`;
    default:
      // It logs, asks, sends, gets, returns, serves or leaves.
      return `${does} ${asked ?? at ?? block}`;
  }
}

export function standingWords({ done, waits, at }: Standing): string {
  const chunk = `an empty chunk of ${at}`;
  const what = { nothing: "nothing", reply: "a reply", object: at, chunk, room: `room to ${at}` };
  return done ? "is done" : `waits for ${what[waits]}`;
}
