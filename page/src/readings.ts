// What the page needs of a long answer. The worker reads it, so that neither a long text nor a long list comes to the
// page, which stays alive.
import {
  type Block,
  type ClientVariables,
  type End,
  type Holdings,
  type Item,
  type Lane,
  type Parcel,
  type ReportEvent,
  type Run,
  type Standing,
  type State,
  type Step,
  type SumValue,
  type Ticket,
  type Verdict,
  blockLinesIn,
  configurationsIn,
  endsIn,
  holdingsOf,
  lastStepIn,
  queuesIn,
  reportIn,
  runIn,
  stepsIn,
  valuesIn,
  verdictsIn,
} from "./answers";
import { type Laid, laidOut } from "./layout";

/** How many of a list are drawn. */
const MOST_DRAWN = 40;
const MOST_SHOWN = 200;

/** Some of a list, and how many it has. */
export interface Part<It> {
  count: number;
  items: It[];
}

/** A request that an object ran. */
export interface Entry extends Block {
  event: ReportEvent;
}

/** A block with the last requests of its trace. */
export interface TicketPart extends Block {
  done: boolean;
  trace: Part<ReportEvent>;
  syncs: { object: string; count: number }[];
}

export interface ReservationPart extends Block {
  items: Part<Item>;
}

export interface LanePart {
  client: string;
  parcels: Part<Parcel>;
}

export interface QueuePart {
  object: string;
  reservations: Part<ReservationPart>;
  lanes: LanePart[];
}

/** A state, and the last of what led to it. */
export interface RunPart {
  steps: Part<Step>;
  holdings: Holdings;
  tickets: Part<TicketPart>;
  /** All blocks that have begun, in their order, and whether each is done. */
  order: (Block & { done: boolean })[];
  states: State[];
  variables: ClientVariables[] | null;
  syncs: number;
  finished: boolean;
  /** By an object's name. */
  journals: Map<string, Part<Entry>>;
  queues: QueuePart[];
  standings: Standing[];
}

function first<It>(list: readonly It[], most = MOST_DRAWN): Part<It> {
  return { count: list.length, items: list.slice(0, most) };
}

function last<It>(list: readonly It[]): Part<It> {
  return { count: list.length, items: list.slice(-MOST_DRAWN) };
}

function ticketPart({ client, block, done, trace, sync_counts }: Ticket): TicketPart {
  return { client, block, done, trace: last(trace), syncs: sync_counts ?? [] };
}

function journalsOf({ report }: Run): Map<string, Part<Entry>> {
  const journals = new Map(report.states.map(({ object }) => [object, [] as Entry[]]));
  for (const { client, block, trace } of report.order) {
    for (const event of trace) if (event.refused !== null) journals.get(event.object)?.push({ client, block, event });
  }
  return new Map(Array.from(journals, ([object, entries]) => [object, last(entries)]));
}

function lanePart({ client, parcels }: Lane): LanePart {
  return { client, parcels: first(parcels) };
}

function queuePart({ object, reservations, lanes = [] }: Run["queues"][number]): QueuePart {
  const parts = reservations.map(({ client, block, items = [] }) => ({ client, block, items: first(items) }));
  return { object, reservations: first(parts), lanes: lanes.map(lanePart) };
}

function runPart(text: string): RunPart {
  const run = runIn(text);
  const { order, states, clients, syncs, finished } = run.report;
  const tickets = last(order);
  return {
    steps: last(run.steps),
    holdings: holdingsOf(run.steps),
    tickets: { count: tickets.count, items: tickets.items.map(ticketPart) },
    order: order.map(({ client, block, done }) => ({ client, block, done })),
    states,
    variables: clients,
    syncs,
    finished,
    journals: journalsOf(run),
    queues: run.queues.map(queuePart),
    standings: run.standings,
  };
}

/** The names of a script's clients and objects, in text order. */
export interface Names {
  clients: string[];
  objects: string[];
}

function namesIn(text: string): Names {
  const { queues, clients } = queuesIn(text);
  return { objects: queues.map(({ object }) => object), clients: clients.map(({ client }) => client) };
}

/** The picks for those of some steps that changed something. */
function picksIn(text: string, { clients, objects }: Names): string[] {
  const pick = ({ client, object = "" }: Step) =>
    client === undefined ? `h${objects.indexOf(object)}` : `c${clients.indexOf(client)}`;
  return stepsIn(text).filter(({ does }) => does !== "nothing").map(pick);
}

function endsPart(text: string): { ends: Part<End>; configurations: number } {
  const { ends, configurations } = endsIn(text);
  return { ends: first(ends, MOST_SHOWN), configurations };
}

function valuesPart(text: string): { values: Part<SumValue>; most: number; all: number; configurations: number } {
  const { values, configurations } = valuesIn(text);
  const most = values.reduce((sofar, { ends }) => Math.max(sofar, ends), 1);
  const all = values.reduce((sum, { ends }) => sum + ends, 0);
  return { values: first(values, MOST_SHOWN), most, all, configurations };
}

/** The blocks of a report, with their synchronisations. */
function syncsPart(text: string): { order: Omit<TicketPart, "trace">[]; syncs: number } {
  const { order, syncs } = reportIn(text);
  const blocks = order.map(({ client, block, done, sync_counts }) => ({
    client, block, done, syncs: sync_counts ?? [],
  }));
  return { order: blocks, syncs };
}

function chartIn(text: string): Laid {
  return laidOut(configurationsIn(text));
}

/** How an answer can be read, by name. What is given beside it is for some of them. */
export const readings = {
  run: runPart,
  names: namesIn,
  picks: picksIn,
  lastStep: lastStepIn,
  lines: blockLinesIn,
  ends: endsPart,
  values: valuesPart,
  syncs: syncsPart,
  chart: chartIn,
  verdicts: (text: string): Verdict[] => verdictsIn(text),
};

export type Readings = typeof readings;
