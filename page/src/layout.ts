// Where the configurations of a chart are drawn, and the moves between them: laid out by dagre, in the worker.
import dagre from "dagre";
import type { Configuration, ConfigurationGraph, Move } from "./answers";

const LINE = 15;
const GAP = 8;
const SIGN = 6.7;
const MOST_SIGNS = 34;
/** With more configurations a chart goes from left to right. */
const MANY = 50;

export interface Box {
  x: number;
  y: number;
  width: number;
  height: number;
}

export interface LaidNode extends Configuration {
  /** Its middle, and its size. */
  box: Box;
  title: string;
  /** What stands in it, the title first, and where each line begins. */
  shown: { text: string; x: number; y: number }[];
  /** The moves along which it is reached from the first one, by the fewest blocks: their numbers. */
  path: number[];
}

export interface LaidMove extends Move {
  /** The client and the number of its block. */
  text: string;
  points: { x: number; y: number }[];
  x: number;
  y: number;
}

export interface Laid {
  nodes: LaidNode[];
  moves: LaidMove[];
  width: number;
  height: number;
}

function titleOf({ number, outcome }: Configuration): string {
  return outcome === undefined ? String(number) : `end ${outcome}`;
}

/** For each configuration the moves along which it is reached from the first one, by the fewest blocks. */
function pathsIn({ moves }: ConfigurationGraph): Map<number, number[]> {
  const from = new Map<number, number[]>();
  moves.forEach((move, index) => from.set(move.from, [...(from.get(move.from) ?? []), index]));
  const paths = new Map<number, number[]>([[0, []]]);
  for (const [place, path] of paths) {
    for (const index of from.get(place) ?? []) {
      if (!paths.has(moves[index]!.to)) paths.set(moves[index]!.to, [...path, index]);
    }
  }
  return paths;
}

/** The block of a move: how many its client had begun before, the same along all paths. */
function textOf({ moves }: ConfigurationGraph, { from, client }: Move, paths: Map<number, number[]>): string {
  return `${client} ${(paths.get(from) ?? []).filter((it) => moves[it]!.client === client).length}`;
}

function linesOf(it: Configuration): string[] {
  const isLong = (line: string) => line.length > MOST_SIGNS;
  return [titleOf(it), ...it.lines.map((line) => (isLong(line) ? `${line.slice(0, MOST_SIGNS - 2)} ..` : line))];
}

function sizeOf(lines: string[]): { width: number; height: number } {
  const longest = Math.max(...lines.map((line) => line.length));
  return { width: longest * SIGN + 2 * GAP, height: lines.length * LINE + GAP };
}

function nodeOf(it: Configuration, { x, y, width, height }: Box, path: number[]): LaidNode {
  const left = x - width / 2 + GAP;
  const top = y - height / 2 + GAP / 2;
  const shown = linesOf(it).map((text, index) => ({ text, x: left, y: top + LINE * (index + 0.75) }));
  return { ...it, title: titleOf(it), shown, box: { x, y, width, height }, path };
}

export function laidOut(graph: ConfigurationGraph): Laid {
  const layout = new dagre.graphlib.Graph({ multigraph: true });
  const rankdir = graph.configurations.length > MANY ? "LR" : "TB";
  layout.setGraph({ rankdir, nodesep: 16, ranksep: 34, marginx: GAP, marginy: GAP });
  layout.setDefaultEdgeLabel(() => ({}));
  const paths = pathsIn(graph);
  for (const it of graph.configurations) layout.setNode(String(it.number), sizeOf(linesOf(it)));
  const texts = graph.moves.map((move) => textOf(graph, move, paths));
  graph.moves.forEach(({ from, to, client }, index) => {
    const label = { width: texts[index]!.length * SIGN + 4, height: LINE, labelpos: "c" };
    layout.setEdge(String(from), String(to), label, client);
  });
  dagre.layout(layout);
  const nodes = graph.configurations.map((it) =>
    nodeOf(it, layout.node(String(it.number)), paths.get(it.number) ?? []),
  );
  const moves = graph.moves.map((move, index) => {
    const { points, x, y } = layout.edge(String(move.from), String(move.to), move.client);
    return { ...move, text: texts[index]!, points, x, y };
  });
  const { width = 1, height = 1 } = layout.graph();
  return { nodes, moves, width, height };
}
