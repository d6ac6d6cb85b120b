// What the program refuses, in its words, and the place of it.
import { type Counts, type Refusal, countsIn, refusalIn } from "./answers";
import { element } from "./element";
import type { Ask } from "./executor";

/** A part of a line, all numbers from 0 on. */
export interface Place {
  line: number;
  from: number;
  to: number;
}

export interface Fault {
  refusal: Refusal;
  /** Where it is in the script; a fault of the whole script has none. */
  place: Place | undefined;
}

export interface Checked {
  counts?: Counts;
  fault?: Fault;
}

/** Why something is refused, in the program's words. */
export function causeOf({ fault, cause = fault, label }: Refusal): string {
  return label === undefined ? cause : `${cause}; ${label}`;
}

/** A refusal as a sentence. */
export function sentenceOf(refusal: Refusal): string {
  return `Refused: ${causeOf(refusal)}`;
}

/** The signs of a line from a column on; columns count bytes, and lengths characters. */
function partOf(line: string, column: number, length: number): Pick<Place, "from" | "to"> {
  const before = new TextEncoder().encode(line).slice(0, column - 1);
  const from = new TextDecoder().decode(before).length;
  return { from, to: from + Array.from(line.slice(from)).slice(0, length).join("").length };
}

/** The place of a refusal in a script: the whole line, without the blanks around it, where no column is told. */
function placeOf(script: string, { line, column, length = 1 }: Refusal): Place | undefined {
  if (line === undefined) return undefined;
  const text = script.split("\n")[line - 1] ?? "";
  const whole = { from: text.length - text.trimStart().length, to: text.trimEnd().length };
  return { line: line - 1, ...(column === undefined ? whole : partOf(text, column, length)) };
}

export function faultIn(script: string, refusal: Refusal): Fault {
  return { refusal, place: placeOf(script, refusal) };
}

/** What a script has, or what is wrong with it. */
export async function check(ask: Ask, script: string): Promise<Checked> {
  const { text } = await ask("check", script, "--format", "json");
  const refusal = refusalIn(text);
  return refusal === undefined ? { counts: countsIn(text) } : { fault: faultIn(script, refusal) };
}

/** A sentence of the program, in which code stands between backticks. */
export function withCode(sentence: string): (Node | string)[] {
  const parts = sentence.split("`");
  if (parts.length % 2 === 0) return [sentence];
  return parts.map((part, index) => (index % 2 === 0 ? part : element("code", {}, part)));
}

export function helpOf({ help }: Refusal): HTMLElement[] {
  return (help?.split("\n") ?? []).map((it) => element("p", { class: "help" }, ...withCode(it)));
}

/** A fault as it is told: its place, which a click goes to, why it is one, and what helps. */
export function toldFault({ refusal, place }: Fault, goTo: (place: Place) => void): (Node | string)[] {
  if (place === undefined) return [...withCode(sentenceOf(refusal)), ...helpOf(refusal)];
  const { line, column } = refusal;
  const where = column === undefined ? `Line ${line}` : `Line ${line}, column ${column}`;
  const link = element("button", { type: "button", class: "link", onclick: () => goTo(place) }, where);
  return [link, ": ", ...withCode(causeOf(refusal)), ...helpOf(refusal)];
}

/** What is wrong with a question: why, where in its text, and what helps. */
export function toldQuestion(refusal: Refusal, question: string): (Node | string)[] {
  const { column, length = 1 } = refusal;
  const told = withCode(sentenceOf(refusal));
  if (column === undefined) return [...told, ...helpOf(refusal)];
  const { from, to } = partOf(question, column, length);
  const mark = element("mark", { class: "fault" }, question.slice(from, to) || " ");
  const code = element("code", {}, question.slice(0, from), mark, question.slice(to));
  return [...told, element("p", { class: "asked" }, code), ...helpOf(refusal)];
}
