// What all searches of the page have in common: their limit, and what is told of one that goes beyond it.
import type { Refusal } from "./answers";
import { byId } from "./element";

/** A search through more configurations leaves a worker with much memory. */
export const MANY = 50_000;

/** How many configurations a search may look at, by the field for it. */
export function limit(): string {
  return String(Math.max(1, Math.round(Number(byId<HTMLInputElement>("limit").value)) || 1_000_000));
}

export function isOverLimit({ fault }: Refusal): boolean {
  return fault === "outcomes 2 Limit";
}

export function overLimit(): string {
  return `The search looks at more than ${limit()} configurations, the limit.`;
}
