// What is told of an answer to a question or to a claim: sentences, and the order that leads to its witness.
import type { Verdict, Witness } from "./answers";

const SENTENCES: Record<string, { yes: string; no: string }> = {
  always: { yes: "this is true at each end", no: "there is an order at whose end this is false" },
  some: { yes: "there is an order at whose end this is true", no: "this is true at no end" },
  throughout: {
    yes: "this is true in each state between blocks",
    no: "there is a state between blocks in which this is false",
  },
  ever: { yes: "there is a state between blocks in which this is true", no: "this is true in no state between blocks" },
  never: {
    yes: "this is true in no state between blocks",
    no: "there is a state between blocks in which this is true",
  },
};

export function wordOf({ yes }: Pick<Verdict, "yes">): "yes" | "no" {
  return yes ? "yes" : "no";
}

/** What an answer says, as a sentence. */
export function sentenceOfVerdict({ kind, yes }: Pick<Verdict, "kind" | "yes">): string {
  const sentence = SENTENCES[kind]?.[wordOf({ yes })] ?? kind;
  return `${yes ? "Yes" : "No"}: ${sentence}.`;
}

/** The order that leads to the witness. */
export function orderTo({ order, after }: Witness): string[] {
  return order ?? after ?? [];
}
