// The claims of a script, its lines `#? ..`: each is marked yes or no at its line, and its witness can be played.
import { type Refusal, type Verdict, type Witness } from "./answers";
import type { Editor } from "./editor";
import { byId, counted, element, fill, fillInSlices, pause } from "./element";
import type { Executor } from "./executor";
import { type Fault, causeOf, faultIn, helpOf, sentenceOf, withCode } from "./faults";
import { MANY, isOverLimit, limit, overLimit } from "./search";
import { orderTo, sentenceOfVerdict, wordOf } from "./verdicts";

const PAUSE = 400;
/** What comes to be known within so many milliseconds is drawn together. */
const MOMENT = 200;
const MOST_LISTED = 100;
/** So many ill-formed claims are looked for, each of which takes one more question. */
const MOST_REFUSED = 50;
const HINT = "A line such as `#? always a.balance() >= 0` is a claim. It is answered here.";

/** What is known of a claim: its answer, why it is refused, or a sentence of a limit that its search goes beyond. */
type Known =
  | { verdict: Verdict; refusal?: undefined; over?: undefined }
  | { verdict?: undefined; refusal: Refusal; over?: undefined }
  | { verdict?: undefined; refusal?: undefined; over: string };

/** A claim with its line, from 0 on. */
interface Claim {
  line: number;
  text: string;
}

function claimsIn(script: string): Claim[] {
  const lines = script.split("\n").map((text, line) => ({ line, text }));
  return lines.filter(({ text }) => /^[ \t]*#\?/.test(text));
}

/** A script with only these claims, on their lines. */
function withClaims(script: string, kept: ReadonlySet<string>): string {
  const lines = script.split("\n").map((text) => (/^[ \t]*#\?/.test(text) && !kept.has(text) ? "" : text));
  return lines.join("\n");
}

function wordOfKnown({ verdict, over }: Known): string {
  if (verdict !== undefined) return wordOf(verdict);
  return over === undefined ? "refused" : "limit";
}

function button(text: string, act: () => void): HTMLElement {
  return element("button", { type: "button", onclick: act }, text);
}

/** A click beside a line takes no focus, and puts no cursor there. */
function leaveFocus(event: Event): void {
  event.preventDefault();
  event.stopPropagation();
}

export class Claims {
  private readonly told = byId("claims-told");
  private readonly list = byId("claims");
  /** What is known of the claims of the present code, by their lines' texts. */
  private known = new Map<string, Known>();
  /** The claims that are being asked, and the script that they are asked of. */
  private asked = new Set<string>();
  private script = "";
  private timer = 0;
  private drawing = 0;
  private turn = 0;

  constructor(
    private readonly executor: Executor,
    private readonly editor: Editor,
    private readonly playOrder: (order: readonly string[]) => void,
  ) {}

  /** The script has changed: what is known stays where only comments differ, else it is taken off. */
  change(script: string, isSame: boolean): void {
    this.script = script;
    if (!isSame) this.known.clear();
    const goesOn = isSame && this.pending().every((it) => this.asked.has(it));
    if (!goesOn || this.asked.size === 0) this.stop();
    this.draw();
  }

  private stop(): void {
    this.turn++;
    clearTimeout(this.timer);
    this.asked.clear();
    this.executor.stop();
  }

  /** The claims that have no answer yet. */
  private pending(): string[] {
    return claimsIn(this.script).map(({ text }) => text).filter((it) => !this.known.has(it));
  }

  /** Asks the claims of a script that is accepted, once it has been quiet for a moment. */
  begin(): void {
    const pending = this.pending();
    if (pending.length === 0 || this.asked.size > 0) return;
    clearTimeout(this.timer);
    this.timer = window.setTimeout(() => void this.ask(), PAUSE);
  }

  private async ask(): Promise<void> {
    const turn = ++this.turn;
    this.asked = new Set(this.pending());
    this.tellSearch("The claims are looked at .. ");
    try {
      const why = await this.answer(turn, this.script, new Set(this.asked));
      await pause();
      if (turn === this.turn) this.finish(why);
    } catch (error) {
      if (turn === this.turn) this.finish(String(error));
    }
  }

  /** Asks those again that have no answer, by the limit that is there now. */
  private askAgain(): void {
    this.stop();
    for (const [text, { over }] of this.known) if (over !== undefined) this.known.delete(text);
    this.draw();
    void this.ask();
  }

  /** Shows what is known when no more is asked, and why other claims have no answer. */
  private finish(why: string | undefined): void {
    this.asked.clear();
    this.draw();
    if (why !== undefined) this.tellUnanswered(why);
  }

  private interrupt(): void {
    this.stop();
    this.finish("Stopped.");
  }

  /** Asks claims, without those that are refused: each refusal names one. It says why the rest has no answer. */
  private async answer(turn: number, script: string, kept: Set<string>): Promise<string | undefined> {
    const lines = script.split("\n");
    for (let count = 0; kept.size > 0; count++) {
      const over = overLimit();
      const refusal = await this.askTogether(turn, script, kept);
      if (refusal === undefined || turn !== this.turn) return undefined;
      if (isOverLimit(refusal)) {
        if (kept.size > 1) return this.answerEach(turn, script, kept);
        for (const text of kept) this.known.set(text, { over });
        return undefined;
      }
      const text = lines[(refusal.line ?? 0) - 1];
      if (text === undefined || !kept.delete(text) || count === MOST_REFUSED) return `Refused: ${causeOf(refusal)}.`;
      this.known.set(text, { refusal });
    }
    return undefined;
  }

  /** Asks claims one by one, as the search for one of them looks at more than the limit: it leaves none an answer. */
  private async answerEach(turn: number, script: string, claims: ReadonlySet<string>): Promise<string | undefined> {
    this.tellSearch("The claims are looked at one by one .. ");
    for (const text of claims) {
      if (!this.pending().includes(text)) continue;
      const why = await this.answer(turn, script, new Set([text]));
      if (why !== undefined || turn !== this.turn) return why;
      this.drawSoon();
    }
    return undefined;
  }

  /** Asks some claims of a script by one call, and keeps their answers; if it is refused, none has one. */
  private async askTogether(turn: number, script: string, kept: ReadonlySet<string>): Promise<Refusal | undefined> {
    const lines = script.split("\n");
    const words = ["--limit", limit(), "--format", "json"];
    const { value = [], refusal } = await this.executor.read("verdicts", "ask", withClaims(script, kept), ...words);
    if (turn !== this.turn) return undefined;
    for (const verdict of value) this.known.set(lines[verdict.line! - 1]!, { verdict });
    const isOver = refusal !== undefined && isOverLimit(refusal);
    if (isOver || value.some(({ configurations }) => configurations > MANY)) this.executor.end();
    return refusal;
  }

  private tell(...content: (Node | string)[]): void {
    fill(this.told, ...content);
  }

  private tellSearch(what: string): void {
    this.tell(what, button("Stop", () => this.interrupt()));
  }

  private tellUnanswered(why: string): void {
    const which = this.known.size === 0 ? "The" : "Other";
    this.tell(`${why} ${which} claims have no answer. `, this.askAgainButton());
  }

  private askAgainButton(): HTMLElement {
    return button("Ask again", () => this.askAgain());
  }

  private drawSoon(): void {
    this.drawing ||= window.setTimeout(() => this.draw(), MOMENT);
  }

  /** Puts what is known at the lines of the claims, and into the list. */
  private draw(): void {
    clearTimeout(this.drawing);
    this.drawing = 0;
    const claims = claimsIn(this.script);
    this.editor.makeRoomForClaims(claims.length > 0);
    const known = claims.flatMap((it) => {
      const what = this.known.get(it.text);
      return what === undefined ? [] : [{ ...it, ...what, what }];
    });
    this.editor.markClaims(new Map(known.map((it) => [it.line, it.what])), (it) => this.mark(it));
    const faults = known.map((it) => it.refusal && this.faultOf(it, it.refusal));
    this.editor.showClaimFaults(faults.filter((it) => it !== undefined) as Fault[]);
    const items = known.slice(0, MOST_LISTED).map((it) => () => this.item(it));
    const rest = known.length - items.length;
    const more = () => rest > 0 && element("li", { class: "note" }, `and ${rest} more`);
    const none = () => claims.length === 0 && element("li", { class: "note" }, element("span", {}, ...withCode(HINT)));
    void fillInSlices(this.list, [...items, more, none]);
    if (this.asked.size === 0) this.tell(...this.sum(known, claims.length));
  }

  private sum(known: Known[], all: number): (Node | string)[] {
    if (known.length === 0) return [];
    const yes = known.filter(({ verdict }) => verdict?.yes === true).length;
    const refused = known.filter(({ refusal }) => refusal !== undefined).length;
    const over = known.filter((it) => it.over !== undefined).length;
    const open = all - known.length;
    const parts = [`${yes} yes`, `${known.length - yes - refused - over} no`];
    if (refused > 0) parts.push(`${refused} refused`);
    if (over > 0) parts.push(`${over} over the limit`);
    if (open > 0) parts.push(`${open} not answered yet`);
    const told = `${counted(all, "claim")}: ${parts.join(", ")}`;
    return over > 0 ? [`${told}. `, this.askAgainButton()] : [told];
  }

  /** A refusal is of the line where the claim was when it was asked. */
  private faultOf({ line }: Claim, refusal: Refusal): Fault {
    return faultIn(this.script, { ...refusal, line: line + 1 });
  }

  /** What stands beside the line. Readers of screens and the keys have the list below the editor for it. */
  private mark({ verdict, refusal, over }: Known): HTMLElement {
    if (over !== undefined) return element("span", { class: "claim limit", title: over }, "limit");
    if (refusal !== undefined) return element("span", { class: "claim refused", title: sentenceOf(refusal) }, "?");
    const { witness } = verdict;
    const word = wordOf(verdict);
    const title = sentenceOfVerdict(verdict);
    if (witness === null) return element("span", { class: `claim ${word}`, title }, word);
    const attributes = { type: "button", tabindex: -1, class: `claim ${word}`, title: `${title} Play the order.` };
    const acts = { onmousedown: leaveFocus, onclick: () => this.playOrder(orderTo(witness)) };
    return element("button", { ...attributes, ...acts }, `${word} \u25b8`);
  }

  private item(it: Claim & Known): HTMLElement {
    const { line, text } = it;
    const goTo = () => this.editor.goTo({ line, from: text.indexOf("#?"), to: text.length });
    const word = wordOfKnown(it);
    return element(
      "li",
      { "data-line": line + 1 },
      element("button", { type: "button", class: "link", onclick: goTo }, `Line ${line + 1}`),
      element("b", { class: `claim ${word}` }, word),
      element("code", {}, text.trim().slice(2).trim()),
      this.toldOf(it),
    );
  }

  private toldOf(it: Claim & Known): HTMLElement {
    if (it.over !== undefined) return element("span", { class: "says" }, it.over);
    return it.verdict === undefined ? this.toldRefusal(it, it.refusal) : this.toldVerdict(it.line, it.verdict);
  }

  private toldVerdict(line: number, verdict: Verdict): HTMLElement {
    const { witness } = verdict;
    const play = witness !== null && this.witnessButton(line + 1, witness);
    return element("span", { class: "says" }, sentenceOfVerdict(verdict), play && " ", play);
  }

  /** Why a claim is refused, where in its line, and what helps. */
  private toldRefusal(claim: Claim, refusal: Refusal): HTMLElement {
    const { place } = this.faultOf(claim, refusal);
    const { column } = refusal;
    const goTo = () => place !== undefined && this.editor.goTo(place);
    const where = `Column ${column}`;
    const link = column !== undefined && element("button", { type: "button", class: "link", onclick: goTo }, where);
    return element("span", { class: "says" }, link, link && ": ", ...withCode(causeOf(refusal)), ...helpOf(refusal));
  }

  private witnessButton(line: number, witness: Witness): HTMLElement {
    const order = orderTo(witness);
    const label = `Play it: the witness of line ${line}`;
    const attributes = { type: "button", class: "play", "data-order": order.join(","), "aria-label": label };
    return element("button", { ...attributes, onclick: () => this.playOrder(order) }, "Play it");
  }
}
