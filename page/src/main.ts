// The page: a script is written on one side; on the other it is stepped, asked about and compared.
import { isSupported } from "../../bindings/wasm/qs.mjs";
import { Claims } from "./claims";
import { codeOf } from "./code";
import { Compare } from "./compare";
import { Editor } from "./editor";
import { byId, counted, element, fill } from "./element";
import { Ends } from "./ends";
import { Executor } from "./executor";
import { type Checked, check, toldFault } from "./faults";
import { startHints } from "./hints";
import { fragmentOf, fromBase64, scriptIn, unzipped } from "./link";
import { Stepping } from "./stepping";
import { startTabs } from "./tabs";
import { orderOf } from "./session";

declare const WORKER_SOURCE: string;

interface Example {
  subject: string;
  name: string;
  sentence: string;
  script: string;
}

const PARTS = ["step", "happen", "compare"] as const;
const FIRST_EXAMPLE = "isolation/two_withdrawals";
const TYPING_PAUSE = 150;

/** The executor's module, which lies in the page, compressed. */
async function module(): Promise<WebAssembly.Module> {
  const packed = fromBase64(byId("executor").textContent!.trim());
  return WebAssembly.compile(await unzipped(packed));
}

class Page {
  private readonly editor = new Editor(byId("editor"), () => this.changed());
  private readonly examples = JSON.parse(byId("examples").textContent!) as Example[];
  private readonly quick: Executor;
  private readonly stepping: Stepping;
  private readonly ends: Ends;
  private readonly claims: Claims;
  private readonly comparison: Compare;
  private readonly show: (id: string) => void;
  private example: Example | undefined;
  /** The last script that was no example, so that it is there again. */
  private own: string | undefined;
  private accepted: string | undefined;
  /** The code of the script that was accepted last, and of the one that is in the editor. */
  private acceptedCode: string | undefined;
  private code: string | undefined;
  private part: string = PARTS[0];
  private timer = 0;
  private turn = 0;

  constructor(module: WebAssembly.Module) {
    const worker = URL.createObjectURL(new Blob([WORKER_SOURCE], { type: "text/javascript" }));
    this.quick = new Executor(module, worker);
    const play = (order: readonly string[]) => void this.play(order);
    this.ends = new Ends(new Executor(module, worker), play);
    this.claims = new Claims(new Executor(module, worker), this.editor, play);
    this.comparison = new Compare(this.quick);
    this.stepping = new Stepping(
      this.quick,
      (line) => this.editor.showLine(line),
      (shown, { names }) => {
        this.ends.begin(this.accepted, names);
        this.comparison.begin(this.accepted, names, orderOf(shown.order, names));
      },
    );
    this.show = startTabs(PARTS, (id) => this.shown(id));
    this.listExamples();
    byId("copy-link").addEventListener("click", () => void this.copyLink());
    addEventListener("hashchange", () => void this.openLink());
  }

  /** Opens the link's script, or the first example. */
  async open(): Promise<void> {
    this.show(PARTS[0]);
    if (!(await this.openLink())) this.openExample(FIRST_EXAMPLE);
  }

  private listExamples(): void {
    const choice = byId<HTMLSelectElement>("example");
    for (const subject of new Set(this.examples.map((it) => it.subject))) {
      const own = this.examples.filter((it) => it.subject === subject);
      const options = own.map(({ name, sentence }) =>
        element("option", { value: `${subject}/${name}`, title: sentence }, name.replace(/_/g, " ")),
      );
      choice.append(element("optgroup", { label: subject }, ...options));
    }
    choice.addEventListener("change", () => this.openExample(choice.value));
  }

  private openExample(path: string): void {
    const example = this.examples.find(({ subject, name }) => `${subject}/${name}` === path);
    if (example === undefined) {
      if (this.own !== undefined) this.editor.script = this.own;
      return;
    }
    this.example = example;
    this.editor.script = example.script;
    byId<HTMLSelectElement>("example").value = path;
    byId("sentence").textContent = example.sentence;
  }

  /** Opens the script of the address, if it has one; of a broken one it says so, and leaves the script as it is. */
  private async openLink(): Promise<boolean> {
    try {
      const script = await scriptIn(location.hash);
      if (script === undefined) return false;
      if (script !== this.editor.script) this.editor.script = script;
      return true;
    } catch {
      if (this.editor.script === "") this.openExample(FIRST_EXAMPLE);
      byId("sentence").textContent = "This link is broken: its script can't be read.";
      return true;
    }
  }

  private async copyLink(): Promise<void> {
    const link = `${location.href.split("#")[0]}${await fragmentOf(this.editor.script)}`;
    history.replaceState(null, "", new URL(link).hash);
    try {
      await navigator.clipboard.writeText(link);
      byId("sentence").textContent = "The link is copied. The script is in it.";
    } catch {
      byId("sentence").textContent = "The address of this page is now a link to the script: copy it from there.";
    }
  }

  private changed(): void {
    const code = codeOf(this.editor.script);
    this.claims.change(this.editor.script, code === this.code);
    this.code = code;
    if (this.editor.script !== this.example?.script) {
      this.own = this.editor.script;
      byId<HTMLSelectElement>("example").value = "";
      byId("sentence").textContent = "";
    }
    clearTimeout(this.timer);
    const check = () => this.check().catch((error: unknown) => fail(String(error)));
    this.timer = window.setTimeout(check, TYPING_PAUSE);
  }

  private async check(): Promise<void> {
    const turn = ++this.turn;
    const script = this.editor.script;
    const checked = await check(this.quick.ask, script);
    if (turn !== this.turn) return;
    this.editor.show(checked.fault);
    this.tell(checked);
    this.accepted = checked.fault === undefined ? script : undefined;
    byId("parts").classList.toggle("is-refused", checked.fault !== undefined);
    byId("parts").inert = checked.fault !== undefined;
    const code = codeOf(script);
    const isSame = code === this.acceptedCode;
    if (this.accepted !== undefined) this.acceptedCode = code;
    await this.stepping.begin(this.accepted, isSame);
    if (this.accepted === this.editor.script) this.claims.begin();
    if (this.part !== PARTS[0]) this.shown(this.part);
    byId("parts").dataset["turn"] = String(turn);
  }

  private tell({ counts, fault }: Checked): void {
    const place = byId("verdict");
    place.classList.toggle("refused", fault !== undefined);
    if (fault !== undefined) {
      fill(place, ...toldFault(fault, (it) => this.editor.goTo(it)));
    } else if (counts !== undefined) {
      const { objects, clients, blocks, load } = counts;
      const things = [counted(objects, "object"), counted(clients, "client"), counted(blocks, "block")];
      place.textContent = `Accepted: ${things.join(", ")}, at most ${counted(load, "request")}.`;
    }
  }

  private shown(id: string): void {
    this.part = id;
    if (this.accepted === undefined) return;
    if (id === "happen") void this.ends.look();
    if (id === "compare") void this.comparison.look();
  }

  private async play(order: readonly string[]): Promise<void> {
    this.show("step");
    byId("step-tab").focus();
    await this.stepping.playOrder(order);
  }
}

function fail(message: string): void {
  byId("verdict").textContent = message;
  byId("verdict").classList.add("refused");
}

async function start(): Promise<void> {
  startHints();
  if (typeof WebAssembly === "undefined" || !isSupported()) {
    fail("This browser has no WebAssembly with addresses of 64 bits; Chromium has it from 133 on, Firefox from 134.");
    return;
  }
  await new Page(await module()).open();
}

start().catch((error: unknown) => fail(`The page could not start: ${String(error)}`));
