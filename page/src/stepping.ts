// The part of the page in which a script is stepped.
import { type Step, standingWords, stepWords } from "./answers";
import { type Scene, actorName, clientName, drawOrder, drawState, drawSteps, stepText } from "./drawing";
import { byId, element, fill } from "./element";
import { type Executor, Stopped } from "./executor";
import type { Names } from "./readings";
import { type Choice, type Machine, Session, type Shown } from "./session";

export class Stepping {
  private script: string | undefined;
  private session: Session | undefined;
  private picks: string[] = [];
  private at = 0;
  private turn = 0;
  private beginning = 0;
  private running = 0;
  private scene: Scene;
  /** The state that is shown. */
  shown: Shown | undefined;

  constructor(
    private readonly executor: Executor,
    private readonly showLine: (line: number) => void,
    private readonly onShown: (shown: Shown, session: Session) => void,
  ) {
    this.scene = { names: { clients: [], objects: [] }, machine: "rules", lines: new Map(), showLine };
    const restart = () => void this.begin(this.script, false);
    for (const id of ["machine", "mode", "chunk"]) byId(id).addEventListener("change", restart);
    this.onClick("to-start", () => this.goTo(0));
    this.onClick("back", () => this.goTo(this.at - 1));
    this.onClick("forward", () => this.forward());
    this.onClick("to-end", () => this.toEnd());
    const slider = byId<HTMLInputElement>("slider");
    slider.addEventListener("input", () => void this.guarded(() => this.goTo(Number(slider.value))));
    byId("step").addEventListener("keydown", (event) => this.onKey(event));
  }

  /** Begins anew with a script, or with none that is accepted. One that is the same but for comments has its steps. */
  begin(script: string | undefined, isSame: boolean): Promise<void> {
    return this.guarded(() => this.beginWith(script, isSame));
  }

  /** Plays whole blocks in an order, and shows what they lead to. */
  playOrder(order: readonly string[]): Promise<void> {
    return this.guarded(async () => {
      if (this.session === undefined) return;
      const turn = ++this.turn;
      byId("now").textContent = "Playing the order ..";
      const picks = await this.session.playing(order);
      if (turn === this.turn) await this.take(picks, picks.length);
    });
  }

  private async beginWith(script: string | undefined, isSame: boolean): Promise<void> {
    const beginning = ++this.beginning;
    this.turn++;
    this.script = script;
    if (script === undefined) return;
    if (!isSame) [this.session, this.picks, this.at] = [undefined, [], 0];
    const machine = this.machine();
    const [session, lines] = await Promise.all([
      Session.begin(this.executor, script, machine),
      this.executor.read("lines", "graph", script, "--format", "dot"),
    ]);
    if (beginning !== this.beginning) return;
    this.session = session;
    const { names } = session;
    this.scene = { names, machine: machine.word, lines: lines.value ?? new Map(), showLine: this.showLine };
    await this.goTo(this.at);
  }

  private machine(): Machine {
    const value = (id: string) => byId<HTMLInputElement>(id).value;
    const word = value("machine") as Machine["word"];
    for (const id of ["mode", "chunk"]) byId<HTMLInputElement>(id).disabled = word === "rules";
    const chunk = Math.min(Math.max(Math.round(Number(value("chunk"))) || 8, 1), 32);
    byId<HTMLInputElement>("chunk").value = String(chunk);
    return { word, mode: value("mode"), chunk };
  }

  private onClick(id: string, act: () => Promise<void>): void {
    byId(id).addEventListener("click", () => void this.guarded(act));
  }

  /** Does something that asks the program, and says what was refused. */
  private async guarded(act: () => Promise<void>): Promise<void> {
    this.running++;
    byId("step").setAttribute("aria-busy", "true");
    try {
      await act();
    } catch (error) {
      if (!(error instanceof Stopped)) byId("now").textContent = String(error instanceof Error ? error.message : error);
    }
    this.running--;
    if (this.running === 0) byId("step").setAttribute("aria-busy", "false");
  }

  private onKey(event: KeyboardEvent): void {
    const isField = event.target instanceof HTMLInputElement || event.target instanceof HTMLSelectElement;
    if (isField || event.altKey || event.ctrlKey || event.metaKey) return;
    const acts: Record<string, () => Promise<void>> = {
      ArrowLeft: () => this.goTo(this.at - 1),
      ArrowRight: () => this.forward(),
      Home: () => this.goTo(0),
      End: () => this.toEnd(),
    };
    const act = acts[event.key];
    if (act === undefined) return;
    event.preventDefault();
    void this.guarded(act);
  }

  private async take(picks: string[], at: number): Promise<void> {
    this.picks = picks;
    await this.goTo(at);
  }

  private async goTo(at: number): Promise<void> {
    const session = this.session;
    if (session === undefined || at < 0 || at > this.picks.length) return;
    this.at = at;
    const turn = ++this.turn;
    const shown = await session.look(this.picks.slice(0, at));
    if (turn !== this.turn) return;
    this.draw(shown, session);
    const choices = await session.choices(shown);
    if (turn === this.turn) this.drawChoices(choices, shown);
  }

  private async step(actor: string): Promise<void> {
    await this.take([...this.picks.slice(0, this.at), actor], this.at + 1);
  }

  /** The next step that was made before, or else that of the first who has one. */
  private async forward(): Promise<void> {
    if (this.at < this.picks.length) return this.goTo(this.at + 1);
    const first = byId("choices").querySelector<HTMLButtonElement>("button:not(:disabled)")?.dataset["actor"];
    if (first !== undefined) await this.step(first);
  }

  private async toEnd(): Promise<void> {
    if (this.at < this.picks.length) return this.goTo(this.picks.length);
    const picks = await this.session?.toEnd(this.picks);
    if (picks !== undefined) await this.take(picks, picks.length);
  }

  private draw(shown: Shown, session: Session): void {
    this.shown = shown;
    this.drawBar(shown);
    fill(byId("state"), ...drawState(shown, this.scene));
    fill(byId("tickets"), drawOrder(shown, this.scene.names));
    fill(byId("steps"), drawSteps(shown, this.scene.names));
    this.onShown(shown, session);
  }

  private drawBar(shown: Shown): void {
    const slider = byId<HTMLInputElement>("slider");
    const where = `step ${this.at} of ${this.picks.length}`;
    slider.max = String(this.picks.length);
    slider.value = String(this.at);
    slider.setAttribute("aria-valuetext", where);
    byId("where").textContent = where;
    for (const id of ["to-start", "back"]) byId<HTMLButtonElement>(id).disabled = this.at === 0;
    for (const id of ["forward", "to-end"]) {
      byId<HTMLButtonElement>(id).disabled = shown.finished && this.at === this.picks.length;
    }
    fill(byId("now"), ...this.sentence(shown, shown.steps.items.at(-1)));
    byId("step").dataset["picks"] = shown.picks.join(",");
  }

  private sentence({ finished }: Shown, last: Step | undefined): (Node | string)[] {
    const end = finished ? " The run is finished." : "";
    if (last === undefined) return [`Nobody has stepped yet.${end}`];
    return [`Step ${last.step}: `, stepText(last, this.scene.names), `.${end}`];
  }

  /** A button for each actor, always at the same place; those that have no step cannot be pressed. */
  private drawChoices(choices: Choice[], shown: Shown): void {
    const had = document.activeElement?.getAttribute("data-actor");
    const next = this.picks[this.at];
    const buttons = choices.map((it) => this.choiceButton(it, it.actor === next, shown));
    fill(byId("choices"), ...buttons);
    if (had !== null && had !== undefined) {
      const canStep = buttons.filter((it) => !it.disabled);
      (canStep.find((it) => it.dataset["actor"] === had) ?? canStep[0] ?? byId("back")).focus();
    }
  }

  private choiceButton({ actor, step }: Choice, isNext: boolean, shown: Shown): HTMLButtonElement {
    const turn = this.turn;
    if (step === undefined) return this.idleButton(actor, shown);
    // A button says what its actor would do now; one that is pressed while another step is on its way does nothing.
    const take = () => turn === this.turn && void this.guarded(() => this.step(actor));
    const title = `${stepWords(step)}${isNext ? " (made next before)" : ""}`;
    const attributes = { type: "button", class: isNext ? "choice next" : "choice", "data-actor": actor, title };
    const words = element("span", {}, actorName(step, this.scene.names), ` ${stepWords(step)}`);
    return element("button", { ...attributes, onclick: take }, words);
  }

  /** The button of one who has no step, and why. */
  private idleButton(actor: string, { standings }: Shown): HTMLButtonElement {
    const names: Names = this.scene.names;
    const name = names[actor.startsWith("c") ? "clients" : "objects"][Number(actor.slice(1))]!;
    const standing = actor.startsWith("c") ? standings.find(({ client }) => client === name) : undefined;
    const what = standing === undefined ? "has no step" : standingWords(standing);
    const who = actor.startsWith("c") ? clientName(names, name) : element("b", {}, name);
    const attributes = { type: "button", class: "choice", "data-actor": actor, disabled: true };
    return element("button", attributes, element("span", {}, who, ` ${what}`));
  }
}
