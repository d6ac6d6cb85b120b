// The editor: a script with its colours, the fault that the program found in it, and the answers to its claims.
import CodeMirror from "codemirror";
import "codemirror/addon/edit/matchbrackets";
import "codemirror/addon/comment/comment";
import { element } from "./element";
import { type Fault, type Place, sentenceOf } from "./faults";
import "./language";

/** How many lines are marked without a pause. */
const SLICE = 50;
const CLAIMS = "claims-gutter";
const GUTTERS = ["CodeMirror-linenumbers"];
const GUTTERS_WITH_CLAIMS = [...GUTTERS, CLAIMS];

/** A line of the editor, with what stands beside it. */
interface MarkedLine extends CodeMirror.LineHandle {
  gutterMarkers?: Record<string, HTMLElement>;
}

export class Editor {
  private readonly mirror: CodeMirror.Editor;
  private mark: CodeMirror.TextMarker<unknown> | undefined;
  private claimMarks: CodeMirror.TextMarker<unknown>[] = [];
  private line: CodeMirror.LineHandle | undefined;
  private hasRoom = false;
  private timer = 0;
  /** What a mark of a claim stands for. */
  private readonly marks = new WeakMap<HTMLElement, object>();

  constructor(place: HTMLElement, onChange: () => void) {
    this.mirror = CodeMirror(place, {
      mode: "qs",
      lineNumbers: true,
      lineWrapping: true,
      matchBrackets: true,
      indentUnit: 2,
      gutters: GUTTERS,
      // The key Tab leaves the editor, as it leaves every other part of the page.
      extraKeys: { Tab: false, "Shift-Tab": false, "Ctrl-/": "toggleComment" },
      screenReaderLabel: "Script",
    } as CodeMirror.EditorConfiguration);
    this.mirror.on("change", onChange);
  }

  get script(): string {
    return this.mirror.getValue("\n");
  }

  set script(text: string) {
    this.mirror.setValue(text);
    this.mirror.scrollTo(0, 0);
  }

  /** Marks the place of a fault, or takes the mark away. */
  show(fault: Fault | undefined): void {
    this.mark?.clear();
    this.mark = fault?.place && this.marked(fault.place, sentenceOf(fault.refusal));
  }

  /** Marks the places of claims that are refused, in place of those before. */
  showClaimFaults(faults: readonly Fault[]): void {
    this.mirror.operation(() => {
      for (const it of this.claimMarks) it.clear();
      const mark = ({ place, refusal }: Fault) => place && this.marked(place, sentenceOf(refusal));
      this.claimMarks = faults.flatMap((it) => mark(it) ?? []);
    });
  }

  private marked({ line, from, to }: Place, title: string): CodeMirror.TextMarker<unknown> {
    const start = { line, ch: from };
    const attributes = { title };
    if (from < to) return this.mirror.markText(start, { line, ch: to }, { className: "fault", attributes });
    // At the end of a line is nothing to mark, so a blank is shown there.
    const widget = element("span", { class: "fault", ...attributes }, "\u00a0");
    return this.mirror.setBookmark(start, { widget });
  }

  /** Makes room for the answers to claims beside the numbers of lines, or takes it away. */
  makeRoomForClaims(hasClaims: boolean): void {
    if (hasClaims === this.hasRoom) return;
    this.hasRoom = hasClaims;
    this.mirror.setOption("gutters", hasClaims ? GUTTERS_WITH_CLAIMS : GUTTERS);
  }

  /** Puts a mark for each of these at its line, from 0 on; those that are there already stay, and others go. */
  markClaims<It extends object>(marked: ReadonlyMap<number, It>, mark: (it: It) => HTMLElement): void {
    const changes: (() => void)[] = [];
    let line = 0;
    this.mirror.eachLine((handle) => {
      const due = marked.get(line++);
      const has = (handle as MarkedLine).gutterMarkers?.[CLAIMS];
      if (due === undefined ? has === undefined : has !== undefined && this.marks.get(has) === due) return;
      changes.push(() => {
        const made = due === undefined ? null : mark(due);
        if (made !== null && due !== undefined) this.marks.set(made, due);
        this.mirror.setGutterMarker(handle, CLAIMS, made);
      });
    });
    this.inSlices(changes);
  }

  /** Makes changes, some at once and more after a pause, unless there are others by then. */
  private inSlices(changes: (() => void)[]): void {
    clearTimeout(this.timer);
    this.mirror.operation(() => {
      for (const change of changes.splice(0, SLICE)) change();
    });
    if (changes.length > 0) this.timer = window.setTimeout(() => this.inSlices(changes));
  }

  /** Shows the line of a block, from 1 on, in the middle of the editor. */
  showLine(number: number): void {
    if (this.line !== undefined) this.mirror.removeLineClass(this.line, "background", "shown-line");
    this.line = this.mirror.addLineClass(number - 1, "background", "shown-line") as CodeMirror.LineHandle;
    this.mirror.scrollIntoView({ line: number - 1, ch: 0 }, 60);
  }

  /** Puts the cursor at a place. */
  goTo({ line, from }: Place): void {
    this.mirror.setCursor({ line, ch: from });
    this.mirror.focus();
  }

  refresh(): void {
    this.mirror.refresh();
  }
}
