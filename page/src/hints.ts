// Explanations: a button `?` beside a control opens one; all of them stand in the glossary.
import { byId, element, fill } from "./element";
import { TERMS, type Term, firstOf } from "./terms";

const GAP = 6;

function termOf(id: string): Term {
  const term = TERMS[id];
  if (term === undefined) throw new Error(`the glossary has no ${id}`);
  return term;
}

function paragraphs({ says }: Term): HTMLElement[] {
  return says.split("\n").map((it) => element("p", {}, it));
}

/** Puts a popover below its button, and into the window. */
function place(popover: HTMLElement, button: HTMLElement): void {
  const { left, bottom, top } = button.getBoundingClientRect();
  const { offsetWidth: width, offsetHeight: height } = popover;
  // The room inside of the window's scroll bars.
  const { clientWidth, clientHeight } = document.documentElement;
  const below = bottom + GAP;
  const isBelow = below + height < clientHeight || top - GAP - height < 0;
  popover.style.left = `${Math.max(GAP, Math.min(left, clientWidth - width - GAP))}px`;
  popover.style.top = `${isBelow ? below : top - GAP - height}px`;
}

/** Makes a button explain its term: the browser opens and closes the popover, by keys too. */
function explain(button: HTMLButtonElement): void {
  const id = button.dataset["term"]!;
  const term = termOf(id);
  const more = element("button", { type: "button", class: "link", onclick: openGlossary }, "All terms");
  const content = [element("h4", {}, term.name), ...paragraphs(term), more];
  const popover = element("div", { id: `hint-${id}`, class: "hint-text", popover: "auto" }, ...content);
  for (const it of ["beforetoggle", "toggle"]) popover.addEventListener(it, () => place(popover, button));
  button.type = "button";
  button.className = "hint";
  button.setAttribute("popovertarget", popover.id);
  button.setAttribute("aria-label", `${term.name}: what is it?`);
  button.title = firstOf(term);
  button.textContent = "?";
  button.after(popover);
}

function openGlossary(): void {
  byId<HTMLDialogElement>("glossary").showModal();
}

export function startHints(): void {
  for (const it of document.querySelectorAll<HTMLButtonElement>("button[data-term]")) explain(it);
  for (const it of document.querySelectorAll<HTMLElement>("[data-about]")) {
    it.title = firstOf(termOf(it.dataset["about"]!));
  }
  const item = (it: Term) => [element("dt", {}, it.name), element("dd", {}, ...paragraphs(it))];
  fill(byId("terms"), ...Object.values(TERMS).flatMap(item));
  byId("open-glossary").addEventListener("click", openGlossary);
}
