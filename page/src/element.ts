// Elements of the page. All text goes in as text, so no name or value of a script is ever read as markup.

type Child = Node | string | number | null | undefined | false;
type Attribute = string | number | boolean | ((event: Event) => void) | undefined;
export type Attributes = Record<string, Attribute>;

/** Sets attributes: a function is a listener (`onclick`), `true` an attribute without a value, `false` none. */
function setAttributes(it: Element, attributes: Attributes): void {
  for (const [name, value] of Object.entries(attributes)) {
    if (typeof value === "function") it.addEventListener(name.slice(2), value);
    else if (value === true) it.setAttribute(name, "");
    else if (value !== false && value !== undefined) it.setAttribute(name, String(value));
  }
}

function append(it: Element, children: readonly Child[]): void {
  for (const child of children) {
    if (child === null || child === undefined || child === false) continue;
    it.append(child instanceof Node ? child : String(child));
  }
}

export function element<Name extends keyof HTMLElementTagNameMap>(
  name: Name,
  attributes: Attributes = {},
  ...children: Child[]
): HTMLElementTagNameMap[Name] {
  const it = document.createElement(name);
  setAttributes(it, attributes);
  append(it, children);
  return it;
}

/** An element of a drawing. */
export function shape<Name extends keyof SVGElementTagNameMap>(
  name: Name,
  attributes: Attributes = {},
  ...children: Child[]
): SVGElementTagNameMap[Name] {
  const it = document.createElementNS("http://www.w3.org/2000/svg", name);
  setAttributes(it, attributes);
  append(it, children);
  return it;
}

/** A number of things, as `1 block` and `2 blocks`. */
export function counted(count: number, thing: string): string {
  return `${count} ${thing}${count === 1 ? "" : "s"}`;
}

/** The element of the page with an id. */
export function byId<Kind extends HTMLElement = HTMLElement>(id: string): Kind {
  const it = document.getElementById(id);
  if (it === null) throw new Error(`the page has no ${id}`);
  return it as Kind;
}

/** How often an element was filled. */
const fillings = new WeakMap<Element, number>();
/** How long a list is made without a pause, in milliseconds. */
const SLICE = 15;

/** Puts children in place of those that an element has. */
export function fill(it: Element, ...children: Child[]): void {
  fillings.set(it, (fillings.get(it) ?? 0) + 1);
  it.replaceChildren();
  append(it, children);
}

/** Lets the page do what else it has to do. */
export function pause(): Promise<void> {
  return new Promise((resolve) => setTimeout(resolve));
}

/** The same for a long list, which is made in slices, so that the page stays alive; another filling ends this one. */
export async function fillInSlices(it: Element, makers: readonly (() => Child)[]): Promise<void> {
  fill(it);
  const filling = fillings.get(it);
  let began = performance.now();
  for (const make of makers) {
    append(it, [make()]);
    if (performance.now() - began < SLICE) continue;
    await pause();
    if (fillings.get(it) !== filling) return;
    began = performance.now();
  }
}
