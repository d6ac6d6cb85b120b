// The chart of configurations: where each block leads.
import { element, fill, shape } from "./element";
import type { Laid, LaidMove, LaidNode } from "./layout";
import type { Names } from "./readings";

// Below it no text can be read, so a chart that is wider scrolls at first.
const LEAST_ZOOM = 0.55;

export class Chart {
  private laid: Laid = { nodes: [], moves: [], width: 1, height: 1 };
  private names: Names = { clients: [], objects: [] };
  private nodes: SVGElement[] = [];
  private edges: SVGElement[] = [];
  private picture: SVGSVGElement | undefined;
  private zoom = 1;
  private readonly told = element("div", { class: "note told", "aria-live": "polite" });

  constructor(
    private readonly place: HTMLElement,
    private readonly playOrder: (order: readonly string[]) => void,
  ) {}

  draw(laid: Laid, names: Names): void {
    this.laid = laid;
    this.names = names;
    this.edges = laid.moves.map((move) => this.drawMove(move));
    this.nodes = laid.nodes.map((node) => this.drawNode(node));
    const label = `${laid.nodes.length} configurations and where each block leads`;
    const viewBox = `0 0 ${laid.width} ${laid.height}`;
    const attributes = { viewBox, role: "group", "aria-label": label };
    this.picture = shape("svg", attributes, this.arrow(), ...this.edges, ...this.nodes);
    this.told.textContent = "Choose a configuration to see how it is reached.";
    const scroll = element("div", { class: "scroll chart-scroll", tabindex: -1 }, this.picture);
    fill(this.place, this.zoomBar(), this.told, scroll);
    this.zoomTo(Math.max(this.wholeZoom(), LEAST_ZOOM));
  }

  private arrow(): SVGElement {
    const head = shape("path", { d: "M0 0L8 4L0 8z" });
    const size = { markerWidth: 8, markerHeight: 8, refX: 7, refY: 4, orient: "auto", markerUnits: "userSpaceOnUse" };
    return shape("defs", {}, shape("marker", { id: "arrow", ...size }, head));
  }

  private drawMove({ from, to, client, text, points, x, y }: LaidMove): SVGElement {
    const path = "M" + points.map((it) => `${it.x.toFixed(1)} ${it.y.toFixed(1)}`).join("L");
    const line = shape("path", { d: path, class: "move", "marker-end": "url(#arrow)" });
    const number = this.names.clients.indexOf(client);
    const label = shape("text", { x, y: y + 4, class: `move-label k${number}` }, text);
    return shape("g", { "data-move": `${from}-${to}` }, line, label);
  }

  private drawNode(node: LaidNode): SVGElement {
    const { number, outcome, title, lines, shown, box } = node;
    const text = shown.map(({ text: line, x, y }, index) =>
      shape("text", { x, y, class: index === 0 ? "title" : "line" }, line),
    );
    const choose = () => this.choose(node);
    const onkeydown = (event: Event) => this.onKey(event as KeyboardEvent, node);
    const { x, y, width, height } = box;
    const frame = shape("rect", { x: x - width / 2, y: y - height / 2, width, height, rx: 5 });
    const label = `Configuration ${[title, ...lines].join(", ")}`;
    const role = { tabindex: 0, role: "button", "aria-label": label, onclick: choose, onkeydown };
    const kind = { class: outcome === undefined ? "node" : "node end", "data-node": number };
    return shape("g", { ...kind, ...role }, frame, ...text);
  }

  private onKey(event: KeyboardEvent, node: LaidNode): void {
    if (event.key !== "Enter" && event.key !== " ") return;
    event.preventDefault();
    this.choose(node);
  }

  /** Marks the way of a witness, if the chart has it; a search may follow other orders than the chart has. */
  show(order: readonly string[]): void {
    const { nodes, moves } = this.laid;
    const path: number[] = [];
    let place = 0;
    for (const client of order.map((it) => this.names.clients[Number(it.slice(1))])) {
      const next = moves.findIndex((it) => it.from === place && it.client === client);
      if (next < 0) return;
      path.push(next);
      place = moves[next]!.to;
    }
    const node = nodes.find(({ number }) => number === place);
    if (node !== undefined) this.choose({ ...node, path }, "The witness of the answer, configuration");
  }

  private choose({ title, path }: LaidNode, what = "Configuration"): void {
    const { nodes, moves } = this.laid;
    const way = path.map((it) => moves[it]!);
    const places = new Set([0, ...way.map(({ to }) => to)]);
    this.nodes.forEach((it, index) => it.classList.toggle("on-path", places.has(nodes[index]!.number)));
    this.edges.forEach((it, index) => it.classList.toggle("on-path", path.includes(index)));
    const order = way.map(({ client }) => `c${this.names.clients.indexOf(client)}`);
    const play = () => this.playOrder(order);
    const button = element("button", { class: "play", "data-order": order.join(","), onclick: play }, "Play it");
    const blocks = way.map(({ client }) => client).join(", ");
    const how = path.length === 0 ? "the beginning." : `reached by blocks of ${blocks}. `;
    fill(this.told, `${what} ${title}: ${how}`, path.length > 0 && button);
  }

  private zoomBar(): HTMLElement {
    const zoom = (label: string, title: string, by: () => number) =>
      element("button", { type: "button", title, "aria-label": title, onclick: () => this.zoomTo(by()) }, label);
    return element(
      "div",
      { class: "bar" },
      zoom("+", "Larger", () => this.zoom * 1.25),
      zoom("\u2212", "Smaller", () => this.zoom / 1.25),
      zoom("Whole", "The whole chart", () => this.wholeZoom()),
      zoom("1:1", "As large as text", () => 1),
    );
  }

  /** The zoom by which the chart is as wide as its place, between the lines around it. */
  private wholeZoom(): number {
    return Math.min(1, ((this.place.clientWidth || 800) - 4) / this.laid.width);
  }

  private zoomTo(zoom: number): void {
    this.zoom = Math.min(Math.max(zoom, 0.05), 4);
    this.picture?.setAttribute("width", String(Math.round(this.laid.width * this.zoom)));
    this.picture?.setAttribute("height", String(Math.round(this.laid.height * this.zoom)));
  }
}
