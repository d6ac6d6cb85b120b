// The values that a sum has at the ends, as bars.
import type { SumValue } from "./answers";
import { counted, element, fill, fillInSlices } from "./element";
import type { Readings } from "./readings";

type Play = (order: readonly string[]) => void;

/** A value with a bar as long as it has ends; a click plays an order that leads to one of these. */
function bar({ value, ends, order }: SumValue, most: number, play: Play): HTMLElement {
  const length = element("span", { class: "length" });
  length.style.width = `${(100 * ends) / most}%`;
  const at = counted(ends, "end");
  const label = { "aria-label": `${value} at ${at}: play its order`, title: "Play its order" };
  const attributes = { type: "button", class: "value-bar", "data-order": order.join(","), ...label };
  return element(
    "li",
    {},
    element(
      "button",
      { ...attributes, onclick: () => play(order) },
      element("span", { class: "of-sum" }, value),
      element("span", { class: "track" }, length),
      element("span", { class: "at-ends" }, at),
    ),
  );
}

export async function drawValues(place: HTMLElement, of: ReturnType<Readings["values"]>, play: Play): Promise<void> {
  const { values, most, all, configurations } = of;
  const found = `${counted(values.count, "value")} at ${counted(all, "end")}`;
  const bars = values.items.map((it) => () => bar(it, most, play));
  const rest = values.count - values.items.length;
  const more = () => rest > 0 && element("li", { class: "note" }, `and ${rest} more`);
  const list = element("ul", { class: "bars", "aria-label": "Values" });
  const note = `${found}, ${counted(configurations, "configuration")} looked at`;
  fill(place, element("p", { class: "note" }, note), list);
  await fillInSlices(list, [...bars, more]);
}
