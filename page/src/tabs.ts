// The parts of the page, one of which is shown at a time: by a click, or by the arrow keys on the row of their names.
import { byId } from "./element";

export function startTabs(ids: readonly string[], onShown: (id: string) => void): (id: string) => void {
  const tabOf = (id: string) => byId<HTMLButtonElement>(`${id}-tab`);
  const show = (shown: string) => {
    for (const id of ids) {
      tabOf(id).setAttribute("aria-selected", String(id === shown));
      tabOf(id).tabIndex = id === shown ? 0 : -1;
      byId(id).hidden = id !== shown;
    }
    onShown(shown);
  };
  const move = (from: number, by: number) => {
    const id = ids[(from + by + ids.length) % ids.length]!;
    show(id);
    tabOf(id).focus();
  };
  ids.forEach((id, index) => {
    tabOf(id).addEventListener("click", () => show(id));
    tabOf(id).addEventListener("keydown", ({ key }) => {
      if (key === "ArrowRight") move(index, 1);
      if (key === "ArrowLeft") move(index, -1);
    });
  });
  return show;
}
