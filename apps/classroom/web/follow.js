// Keeps in sight what a walk is about: the cell that changed, and the box that is next.

const GAP = 8;
const FOOT = 60;

// Beside the walk the column of tables scrolls by itself; under it, on a small screen, it stays.
function followCell(cell) {
  const column = cell?.closest(".column");
  if (!column || column.scrollHeight <= column.clientHeight) return;
  const [inner, outer] = [cell, column].map((part) => part.getBoundingClientRect());
  if (inner.bottom > outer.bottom) column.scrollTop += inner.bottom - outer.bottom + GAP;
  else if (inner.top < outer.top) column.scrollTop -= outer.top - inner.top + GAP;
}

// Between the bar, which sticks to the top, and the foot of the page.
function followBox(box, bar) {
  if (!box) return;
  const { top, bottom } = box.getBoundingClientRect();
  const above = top - parseFloat(getComputedStyle(bar).top) - bar.offsetHeight - GAP;
  const below = bottom - innerHeight + FOOT;
  if (above < 0) scrollBy(0, above);
  else if (below > 0) scrollBy(0, Math.min(below, above));
}

export function follow(card, bar) {
  followCell(document.querySelector("#seat td.changed"));
  followBox(card.querySelector(".next"), bar);
}
