// The room as a picture: hosts, cables with times and losses, messages on their way. One unit is a
// pixel, so that letters keep their size. Hosts can be dragged.

import { button, el, svg, set, say, keyed } from "./dom.js";
import { arrow, cableWords, noteWords } from "./cables.js";
import { places } from "./places.js";
import { count, t } from "./language.js";

const SANS = "system-ui, 'Segoe UI', Roboto, 'Helvetica Neue', Arial, sans-serif";
const NAME = `bold 14px ${SANS}`;
const SMALL = `12px ${SANS}`;
const pen = document.createElement("canvas").getContext("2d");

function widthOf(words, font) {
  pen.font = font;
  return pen.measureText(words).width;
}

// The words, cut to a width in pixels; of a name the end stays, which often is a number.
function fitted(words, most, font, end = "") {
  if (widthOf(words, font) <= most) return words;
  let cut = words.length - end.length;
  while (cut > 1 && widthOf(`${words.slice(0, cut)}…${end}`, font) > most) cut -= 1;
  return `${words.slice(0, cut)}…${end}`;
}

// What a host does, in one or two lines.
function hostWords(seat) {
  const waiting = seat.waiting?.length ?? 0;
  if (seat.walk && !seat.walk.ended) return [t("picture.in_walk")];
  if (waiting) return [count("picture.waits", waiting), t("picture.by_hand")];
  if (seat.by_hand === undefined) return [seat.address ?? ""];
  return [t(seat.by_hand ? "picture.by_hand" : "picture.by_itself")];
}

// choose(seat number) is called where a host is clicked or entered; without it hosts are only shown.
export function makePicture(root, choose) {
  const cablesPart = svg("g", { class: "cables" });
  const waysPart = svg("g", { class: "ways" });
  const hostsPart = svg("g", { class: "hosts" });
  const picture = svg("svg", { class: "picture", role: choose ? "group" : "img" }, cablesPart, hostsPart, waysPart);
  const note = el("p", { class: "quiet hint" });
  const again = button(t("picture.again"), () => { moved.clear(); redraw(); }, { class: "quiet again", hidden: true });
  root.replaceChildren(picture, note, again);
  const moved = new Map();
  let last = null;
  let drawn = "";
  let layout = null;
  let spots = new Map();
  let names = {};
  let box = [0, 0];
  let size = [0, 0];
  let noted = false;
  let busy = null;
  let own = null;

  const spot = (seat) => spots.get(seat) ?? [0, 0];
  function redraw() {
    drawn = "";
    if (last) update(...last);
  }

  // A host follows the pointer; a press without a move chooses it.
  function drag(event, seat) {
    if (event.button !== 0) return;
    const [x, y] = spot(seat);
    const start = [event.clientX, event.clientY];
    let far = false;
    const node = event.currentTarget;
    node.setPointerCapture(event.pointerId);
    function move(next) {
      const by = [next.clientX - start[0], next.clientY - start[1]];
      if (!far && Math.hypot(...by) < 4) return;
      far = true;
      const kept = [0, 1].map((i) => Math.min(Math.max((i ? y : x) + by[i], box[i] / 2 + 1), size[i] - box[i] / 2 - 1));
      moved.set(seat, kept);
      redraw();
    }
    function up() {
      node.removeEventListener("pointermove", move);
      node.removeEventListener("pointerup", up);
      node.removeEventListener("pointercancel", up);
      if (!far) choose?.(seat);
    }
    node.addEventListener("pointermove", move);
    node.addEventListener("pointerup", up);
    node.addEventListener("pointercancel", up);
  }

  function host(first) {
    const title = svg("title");
    const name = svg("text", { class: "name" });
    const clock = svg("text", { class: "clock" });
    const lines = [svg("text", { class: "state" }), svg("text", { class: "state" })];
    const frame = svg("rect", { rx: 10 });
    const node = svg("g", { "data-host": first.number }, title, frame, name, clock, ...lines);
    set(node, { onpointerdown: (event) => drag(event, first.number) });
    if (choose) {
      set(node, { role: "button", tabindex: 0, onkeydown: (event) => {
        if (event.key !== "Enter" && event.key !== " ") return;
        event.preventDefault();
        choose(first.number);
      } });
    }
    function update(seat) {
      const [x, y] = spot(seat.number);
      const words = hostWords(seat);
      const mine = seat.number === own;
      const one = words.join(" ");
      const rows = widthOf(one, SMALL) <= box[0] - 8 ? [one] : words;
      const spoken = mine ? `${one}, ${t("picture.own")}` : one;
      set(node, { transform: `translate(${x} ${y})`, "aria-label": t("picture.host", { name: seat.name, words: spoken }),
        class: ["host", seat.by_hand && "hand", seat.waiting?.length && "waits", mine && "own"].filter(Boolean).join(" ") });
      set(frame, { x: -box[0] / 2, y: -box[1] / 2, width: box[0], height: box[1] });
      const both = `${seat.name} ${seat.address ?? ""}`.trim();
      const shown = (mine ? "★ " : "") + (widthOf(both, NAME) < box[0] - 28 ? both : seat.name);
      say(title, [seat.name, seat.address, seat.student, spoken].filter(Boolean).join(", "));
      say(name, fitted(shown, box[0] - 8, NAME, shown.slice(-2)));
      const time = seat.clock?.words ?? "";
      say(clock, box[0] < 104 ? time.slice(0, 8) : time);
      lines.forEach((line, i) => say(line, fitted(rows[i] ?? "", box[0] - 8, SMALL)));
      const top = -(rows.length + (time ? 1 : 0)) * 8 + 2;
      set(name, { y: top });
      set(clock, { y: top + 16 });
      lines.forEach((line, i) => set(line, { y: top + (time ? 32 : 16) + 14 * i }));
    }
    return { node, update };
  }

  function cable(first) {
    const title = svg("title");
    const line = svg("line");
    const words = [svg("text"), svg("text")];
    function update(cable) {
      const [from, to] = cable.ends.map((end) => spot(end[0]));
      const [[x1, y1], [x2, y2]] = [from, to];
      set(line, { x1, y1, x2, y2 });
      const said = cableWords(cable, [arrow(from, to), arrow(to, from)]);
      say(title, said.filter(Boolean).join(", "));
      const cut = cable.loss?.some((percent) => percent === 100);
      set(line, { class: `${cut ? "cut" : ""} ${busy?.(cable.cable) ? "busy" : ""}` });
      // Words stand at a cable where there is room for them between its hosts.
      const room = Math.max(Math.abs(x2 - x1) - box[0], 0);
      const steep = Math.abs(y2 - y1) - box[1] > 40;
      words.forEach((part, i) => {
        const wide = widthOf(said[i], SMALL);
        const shown = !noted && (steep || wide < room) ? said[i] : "";
        const x = Math.min(Math.max((x1 + x2) / 2, wide / 2 + 2), size[0] - wide / 2 - 2);
        set(part, { x, y: (y1 + y2) / 2 - 6 + 20 * i });
        say(part, shown);
      });
    }
    return { node: svg("g", { "data-cable": first.cable }, title, line, ...words), update };
  }

  function message(first) {
    const title = svg("title");
    const node = svg("g", { class: "way", "data-way": first.message }, title,
      svg("rect", { x: -11, y: -7, width: 22, height: 14, rx: 3 }), svg("path", { d: "M-11 -6 L0 3 L11 -6" }));
    function update(way) {
      const [[x1, y1], [x2, y2]] = [spot(way.from), spot(way.to)];
      const edge = Math.min(box[0] / 2 / Math.abs(x2 - x1), box[1] / 2 / Math.abs(y2 - y1), 0.5);
      const done = edge + (1 - 2 * edge) * (way.of > 0 ? 1 - way.left / way.of : 1);
      const aside = 11 / (Math.hypot(x2 - x1, y2 - y1) || 1);
      const x = x1 + (x2 - x1) * done - (y2 - y1) * aside;
      const y = y1 + (y2 - y1) * done + (x2 - x1) * aside;
      // On a short cable the envelope is smaller, so that it stays off the hosts' words.
      const gap = Math.hypot(x2 - x1, y2 - y1) * (1 - 2 * edge);
      const scale = Math.min(Math.max(gap / 28, 0.55), 1).toFixed(2);
      set(node, { transform: `translate(${x.toFixed(1)} ${y.toFixed(1)}) scale(${scale})` });
      say(title, t("picture.message", { message: way.message, from: names[way.from], to: names[way.to], left: way.left }));
    }
    return { node, update };
  }

  // isBusy(cable) tells whether a cable has just been used; `mine` is the reader's own seat.
  function update(view, isBusy = null, mine = null) {
    last = [view, isBusy, mine];
    const { seats, cables, on_their_way: ways } = view;
    [busy, own] = [isBusy, mine];
    const wide = Math.max(280, Math.floor(root.getBoundingClientRect().width));
    const edges = cables.map((c) => c.ends.map(([seat]) => seat));
    const key = JSON.stringify([wide, seats.map((s) => s.number), edges]);
    if (key !== drawn) {
      if (drawn !== "" && JSON.parse(drawn)[1].length !== seats.length) moved.clear();
      drawn = key;
      layout = places(seats.map((s) => s.number), edges, wide);
    }
    box = layout.box;
    size = [wide, layout.high];
    spots = new Map([...layout.spots, ...[...moved].filter(([seat]) => layout.spots.has(seat))]);
    names = Object.fromEntries(seats.map((seat) => [seat.number, seat.name]));
    const words = noteWords(cables, names, seats.length > 8);
    noted = words !== "";
    note.hidden = !noted;
    again.hidden = moved.size === 0;
    say(note, words);
    set(picture, { viewBox: `0 0 ${size[0]} ${size[1]}`, width: size[0], height: size[1],
      "aria-label": t("picture.label", { hosts: seats.length, cables: cables.length, messages: ways.length }) });
    keyed(cablesPart, cables, (c) => c.cable, cable);
    keyed(hostsPart, seats, (s) => s.number, host);
    keyed(waysPart, ways, (w) => w.message, message);
  }
  new ResizeObserver(redraw).observe(root);
  return update;
}
