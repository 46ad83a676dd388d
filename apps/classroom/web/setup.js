// The form of a room: hosts with clock differences and crystals, cables with times and losses.

import { byId, options, say } from "./dom.js";
import { cableOf, cableRow, numeric, renumber, seatOf, seatRow, value, wayOf } from "./setuprows.js";
import { t } from "./language.js";
import { plainCable, roomOf, seatName, shapes, unjoined } from "./shapes.js";
import { sure } from "./sure.js";

// "12:00:30" in ms.
function timeOf(words) {
  const [hours, minutes, seconds = 0] = words.split(":").map(Number);
  return ((hours * 60 + minutes) * 60 + seconds) * 1000;
}

// send(message) gives a promise of the reply, false where the room did not take it.
export function makeSetup(send) {
  let view = null;
  const seats = byId("setup-seats"), cables = byId("setup-cables");
  const rows = (body) => [...body.children];
  const number = () => renumber(rows(seats), rows(cables));
  const change = (row) => send({ do: "cable", cable: Number(row.dataset.cable), ...wayOf(row) });
  function remove(row) {
    row.remove();
    number();
  }

  function addSeat(seat) {
    const row = seatRow(seat, number, remove);
    seats.append(row);
    number();
    value(row, "clock_host").value = String(seat.clock_host ?? "");
  }

  function addCable(cable) {
    const row = cableRow(cable, cable.cable === undefined ? null : change, remove);
    cables.append(row);
    number();
    ["a", "b"].forEach((end, i) => { value(row, end).value = String(cable.ends[i][0]); });
  }

  function freeLink(seat) {
    const ends = rows(cables).flatMap((row) => ["a", "b"].map((end) => [numeric(row, end), numeric(row, `${end}-link`)]));
    const taken = new Set(ends.filter(([at]) => at === seat).map(([, link]) => link));
    return [1, 2, 3, 4, 5, 6, 7, 8].find((link) => !taken.has(link)) ?? 8;
  }

  function fill(room) {
    seats.replaceChildren();
    cables.replaceChildren();
    room.seats.forEach(addSeat);
    room.cables.forEach(addCable);
  }

  function fromNow() {
    if (!view) return;
    fill(view);
    byId("setup-interval").value = view.room.interval;
  }

  function filledIn() {
    return {
      do: "set_up",
      seats: rows(seats).map(seatOf),
      cables: rows(cables).map(cableOf),
      interval: Number(byId("setup-interval").value),
      seed: Number(byId("setup-seed").value),
      time: timeOf(byId("setup-time").value),
    };
  }

  options(byId("setup-shape"), shapes);
  // Says which hosts got no cable, and offers a shape that joins all.
  function fillIn() {
    const made = roomOf(byId("setup-shape").value, Number(byId("setup-count").value));
    const alone = unjoined(made);
    fill(made);
    byId("setup-alone").hidden = alone.length === 0;
    say(byId("setup-alone").firstElementChild, alone.length ? t("setup.alone", { names: alone.join(", ") }) : "");
  }
  byId("setup-fill").addEventListener("click", fillIn);
  byId("setup-tree").addEventListener("click", () => {
    byId("setup-shape").value = "tree";
    fillIn();
  });
  byId("setup-now").addEventListener("click", fromNow);
  byId("setup-add-seat").addEventListener("click", () => {
    addSeat({ name: seatName(seats.childElementCount), difference: 0 });
  });
  byId("setup-add-cable").addEventListener("click", () => {
    const last = Math.max(1, seats.childElementCount - 1);
    addCable(plainCable([last - 1, freeLink(last - 1)], [last, freeLink(last)]));
  });
  byId("setup").addEventListener("submit", async (event) => {
    event.preventDefault();
    say(byId("setup-said"), "");
    // A room in which nothing has happened yet is no loss.
    if (view?.room.time > 0 && !await sure(t("sure.set_up"), t("sure.set_up_yes"))) return;
    if (await send(filledIn())) say(byId("setup-said"), t("setup.done"));
  });

  function update(next) {
    const fresh = view?.room.number !== next.room.number;
    view = next;
    if (fresh) fromNow();
  }
  return { update };
}
