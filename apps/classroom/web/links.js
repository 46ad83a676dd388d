// A seat's links, with a send at each, and what is on its way from here.

import { el, button, headRow, keyed, say } from "./dom.js";
import { cell } from "./marks.js";
import { makeForm } from "./predict.js";
import { number, t } from "./language.js";
import { ms, roomTime, signed } from "./words.js";

const columns = ["to", "neighbor", "keep_alive", "tsp"];

// actions: call(name, with), predict(message).
export function makeLinks(actions) {
  let mode = "off";
  let seat = null;
  let asked = null;
  const body = el("tbody");
  const form = makeForm({
    send: (fields) => actions.predict({ of: "send", link: asked, fields }).then(done),
    skip: () => actions.call("send", { link: asked }).then(() => hide()), go: () => t("predict.check_send"),
    without: () => t("predict.skip_send"),
  });
  const sent = el("p", { class: "quiet", id: "sent", role: "status", hidden: true });
  const head = headRow([t("links.link"), t("links.hello"), ...columns.map((c) => t(`links.${c}`))]);
  const node = el("section", { class: "card", id: "links", "aria-labelledby": "links-title" },
    el("h2", { id: "links-title", class: "hidden" }, t("links.title")),
    el("div", { class: "scroll" }, el("table", {}, el("caption", {}, t("links.title")), head, body)), form.node, sent);

  function hide() {
    asked = null;
    form.hide();
  }
  function done(made) {
    if (made?.done) hide();
    return made;
  }
  function send(link) {
    if (mode === "off" || actions.teacher) return actions.call("send", { link });
    asked = link;
    form.show({ key: `${link}/${seat.asks.send.join()}`, fields: seat.asks.send, heading: t("predict.send", { link }),
      required: mode === "required", first: seat.trying?.find((tried) => tried.of === "send" && tried.call.link === link) });
    return form.focus();
  }

  function row(first) {
    const link = first.link.link;
    const cells = columns.map((field) => cell("td", field));
    const go = button(t("links.send"), () => send(link), { "data-call": "send", "aria-label": t("links.send_on", { link }) });
    function update({ link, name, marks }) {
      const neighbor = link.neighbor === "0.0.0.0" ? t("links.none_yet") : link.neighbor;
      const said = [name, neighbor, number(link.keep_alive), signed(link.tsp)];
      cells.forEach((c, i) => c.update(said[i], link[columns[i]], marks.get(`link ${link.link}/${columns[i]}`)));
    }
    const head = el("th", { scope: "row" }, String(link));
    return { node: el("tr", { "data-link": link }, head, el("td", {}, go), cells.map((c) => c.node)), update };
  }

  function update(next, marks) {
    seat = next;
    if (mode === "off" && asked !== null) hide();
    const name = (to) => (to === null ? t("links.no_cable") : seat.table[to]?.name ?? t("host", { id: to }));
    keyed(body, seat.links.map((link) => ({ link, name: name(link.to), marks })), (item) => item.link.link, row);
    sent.hidden = !seat.sent?.length;
    say(sent, (seat.sent ?? []).map((m) => t("links.on_its_way",
      { message: m.message, link: m.link, to: name(m.to), time: roomTime(m.arrival), left: ms(m.left) })).join(" "));
  }
  return { node, update, setMode: (next) => { mode = next; } };
}
