// One WebSocket beside the page. Messages are numbered, each gets a promise of its reply.
// A lost connection is opened again, with a notice that stays until it is back.

import { say, byId } from "./dom.js";
import { makeViews } from "./patch.js";

import { t } from "./language.js";

let noticed = false;

function notice(words) {
  const node = byId("notice");
  noticed = words !== "";
  say(node, words);
  node.hidden = words === "";
}

// onView(view, first): first is true for a view that follows no other.
export function connect(onView) {
  const asked = new Map();
  const views = makeViews();
  let socket = null;
  let number = 0;
  let pause = 500;
  let failed = 0;
  let first = true;

  function take(message) {
    if (message.notice !== undefined) notice(t(...message.text));
    if (message.view || message.patch) {
      if (noticed) notice("");
      if (message.view) first = true;
      const view = views(message);
      if (view) onView(view, first);
      else ask({ do: "view" });
      first = false;
    }
    const waiter = asked.get(message.n);
    if (!waiter) return;
    asked.delete(message.n);
    if (message.refused !== undefined) waiter.reject(new Error(t(...message.text)));
    else waiter.resolve(message.reply ?? {});
  }

  function closed() {
    for (const waiter of asked.values()) waiter.reject(new Error(t("socket.gone")));
    asked.clear();
    failed += 1;
    notice(t(failed > 4 ? "socket.long" : "socket.lost"));
    setTimeout(open, pause);
    pause = Math.min(pause * 2, 5000);
  }

  function open() {
    const scheme = location.protocol === "https:" ? "wss:" : "ws:";
    socket = new WebSocket(`${scheme}//${location.host}${location.pathname.replace(/\/$/, "")}/socket`);
    first = true;
    socket.addEventListener("open", () => {
      pause = 500;
      failed = 0;
      notice("");
    });
    socket.addEventListener("message", (event) => take(JSON.parse(event.data)));
    socket.addEventListener("close", closed);
  }

  function ask(message) {
    if (socket.readyState !== WebSocket.OPEN) return Promise.reject(new Error(t("socket.gone")));
    number += 1;
    const n = number;
    socket.send(JSON.stringify({ n, ...message }));
    return new Promise((resolve, reject) => asked.set(n, { resolve, reject }));
  }

  open();
  return ask;
}

// Shows views at the pace of the screen, and only the last one where several came.
export function paced(show) {
  let last = null;
  return (view) => {
    if (last === null) requestAnimationFrame(() => {
      const view = last;
      last = null;
      show(view);
    });
    last = view;
  };
}
