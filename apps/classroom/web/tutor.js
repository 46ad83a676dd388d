// The teacher's calls on the class's net table, each with its answer, and the hosts that are still
// to be initialized with its NHOSTS.

import { byId, say } from "./dom.js";
import { makeAnswer } from "./answer.js";
import { t } from "./language.js";
import { makeNetTable } from "./nettable.js";

const calls = { "net-add": "net_add", "net-change": "net_change", "net-remove": "net_remove", "net-afresh": "net_afresh" };

// What the fields of a form say, by their names.
function given(form) {
  return Object.fromEntries([...form.elements].filter((field) => field.name)
    .map((field) => [field.name, field.type === "number" ? Number(field.value) : field.value.trim()]));
}

// ask(message) gives a promise of the reply.
export function makeTutor(ask) {
  const table = makeNetTable();
  const answer = makeAnswer("net-answer", t("answer.library"));
  const left = byId("net-left");
  let room = null;
  let others = [];
  byId("net-table").replaceChildren(table.node);
  byId("net-said").replaceChildren(answer.node);

  for (const [id, call] of Object.entries(calls)) {
    byId(id).addEventListener("submit", async (event) => {
      event.preventDefault();
      try {
        answer.show(await ask({ do: call, ...given(event.target) }));
      } catch (error) {
        answer.refused(error.message);
      }
    });
  }

  byId("net-initialize").addEventListener("click", async () => {
    try {
      const { answers } = await ask({ do: "initialize_all" });
      const names = (done) => answers.filter((a) => (a.answer === 0) === done).map((a) => `${a.name} (${a.answer})`).join(", ");
      const done = names(true) || t("nets.nobody");
      answer.note(t(names(false) ? "nets.initialized_not" : "nets.initialized", { done, refused: names(false) }));
    } catch (error) {
      answer.refused(error.message);
    }
  });

  function update(view) {
    if (room !== view.room.number) {
      room = view.room.number;
      answer.note(t("answer.none"));
      byId("net-afresh").elements.nhosts.value = view.net_table.nhosts;
    }
    table.update(view.net_table);
    others = view.seats.filter((seat) => seat.nhosts !== view.net_table.nhosts);
    left.hidden = !others.length;
    const names = others.map((seat) => `${seat.name} (${seat.nhosts})`).join(", ");
    say(left.firstElementChild, t("nets.left", { names }));
  }
  return { update };
}
