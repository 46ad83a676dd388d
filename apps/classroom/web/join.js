// Joining: a seat, the code of its slip, a name.

import { byId, say } from "./dom.js";
import { fetched, offerLanguages, t, translate } from "./language.js";

translate();
offerLanguages(byId("language"));

function complain(words) {
  say(byId("join-said"), words);
  byId("join-said").hidden = words === "";
}

byId("join").addEventListener("submit", async (event) => {
  event.preventDefault();
  complain("");
  const message = { seat: Number(byId("join-seat").value), code: byId("join-code").value, name: byId("join-name").value };
  try {
    const answer = await fetched("/join", { method: "POST", body: JSON.stringify(message) });
    if (answer.ok) location.assign((await answer.json()).place);
    else complain((await answer.text()).trim());
  } catch {
    complain(t("join.no_answer"));
  }
});
