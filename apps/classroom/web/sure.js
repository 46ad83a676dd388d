// Asks before something that cannot be taken back.

import { button, el } from "./dom.js";
import { t } from "./language.js";

// A promise of true or false. The dialog is the browser's own: Escape says no.
export function sure(words, yes) {
  return new Promise((answer) => {
    const dialog = el("dialog", { class: "sure" }, el("p", {}, words), el("div", { class: "buttons" },
      button(yes, () => dialog.close("yes"), { class: "primary sure-yes" }),
      button(t("sure.no"), () => dialog.close("no"), { class: "quiet sure-no" })));
    dialog.addEventListener("close", () => {
      dialog.remove();
      answer(dialog.returnValue === "yes");
    });
    document.body.append(dialog);
    dialog.showModal();
    dialog.querySelector(".sure-no").focus();
  });
}
