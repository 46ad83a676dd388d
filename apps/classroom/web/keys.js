// Single keys, only while no field or button that uses them has the focus. They can be turned off.

import { byId } from "./dom.js";

// keys: {letter: action}. #keys is the check box that turns them on.
export function listen(keys) {
  document.addEventListener("keydown", (event) => {
    if (event.ctrlKey || event.altKey || event.metaKey || event.repeat) return;
    if (!byId("keys").checked || event.target.closest("input, select, textarea, [contenteditable]")) return;
    const action = keys[event.key.toLowerCase()];
    if (!action) return;
    event.preventDefault();
    action();
  });
}
