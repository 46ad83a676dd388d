// Tabs: one panel of several is shown. Arrow keys go from tab to tab.

import { set } from "./dom.js";

// Tabs are buttons [data-tab=NAME] with panels #panel-NAME; shown(name) is called for each choice.
export function makeTabs(list, shown) {
  const tabs = [...list.querySelectorAll("[data-tab]")];
  const panelOf = (tab) => document.getElementById(`panel-${tab.dataset.tab}`);
  function choose(name, focus = false) {
    for (const tab of tabs) {
      const chosen = tab.dataset.tab === name;
      set(tab, { "aria-selected": chosen ? "true" : "false", tabindex: chosen ? 0 : -1 });
      panelOf(tab).hidden = !chosen;
      if (chosen && focus) tab.focus();
    }
    document.body.dataset.tab = name;
    shown(name);
  }
  list.addEventListener("click", (event) => {
    const tab = event.target.closest("[data-tab]");
    if (tab) choose(tab.dataset.tab);
  });
  list.addEventListener("keydown", (event) => {
    const at = tabs.indexOf(event.target);
    const go = { ArrowRight: at + 1, ArrowLeft: at - 1, Home: 0, End: tabs.length - 1 }[event.key];
    if (at < 0 || go === undefined) return;
    event.preventDefault();
    choose(tabs[(go + tabs.length) % tabs.length].dataset.tab, true);
  });
  return choose;
}
