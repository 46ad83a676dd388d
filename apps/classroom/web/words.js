// How numbers, times and answers are written on both pages.

import { number, t } from "./language.js";

export { number };

// Always with its sign, except 0.
export function signed(n) {
  return typeof n === "number" && n > 0 ? "+" + number(n) : number(n);
}

export function ms(n) {
  return number(n) + " ms";
}

// The room's time, 83456 as "1:23.456".
export function roomTime(t) {
  const whole = Math.floor(t / 1000);
  const hours = Math.floor(whole / 3600);
  const minutes = Math.floor(whole / 60) % 60;
  const two = (n) => String(n).padStart(2, "0");
  const front = hours ? `${hours}:${two(minutes)}` : String(minutes);
  return `${front}:${two(whole % 60)}.${String(Math.floor(t % 1000)).padStart(3, "0")}`;
}

// A time of day in ms as "12:00:00.081".
export function timeOfDay(t) {
  const two = (n) => String(Math.floor(n)).padStart(2, "0");
  return `${two(t / 3600000)}:${two((t / 60000) % 60)}:${two((t / 1000) % 60)}.${String(t % 1000).padStart(3, "0")}`;
}

// A way of [least, most] ms.
export function way([least, most]) {
  return least === most ? number(least) : `${number(least)}–${number(most)}`;
}

// An answer's number and name, "10 DelayNotValid": all languages and bindings have this name.
export function answerName(reply) {
  return `${reply.answer} ${reply.name}`;
}

// What an answer means, and what it changes.
export const answerMeaning = (answer) => t(`answers.${answer}.meaning`);
export const answerChanges = (answer) => t(`answers.${answer}.changes`);

// A call as a reader says it.
export function callName(name) {
  return t(`call.${name}`);
}

// A place of a walk: "step 3", or "host 1, line a".
export function placeName(place) {
  return place.line ? t("place.line", { id: place.id, line: place.line }) : t("place.step", { step: place.step });
}

export function speedWords(factor) {
  return "×" + number(factor);
}
