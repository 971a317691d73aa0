// What has changed of flights between two looks at the desk, in words.

import { say } from "./messages.js";
import { altitudesOf, choose, endOf, nameOf, startOf, state } from "./state.js";
import { pointOf, spanOf, statusOf } from "./words.js";

/** So many flights have a message of their own; if more have changed, one message has all of them. */
const FEW = 3;

/** Says what is different about each flight that another look has shown. */
export function tellChanges(before, after) {
  const found = [...new Set([...before.keys(), ...after.keys()])]
    .map((id) => ({ id, words: changesOf(before.get(id), after.get(id)), isBad: isBlockedAnew(before.get(id), after.get(id)) }))
    .filter(({ words }) => words.length);
  if (found.length <= FEW) found.forEach(tell);
  else {
    const all = found.map(({ id, words }) => `${nameOf(id)}: ${words.join("; ")}.`).join(" ");
    say(found.some(({ isBad }) => isBad) ? "trouble" : "note", `${found.length} flights have changed. ${all}`);
  }
}

/** Says that a flight has a conflict, if it had none, or another one. */
export function tellConflict(before, after) {
  if (isBlockedAnew(before, after)) tell({ id: after.id, words: conflictOf(before, after), isBad: true });
}

function tell({ id, words, isBad }) {
  const doing = state.plans.has(id) ? { "Look at it": () => choose(id) } : {};
  say(isBad ? "trouble" : "note", `${nameOf(id)}: ${words.join("; ")}.`, doing);
}

function changesOf(before, after) {
  if (!before) return ["it is new at the desk, and wasn't planned in this page", ...conflictOf(before, after)];
  if (!after) return ["it isn't at the desk any more"];
  return [
    ...conflictOf(before, after),
    ...changed(before, after, (plan) => statusOf(plan).words, (now, then) => `it is ${now}, and was ${then}`),
    ...changed(before, after, (plan) => plan.priority, (now, then) => `its priority is ${now}, and was ${then}`),
    ...changed(before, after, timeOf, (now, then) => `its time is ${now}, and was ${then}`),
    ...changed(before, after, altitudesOf, (now, then) => `it flies at ${now}, and did at ${then}`),
    ...changed(before, after, cellsOf, () => "it takes other cells"),
  ];
}

function changed(before, after, read, words) {
  const [then, now] = [read(before), read(after)];
  return then === now ? [] : [words(now, then)];
}

function timeOf(plan) {
  return spanOf(startOf(plan), endOf(plan)).local;
}

function cellsOf(plan) {
  return JSON.stringify(plan.volumes.map(({ cells, rings }) => (cells.length ? cells : rings)));
}

function isBlockedAnew(before, after) {
  return Boolean(after?.conflict) && JSON.stringify(before?.conflict) !== JSON.stringify(after.conflict);
}

function conflictOf(before, after) {
  if (before?.conflict && !after.conflict) return ["it has no conflict any more"];
  if (!isBlockedAnew(before, after)) return [];
  return [`${before?.conflict ? "its conflict is another one now" : "it has a conflict: another flight was planned over it"}. ` +
    `First point: ${pointOf(after.conflict)}`];
}
