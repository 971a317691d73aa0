// All flights in a table: plans, and what was drawn and isn't planned.

import { ABOVE } from "./drafts.js";
import { button, element, redraw } from "./elements.js";
import { busy, readPlans } from "./flying.js";
import { LIST, saidAbout } from "./messages.js";
import { altitudesOf, changed, choose, endOf, isShown, nameOf, plansListed, startOf, state } from "./state.js";
import { DRAFT, metresOf, spanOf, statusOf } from "./words.js";

export function drawTable(parent) {
  const plans = plansListed();
  const drafts = [...state.drafts.values()].filter((draft) => !state.plans.has(draft.id));
  const closed = [...state.plans.values()].filter((plan) => plan.status === "Closed").length;
  redraw(parent,
    element("div", { class: "row heading" }, element("h2", {}, `Flights (${plans.length + drafts.length})`),
      button("List again", readPlans, { id: "list-again", disabled: busy.has(LIST) }), closedChoice(closed)),
    saidAbout(LIST),
    plans.length + drafts.length === 0
      ? element("p", { class: "hint" }, "None yet: draw one above.")
      : element("table", { class: "flights" }, head(),
        element("tbody", {}, ...drafts.map(draftRow), ...plans.map(planRow))));
}

function closedChoice(count) {
  const box = element("input", { type: "checkbox", id: "has-closed", "data-key": "has-closed",
    on: { change: () => { state.hasClosed = box.checked; changed("plans"); } } });
  box.checked = state.hasClosed;
  return element("label", { class: "check" }, box, ` closed too (${count})`);
}

function head() {
  return element("thead", {}, element("tr", {},
    ...["flight", "priority", "time", "altitude (WGS84)"].map((name) => element("th", { scope: "col" }, name))));
}

function rowOf(id, look, mark, words, cells, isNow, note = null) {
  const pick = button(nameOf(id), () => choose(id), { class: "plain name", "data-key": `row-${id}`,
    "aria-pressed": String(state.chosen === id) });
  return element("tr", { class: state.chosen === id ? "chosen" : null, "data-id": id },
    element("th", { scope: "row" }, element("span", { class: `tag ${look}` }, element("b", {}, mark), ` ${words}`), " ",
      pick, isNow ? element("small", { class: "then" }, " ● at the bars' time and altitude") : null, note), ...cells);
}

function planRow(plan) {
  const { mark, words, look } = statusOf(plan);
  const isMarked = (state.isMomentAlone || state.isAltitudeAlone) && plan.volumes.some(isShown);
  const told = plan.conflict ? ` ▲ conflict with priority ${plan.conflict.priority}` : "";
  const cells = cellsOf(plan.priority, startOf(plan), endOf(plan), altitudesOf(plan));
  return rowOf(plan.id, look, mark, words, cells, isMarked, told && element("small", { class: "fault" }, told));
}

function draftRow(draft) {
  return rowOf(draft.id, DRAFT.look, DRAFT.mark, DRAFT.words,
    cellsOf(draft.priority, draft.start, draft.end, draftAltitudes(draft)), false);
}

function draftAltitudes({ lower, upper, above }) {
  return lower !== null && upper !== null ? `${metresOf(lower)} to ${metresOf(upper)} above ${ABOVE[above]}` : "not filled in";
}

function cellsOf(priority, start, end, altitudes) {
  const span = spanOf(start, end);
  return [element("td", { "data-name": "priority" }, String(priority)),
    element("td", { "data-name": "time" }, span.local, element("small", {}, `UTC ${span.utc}`)),
    element("td", { "data-name": "altitude" }, altitudes)];
}

