// A plan that was chosen: what it takes, its state, what can be done, and its conflict.

import { newDraft } from "./drafts.js";
import { button, element } from "./elements.js";
import { activate, busy, clear, close, draftOf, hasOneWindow, report, showPlan } from "./flying.js";
import { newestAbout, saidAbout, say } from "./messages.js";
import { changed, choose, nameOf, state } from "./state.js";
import { counted, metresOf, pointOf, spanOf, statusOf } from "./words.js";

const MOST_TOKENS = 64;

export function planTold(plan, zoom) {
  const { mark, words, look } = statusOf(plan);
  return [
    element("p", {}, element("span", { class: `tag ${look}`, id: "plan-status", "data-status": plan.status },
      element("b", {}, mark), ` ${words}`), ` priority ${plan.priority}`),
    plan.conflict && element("p", { class: "fault", id: "plan-conflict", role: "alert" },
      `▲ Conflict, first point: ${pointOf(plan.conflict)}.`),
    element("div", { class: "buttons", id: "plan-actions" }, actionsOf(plan, zoom)),
    !(state.changing === plan.id && newestAbout(plan.id)?.isOfForm) && saidAbout(plan.id),
    element("div", { class: "wide" }, volumesOf(plan)),
    element("p", { class: "hint" }, "Id ", element("code", { id: "plan-id" }, plan.id)),
    cellsOf(plan),
  ];
}

function actionsOf(plan, zoom) {
  const isBusy = busy.has(plan.id);
  const make = (name, run, id, more = {}) => button(name, run, { disabled: isBusy, id, ...more });
  const isContingent = plan.aircraft === "Contingent";
  if (plan.status === "Closed") {
    return [canBeDrawn(plan) && make("Draw it anew", () => drawAnew(plan), "anew"),
      make("Zoom to it", () => zoom(plan)), make("Clear…", () => clear(plan.id), "clear", { class: "danger" }),
      button("Back", () => choose(null))];
  }
  const words = plan.status === "Planned" ? "Activate" : "Back on its plan";
  return [
    !isContingent && plan.status !== "OkToFly" && make(words, () => activate(plan.id), "activate", { class: "main" }),
    !isContingent && make("Report off-nominal", () => report(plan.id, "OffNominal"), "off-nominal"),
    make("Report contingent", () => report(plan.id, "Contingent"), "contingent"),
    make("Close", () => close(plan.id), "close", { class: "danger" }),
    make("Look again", () => lookAgain(plan.id), "look"),
    make("Zoom to it", () => zoom(plan)),
    canBeDrawn(plan) && state.changing !== plan.id && make("Change…", () => change(plan), "change"),
    make("Clear…", () => clear(plan.id), "clear", { class: "danger" }),
    button("Back", () => choose(null)),
  ];
}

/** Whether there is a drawing of a plan, or its volumes can stand for one. */
function canBeDrawn(plan) {
  return state.drafts.has(plan.id) || hasOneWindow(plan);
}

function change(plan) {
  if (!state.drafts.has(plan.id)) newDraft("cells", draftOf(plan));
  state.changing = plan.id;
  changed("chosen");
}

/** A new draft of the same shape, at the time that new ones have. */
function drawAnew(plan) {
  const { id, planned, start, end, ...shape } = state.drafts.get(plan.id) ?? draftOf(plan);
  newDraft(shape.kind, { ...shape, name: `${shape.name} again` });
}

async function lookAgain(id) {
  try {
    await showPlan(id);
    const plan = state.plans.get(id);
    const words = plan?.conflict ? "it has a conflict" : plan ? "no conflict" : "it isn't there any more";
    say("note", `${nameOf(id)}: ${words}.`, {}, id);
  } catch (why) {
    say("trouble", `${nameOf(id)} couldn't be shown: ${why.message}.`, { "Try again": () => lookAgain(id) },
      id);
  }
}

function volumesOf(plan) {
  const rows = plan.volumes.map((volume, number) => {
    const span = spanOf(volume.start, volume.end);
    return element("tr", {}, element("td", {}, String(number + 1)),
      element("td", {}, span.local, element("small", {}, `UTC ${span.utc}`)),
      element("td", {}, `${metresOf(volume.lower)} to ${metresOf(volume.upper)}`),
      element("td", {}, volume.is_rectangle ? "a rectangle" : counted(volume.cells.length, "cell")));
  });
  return element("table", {}, element("thead", {}, element("tr", {},
    ...["volume", "time", "altitude (WGS84)", "ground"].map((name) => element("th", { scope: "col" }, name)))),
  element("tbody", {}, ...rows));
}

function cellsOf(plan) {
  const tokens = [...new Set(plan.volumes.flatMap((volume) => volume.cells))];
  if (!tokens.length) return null;
  const more = tokens.length - MOST_TOKENS;
  return element("details", {}, element("summary", {}, `Tokens of ${counted(tokens.length, "cell")}`),
    element("p", { class: "tokens" }, element("code", {}, tokens.slice(0, MOST_TOKENS).join(" ")),
      more > 0 && ` and ${more} more`));
}
