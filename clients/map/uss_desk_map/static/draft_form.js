// The form of a drawn flight. Its fields stay while one types; what was found out of it is told beneath.

import { altitudeRows } from "./altitude_fields.js";
import { coverTold } from "./cover_told.js";
import { changeDraft, discardDraft, isReady, leaveAsPlanned, moveDraft } from "./drafts.js";
import { startDrawing } from "./drawing.js";
import { button, element, redraw } from "./elements.js";
import { choiceField, field, metresField, row, timeField, wholeField } from "./fields.js";
import { findReasons, isCovering } from "./finding.js";
import { busy, planDraft } from "./flying.js";
import { newestAbout, saidAbout, sure } from "./messages.js";
import { reasonsTold } from "./reasons.js";
import { choose, state } from "./state.js";
import { findTimes, timesTold } from "./times.js";
import { counted } from "./words.js";

const LATER = [[-3600, "1 h earlier"], [-900, "15 min earlier"], [900, "15 min later"], [3600, "1 h later"]];
const CELLS = [16, 32, 64, 128, 256, 512, 1024];
const KINDS = { polygon: "Polygon", line: "Line", circle: "Circle", cells: "Cells of a plan" };

/** Makes the form of a draft; what it returns fills it anew. */
export function makeDraftForm(parent, id) {
  const fields = [];
  const places = element("div", { class: "places" });
  const drawn = element("div", { id: "drawn" });
  const found = element("div", { id: "found" });
  const actions = element("div", { class: "buttons", id: "draft-actions" });
  parent.append(...partsOf(id, fields), drawn, actions, found, places);
  return () => {
    const draft = state.drafts.get(id);
    if (!draft) return;
    fields.forEach((fill) => fill(draft));
    if (!places.contains(document.activeElement)) redraw(places, placesOf(draft));
    drawn.setAttribute("aria-busy", String(isCovering(id)));
    redraw(drawn, coverTold(draft));
    redraw(actions, actionsOf(draft));
    redraw(found, isSaidHere(id) && saidAbout(id), reasonsTold(id), timesTold(id));
  };
}

/** Whether the last that was said of a flight is of a button of its form, or there is no other card of it. */
function isSaidHere(id) {
  return !state.plans.has(id) || newestAbout(id)?.isOfForm;
}

function partsOf(id, fields) {
  const draft = state.drafts.get(id);
  const measured = { line: "Width, m", circle: "Radius, m" }[draft.kind];
  return [
    row(field(id, fields, "Name", "name", "text", { maxlength: 60 }),
      element("p", { class: "kind" }, KINDS[draft.kind])),
    measured && row(metresField(id, fields, measured, "metres", { min: 1 })),
    ...altitudeRows(id, fields),
    row(timeField(id, fields, "Start, local time", "start"), timeField(id, fields, "End, local time", "end")),
    row(...LATER.map(([seconds, words]) => button(words, () => moveDraft(id, seconds)))),
    row(wholeField(id, fields, "Priority", "priority", { min: 0, max: state.setting.limits.priority }),
      draft.kind !== "cells" && choiceField(id, fields, "Cells at most", "at_most",
        CELLS.map((count) => [count, String(count)]), Number)),
  ].filter(Boolean);
}

// ---- the places

function placesOf(draft) {
  if (draft.kind === "cells") return element("p", {}, `${counted(draft.cells.length, "cell")}, as they were planned.`);
  return element("details", { open: draft.places.length <= 8 },
    element("summary", {}, counted(draft.places.length, "place")),
    element("ol", {}, ...draft.places.map((place, number) => placeRow(draft, number))),
    row(button(draft.places.length ? "Draw on" : "Draw on the map", () => startDrawing(draft.id), { id: "draw-on" })));
}

function placeRow(draft, number) {
  const [longitude, latitude] = draft.places[number];
  const input = element("input", { value: `${latitude}, ${longitude}`, "data-key": `place-${number}`, size: 22,
    "aria-label": `Place ${number + 1}: latitude, longitude`,
    on: { change: (event) => placeTyped(draft.id, number, event.currentTarget) } });
  return element("li", {}, input, button("×", () => takePlace(draft.id, number),
    { class: "plain", "aria-label": `Take place ${number + 1} away`, "data-key": `take-${number}` }));
}

function placeTyped(id, number, input) {
  const [latitude, longitude] = input.value.split(/[\s,;]+/).map(Number);
  const isPlace = input.value.trim() !== "" && Math.abs(latitude) <= 90 && Math.abs(longitude) <= 540;
  input.setAttribute("aria-invalid", String(!isPlace));
  if (!isPlace) return;
  const places = state.drafts.get(id).places.map((place, at) => (at === number ? [longitude, latitude] : place));
  changeDraft(id, { places });
}

function takePlace(id, number) {
  changeDraft(id, { places: state.drafts.get(id).places.filter((_, at) => at !== number) });
}

// ---- what can be done, and what is known

function actionsOf(draft) {
  const plan = state.plans.get(draft.id);
  const isStored = plan && plan.status !== "Closed";
  const disabled = !isReady(draft) || busy.has(draft.id);
  return [
    button("Ask", () => findReasons(draft.id), { disabled, id: "ask", title: "Ask what blocks it; nothing is stored" }),
    button("When is it free?", () => findTimes(draft.id), { disabled, id: "find-free",
      title: "Look for free times within a day; nothing is stored" }),
    button(isStored ? "Change the plan" : "Plan", () => planDraft(draft.id), { disabled, class: "main", id: "plan" }),
    isStored ? button("Leave it as planned", () => leaveAsPlanned(draft.id), { id: "leave" })
      : button("Discard", () => discard(draft), { class: "danger", id: "discard" }),
    button("Back", () => choose(null)),
  ];
}

async function discard(draft) {
  if (draft.places.length && !await sure(`Discard the drawing of ${draft.name}?`, "Discard")) return;
  discardDraft(draft.id);
}
