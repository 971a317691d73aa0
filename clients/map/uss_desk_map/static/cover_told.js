// What is known of a drawing before it is planned: how large it is, which cells it takes, its altitudes, its faults.

import { altitudesTold } from "./altitude_fields.js";
import { isReady, isWhole } from "./drafts.js";
import { element } from "./elements.js";
import { state } from "./state.js";
import { counted, sizeOf, spanOf } from "./words.js";

const PLACES = { polygon: "corner", line: "place" };

/** How many corners a drawing has, and how large it is, as far as that is known. */
export function drawnTold(draft) {
  const size = state.covers.get(draft.id)?.shape_square_metres;
  const places = PLACES[draft.kind] && counted(draft.places.length, PLACES[draft.kind]);
  return [places, size && sizeOf(size)].filter(Boolean).join(", ");
}

export function coverTold(draft) {
  const drawn = element("p", { id: "drawn-told" }, drawnTold(draft));
  if (!isWhole(draft)) {
    return [drawn, element("p", { class: "hint", id: "cover" }, "Draw it to see the cells that it takes.")];
  }
  const cover = state.covers.get(draft.id);
  if (!cover) return [drawn, element("p", { class: "hint", id: "cover" }, "…")];
  const faults = [isReady(draft) || !cover.cells ? cover.fault : "", faultOf(draft)].filter(Boolean);
  const span = spanOf(draft.start, draft.end);
  return [drawn, element("div", { id: "cover" },
    cover.cells && element("p", {}, `${counted(cover.cells.length, "cell")}${volumesTold(cover)}: ${beyond(cover)}`),
    ...altitudesTold(cover),
    ...faults.map((fault) => element("p", { class: "fault", role: "alert" }, `! ${fault}`)),
    element("p", { class: "hint" }, `${span.local} here, ${span.utc}`),
    !isReady(draft) && element("p", { class: "hint", id: "missing" }, "Fill in both altitudes to ask or to plan it."))];
}

/** What about times can be told without asking. */
function faultOf(draft) {
  return draft.end <= draft.start ? "The end isn't after the start." : "";
}

function volumesTold({ volumes }) {
  return volumes > 1 ? ` in ${volumes} volumes` : "";
}

function beyond({ square_metres: taken, shape_square_metres: drawn }) {
  if (drawn === null) return `they take ${sizeOf(taken)}.`;
  const more = Math.max(0, taken - drawn);
  const share = Math.round(100 * more / drawn);
  return `they take ${sizeOf(taken)}, ${sizeOf(more)} (${share} %) beyond the ${sizeOf(drawn)} drawn.`;
}

/** What may be a mistake in a drawing, as questions to be answered before it is planned. */
export function doubtsOf(draft, cover) {
  return [
    cover?.is_large && `${draft.name} is very large: ${drawnTold(draft) || sizeOf(cover.square_metres)}.`,
    cover?.altitudes?.is_below && `${draft.name}: ${cover.altitudes.warning}`,
  ].filter(Boolean);
}
