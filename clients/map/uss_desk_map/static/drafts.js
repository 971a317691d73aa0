// Flights that were drawn. They are kept in the browser with each change, and live over a reload.

import { changed, choose, state } from "./state.js";
import { east, now } from "./words.js";

const MINUTES = 60;
const ELLIPSOID = "ellipsoid";
const GROUND = "ground";
/** What altitudes may be counted from. */
export const ABOVE = { [GROUND]: "the ground", sea: "the sea", [ELLIPSOID]: "the WGS84 ellipsoid" };

/** Where the browser keeps things of this desk and operator. */
export function keyOf(what) {
  return `uss_desk_map ${what} ${state.setting.operator} ${state.setting.desk}`;
}

export function kept(what, otherwise) {
  try {
    return JSON.parse(localStorage.getItem(keyOf(what))) ?? otherwise;
  } catch {
    return otherwise;
  }
}

/** Keeps something; false if the browser has no room for it, or keeps nothing. */
export function keep(what, value) {
  try {
    localStorage.setItem(keyOf(what), JSON.stringify(value));
    return true;
  } catch {
    return false;
  }
}

export function readDrafts() {
  state.drafts = new Map(kept("drafts", []).map((draft) => ({ above: ELLIPSOID, ground: null, ...draft }))
    .filter(isDraft).map((draft) => [draft.id, draft]));
  changed("drafts");
}

/** Whether what the browser kept is a draft that this page can read. */
function isDraft(draft) {
  const numbers = ["metres", "start", "end", "priority", "at_most"];
  const altitudes = ["lower", "upper", "ground"];
  return typeof draft?.id === "string" && typeof draft.name === "string" && Array.isArray(draft.cells) &&
    ["polygon", "line", "circle", "cells"].includes(draft.kind) &&
    numbers.every((name) => Number.isFinite(draft[name])) && draft.above in ABOVE &&
    altitudes.every((name) => draft[name] === null || Number.isFinite(draft[name])) && Array.isArray(draft.places) &&
    draft.places.every((place) => place?.length === 2 && place.every(Number.isFinite));
}

function keepDrafts() {
  const isKept = keep("drafts", [...state.drafts.values()]);
  if (state.isKeeping !== isKept) {
    state.isKeeping = isKept;
    changed("keeping");
  }
}

/** Another page of this operator has changed the drafts: they are read again. */
export function followOthers() {
  addEventListener("storage", (event) => {
    if (event.key === keyOf("drafts")) readDrafts();
  });
}

function nextName(kind) {
  const names = new Set([...state.drafts.values()].map((draft) => draft.name));
  let number = 1;
  while (names.has(`${kind} ${number}`)) number += 1;
  return `${kind} ${number}`;
}

function halfHourAfter(second) {
  return (Math.floor(second / (30 * MINUTES)) + 2) * 30 * MINUTES;
}

/** A new draft, chosen. Priority and length are those that were used last; its altitudes are empty. */
export function newDraft(kind, more = {}) {
  const last = { priority: 0, metres: 200, at_most: 64, length: 3600, above: GROUND, ...kept("last", {}) };
  const start = Math.max(halfHourAfter(now()), state.isMomentAlone ? state.moment : 0);
  const { length, ...rest } = last;
  const draft = { id: crypto.randomUUID(), name: nextName(kind), kind, places: [], cells: [], ...rest,
    lower: null, upper: null, ground: null, start, end: start + length, ...more };
  state.drafts.set(draft.id, draft);
  keepDrafts();
  changed("drafts");
  choose(draft.id);
  return draft;
}

/** Changes members of a draft. What was found out of it before isn't of it any more. */
export function changeDraft(id, members) {
  const draft = { ...state.drafts.get(id), ...members };
  state.drafts.set(id, draft);
  if (["start", "end", "above", "priority", "metres", "at_most"].some((name) => name in members)) keepLast(draft);
  keepDrafts();
  changed("drafts", "draft");
}

function keepLast({ above, priority, metres, at_most, start, end }) {
  keep("last", { above, priority, metres, at_most, length: Math.max(60, end - start) });
}

export function discardDraft(id) {
  state.drafts.delete(id);
  for (const known of [state.covers, state.reasons, state.times]) known.delete(id);
  keepDrafts();
  if (state.chosen === id && !state.plans.has(id)) choose(null);
  changed("drafts", "draft", "reasons");
}

/** Notes that a draft is planned as it is. */
export function notePlanned(id) {
  const { planned, ...draft } = state.drafts.get(id);
  state.drafts.set(id, { ...draft, planned: draft });
  keepDrafts();
  changed("drafts");
}

/** Makes a draft what its plan is, or takes it away if that was drawn elsewhere. */
export function leaveAsPlanned(id) {
  const { planned } = state.drafts.get(id);
  state.changing = null;
  for (const known of [state.reasons, state.times]) known.delete(id);
  if (planned) changeDraft(id, { ...planned, planned });
  else discardDraft(id);
  changed("chosen", "reasons");
}

export function moveDraft(id, seconds) {
  const draft = state.drafts.get(id);
  changeDraft(id, { start: draft.start + seconds, end: draft.end + seconds });
}

/** Whether so much of a draft was drawn that it takes cells. */
export function isWhole(draft) {
  const least = { polygon: 3, line: 2, circle: 1, cells: 0 }[draft.kind];
  return draft.places.length >= least && (draft.kind !== "cells" || draft.cells.length > 0);
}

/** Whether a draft has all that a plan needs. */
export function isReady(draft) {
  return isWhole(draft) && draft.lower !== null && draft.upper !== null;
}

/** What the program is told of a draft; longitudes between -180 and 180. */
export function sentDraft(draft) {
  const { kind, cells, metres, above, lower, upper, ground, start, end, priority, at_most } = draft;
  const places = draft.places.map(([longitude, latitude]) => [east(longitude), latitude]);
  return { kind, places, cells, metres, above, lower, upper, ground, start, end, priority, at_most,
    plan_id: draft.id };
}
