// What the page knows. Whoever changes a part of it says so, and who shows that part draws it again.

import { metresOf } from "./words.js";

export const state = {
  setting: null,
  plans: new Map(),
  drafts: new Map(),
  /** The id of the flight that is looked at: a plan, a draft, or both. */
  chosen: null,
  /** The second that the time bar is at, and the day that it shows, by its first second. */
  moment: 0,
  day: 0,
  isMomentAlone: false,
  /** Metres, and whether only what is there is shown. */
  altitude: 100,
  isAltitudeAlone: false,
  hasClosed: false,
  /** By the id of a draft: the cells that it takes, what blocks it, when it is free. */
  covers: new Map(),
  reasons: new Map(),
  times: new Map(),
  /** The id of the draft that is being drawn on the map, and of the plan whose drawing is being changed. */
  drawing: null,
  changing: null,
  /** What was said, newest first. */
  messages: [],
  /** The second at which the plans were listed last; 0 before that. */
  listed: 0,
};

const listeners = [];
let pending = new Set();

/** Runs a function after parts that it names have changed. */
export function listen(parts, run) {
  listeners.push({ parts: new Set(parts), run });
}

/** Says that parts have changed; all that changes in one go is drawn once. */
export function changed(...parts) {
  if (pending.size === 0) queueMicrotask(tell);
  parts.forEach((part) => pending.add(part));
}

function tell() {
  const parts = pending;
  pending = new Set();
  for (const listener of listeners) {
    if ([...listener.parts].some((part) => parts.has(part))) listener.run(parts);
  }
}

export function choose(id) {
  state.chosen = id;
  if (state.drawing !== id) state.drawing = null;
  if (state.changing !== id) state.changing = null;
  changed("chosen", "drawing");
}

/** The draft that is worked on: the chosen one, if it isn't planned or its plan is being changed. */
export function draftAtWork() {
  const isFree = !state.plans.has(state.chosen) || state.changing === state.chosen;
  return isFree ? state.drafts.get(state.chosen) : undefined;
}

/** Whether a volume is among what the bars of time and altitude show. */
export function isShown(volume) {
  const isThen = volume.start <= state.moment && state.moment < volume.end;
  const isThere = volume.lower <= state.altitude && state.altitude < volume.upper;
  return (!state.isMomentAlone || isThen) && (!state.isAltitudeAlone || isThere);
}

/** The plans that are listed: closed ones only if they are wanted. */
export function plansListed() {
  const listed = [...state.plans.values()].filter((plan) => state.hasClosed || plan.status !== "Closed");
  return listed.sort((one, other) => startOf(one) - startOf(other) || (one.id < other.id ? -1 : 1));
}

export function startOf(plan) {
  return Math.min(...plan.volumes.map((volume) => volume.start));
}

export function endOf(plan) {
  return Math.max(...plan.volumes.map((volume) => volume.end));
}

/** The altitudes of a plan, in words. */
export function altitudesOf(plan) {
  const [lower, upper] = [plan.volumes.map((volume) => volume.lower), plan.volumes.map((volume) => volume.upper)];
  return `${metresOf(Math.min(...lower))} to ${metresOf(Math.max(...upper))}`;
}

/** The name of a flight: the one that it was given here, or the beginning of its id. */
export function nameOf(id) {
  return state.drafts.get(id)?.name || id.slice(0, 8);
}
