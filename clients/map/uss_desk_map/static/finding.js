// What the program finds out of a draft: the cells that it takes, and what blocks it.

import { ask, askSteps, isStop } from "./asking.js";
import { isReady, isWhole, sentDraft } from "./drafts.js";
import { settled } from "./elements.js";
import { changed, state } from "./state.js";
import { beside, ringsBeside } from "./words.js";

const stops = new Map();
const covered = new Map();
const covering = new Set();

/** The usage that is asked for: a plan in use can't be planned again. */
export function usageOf(id) {
  return state.plans.get(id)?.usage === "InUse" ? "InUse" : "Planned";
}

// ---- the cells

/** What of a draft decides which cells it takes. */
function shapeKey({ kind, places, cells, metres, at_most, above, lower, upper, ground, start, end, priority }) {
  return JSON.stringify([kind, places, cells, metres, at_most, above, lower, upper, ground, start, end, priority]);
}

/** Finds the cells of a draft, one request at a time: of a draft that is dragged not each step is asked. */
export async function coverDraft(id) {
  const draft = state.drafts.get(id);
  if (!draft || !isWhole(draft)) return forget(id);
  const key = shapeKey(draft);
  if (covered.get(id) === key || covering.has(id)) return undefined;
  covering.add(id);
  changed("cover");
  const cover = await ask("cover", { draft: sentDraft(draft) }).catch((why) => ({ fault: why.message }));
  covering.delete(id);
  if (!state.drafts.has(id)) return undefined;
  if (cover.rings && draft.places.length) cover.rings = ringsBeside(cover.rings, draft.places[0][0]);
  covered.set(id, key);
  state.covers.set(id, cover);
  changed("cover");
  return coverDraft(id);
}

/** Whether the cells of a draft are being found: what is shown of them is of the drawing before. */
export function isCovering(id) {
  return covering.has(id);
}

function forget(id) {
  covered.delete(id);
  if (state.covers.delete(id)) changed("cover");
}

// ---- what blocks it

/** Stops what is being asked of a draft. What was found stays. */
export function stop(id) {
  stops.get(id)?.abort();
  stops.delete(id);
}

/** Stops what is being asked of a draft, and returns the signal that stops what is asked next. */
export function begin(id) {
  stop(id);
  const stopping = new AbortController();
  stops.set(id, stopping);
  return stopping.signal;
}

/** Finds out which cells of a draft are blocked. */
export async function findReasons(id) {
  const draft = state.drafts.get(id);
  if (!draft || !isReady(draft)) return;
  const signal = begin(id);
  const reasons = { state: "asking", requests: 0, decided: 0, cells: 0, blocked: [], priority: draft.priority,
    key: askedKey(draft) };
  state.reasons.set(id, reasons);
  changed("reasons");
  try {
    const words = { draft: sentDraft(draft), usage: usageOf(id) };
    for await (const step of askSteps("why", words, signal)) take(reasons, step, draft.places[0]?.[0]);
  } catch (why) {
    Object.assign(reasons, isStop(why) ? { state: "stopped" } : { state: "trouble", told: why.message });
  }
  if (state.reasons.get(id) === reasons) changed("reasons");
}

function take(reasons, step, longitude) {
  if (step.refused) Object.assign(reasons, { state: "refused", answer: step.refused });
  else if (step.is_done) reasons.state = reasons.blocked.length ? "blocked" : "free";
  else {
    Object.assign(reasons, { requests: step.requests, decided: step.decided, cells: step.cells });
    reasons.blocked.push(...step.blocked.map((one) => blockedBeside(one, longitude ?? one.ring[0][1])));
  }
  changed("reasons");
}

function blockedBeside({ cell, ring, conflict }, longitude) {
  const [turned] = ringsBeside([ring], longitude);
  return { cell, ring: turned, conflict: { ...conflict, longitude: beside(conflict.longitude, longitude) } };
}

/** What of a draft decides what blocks it. */
function askedKey(draft) {
  return JSON.stringify(sentDraft(draft));
}

/** Asks again, once a draft has come to rest, if it was asked before and isn't what it was then. */
export const askAgain = settled(350, (id) => {
  const [draft, reasons] = [state.drafts.get(id), state.reasons.get(id)];
  if (draft && reasons && reasons.key !== askedKey(draft)) findReasons(id);
});
