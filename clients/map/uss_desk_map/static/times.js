// When a drawn flight is free: the times at which it may begin, of a day from its start on.

import { askSteps, isStop } from "./asking.js";
import { changeDraft, isReady, sentDraft } from "./drafts.js";
import { button, element } from "./elements.js";
import { begin, stop, usageOf } from "./finding.js";
import { changed, nameOf, state } from "./state.js";
import { clockOf, counted, momentOf, now, spanOf } from "./words.js";

const DAY = 86_400;
const MINUTE = 60;

/** What of a draft decides when it is free: all but its time. */
function keyOf(draft) {
  const { start, end, ...rest } = sentDraft(draft);
  return JSON.stringify([rest, end - start]);
}

/** Finds the free times of a day, from the start of a draft on, or from now. */
export async function findTimes(id) {
  const draft = state.drafts.get(id);
  if (!draft || !isReady(draft)) return;
  const signal = begin(id);
  const from = Math.max(draft.start, Math.ceil(now() / MINUTE) * MINUTE);
  const to = from + DAY;
  const times = { state: "asking", requests: 0, decided: 0, free: [], own: [], from, to, key: keyOf(draft) };
  state.times.set(id, times);
  changed("reasons");
  try {
    const words = { draft: sentDraft(draft), usage: usageOf(id), from, to };
    for await (const step of askSteps("free_times", words, signal)) take(times, step);
  } catch (why) {
    Object.assign(times, isStop(why) ? { state: "stopped" } : { state: "trouble", told: why.message });
  }
  changed("reasons");
}

function take(times, step) {
  if (step.refused) Object.assign(times, { state: "trouble", told: step.refused.advice });
  else Object.assign(times, step);
  if (step.is_done) times.state = times.free.length ? "free" : "none";
  changed("reasons");
}

// ---- in words

/** What was found of a draft's times, as elements. */
export function timesTold(id) {
  const times = state.times.get(id);
  if (!times) return null;
  const draft = state.drafts.get(id);
  const isOld = times.key !== keyOf(draft);
  return element("div", { class: "asked", id: "times", "data-state": times.state },
    element("p", { class: `verdict ${times.state}`, role: "status" }, verdict(times)),
    times.state === "asking" && element("progress", { max: 1, value: times.decided, "aria-label": "share decided" }),
    times.state === "asking" && button("Stop looking", () => stop(id)),
    isOld && element("p", { class: "hint" }, "The drawing was changed after that: look again."),
    times.free.length > 0 && element("ul", { class: "free-times" },
      times.free.map((span) => freeTold(draft, span, isOld))),
    times.own.length > 0 && element("p", { id: "own-times" }, `Your own flights block it too: ${ownTold(times.own)}.`));
}

function verdict({ state: how, requests, decided, is_whole: isWhole, free, from, to, told }) {
  const window = spanOf(from, to).local;
  const asked = counted(requests, "request");
  const rest = isWhole ? "" : " Not all of it was asked: look again from a later start.";
  const found = counted(free.length, "free time");
  switch (how) {
    case "asking": return `Looking from ${window}: ${Math.round(100 * decided)} % known after ${asked}.`;
    case "free": return `✓ ${found} from ${window}, found by ${asked}.${rest}`;
    case "none": return `✕ No free time from ${window} (${asked}).${rest}`;
    case "stopped": return `Stopped after ${asked}: ${found} until then.`;
    default: return `! ${told}.`;
  }
}

/** A free time, with a button that moves the flight to its beginning. */
function freeTold(draft, [first, last], disabled) {
  const length = draft.end - draft.start;
  return element("li", {}, `${spanOf(first, last).local} `,
    button(`Begin at ${clockOf(first)}`, () => moveTo(draft.id, first, length),
      { disabled, "data-key": `begin-${first}`, title: momentOf(first) }));
}

function ownTold(own) {
  return own.map(({ id, start, end }) => `${nameOf(id)} (${spanOf(start, end).local})`).join(", ");
}

function moveTo(id, start, length) {
  changeDraft(id, { start, end: start + length });
}

/** The free times that the bar of time shows of a draft. */
export function freeSpans(draft) {
  const times = draft && state.times.get(draft.id);
  return times && times.key === keyOf(draft) ? times.free : [];
}
