// What changes plans: plan, activate, report, close, clear. Each is told with what the desk said.

import { ask, Trouble } from "./asking.js";
import { doubtsOf } from "./cover_told.js";
import { discardDraft, notePlanned, sentDraft } from "./drafts.js";
import { findReasons, stop } from "./finding.js";
import { tellChanges, tellConflict } from "./changes.js";
import { LIST, say, sure } from "./messages.js";
import { changed, choose, nameOf, state } from "./state.js";
import { counted, now, pointOf, STATUSES } from "./words.js";

/** Ids of flights of which a change is under way, and `list` while all are listed. */
export const busy = new Set();
/** How many changes were begun or ended here: what was read meanwhile may be older than they are. */
let changes = 0;

export async function readPlans() {
  if (busy.has(LIST)) return false;
  busy.add(LIST);
  changed("busy");
  try {
    await listPlans();
    return true;
  } catch (why) {
    tellTrouble("The flights couldn't be listed", why, { "List again": readPlans }, LIST);
    return false;
  } finally {
    busy.delete(LIST);
    changed("busy");
  }
}

/** Lists all plans, and says what has changed since they were read; a Trouble if they can't be listed. */
export async function listPlans() {
  const before = changes;
  const told = await ask("plans");
  if (changes !== before) return;
  const known = state.plans;
  state.plans = new Map(told.plans.map((plan) => [plan.id, plan]));
  if (state.chosen && !state.plans.has(state.chosen) && !state.drafts.has(state.chosen)) choose(null);
  changed("plans");
  if (state.listed) tellChanges(known, state.plans);
  else state.plans.forEach((plan) => tellConflict(undefined, plan));
  state.listed = now();
}

/** Looks at a plan again, which is taken off if it isn't there any more. */
export async function showPlan(id) {
  const told = await ask("show", { ids: [id] });
  told.plans.forEach((plan) => state.plans.set(plan.id, plan));
  told.gone.forEach((gone) => state.plans.delete(gone));
  changed("plans");
}

function tellTrouble(what, why, doing, about, isOfForm = false) {
  if (!(why instanceof Trouble)) throw why;
  const stands = why.may_stand ? " Asking the same again is safe." : "";
  say("trouble", `${what}: ${why.message}.${stands}`.replaceAll("..", "."), doing, about, isOfForm);
}

/** Makes a change, one at a time of each flight, and tells what came of it; the answer, or null. */
async function make(id, call, words, what, again) {
  if (busy.has(id)) return null;
  busy.add(id);
  changes += 1;
  changed("busy");
  try {
    const told = await ask(call, words);
    const known = state.plans.get(id);
    if (told.plan) state.plans.set(id, told.plan);
    changed("plans", "draft");
    tellAnswer(id, told.answer, what, call === "plan");
    if (told.plan) tellConflict(known, told.plan);
    return told.answer;
  } catch (why) {
    tellTrouble(`${what} ${nameOf(id)}`, why, { "Try again": again }, id, call === "plan");
    return null;
  } finally {
    busy.delete(id);
    changes += 1;
    changed("busy");
  }
}

function tellAnswer(id, answer, what, isOfForm) {
  const name = nameOf(id);
  const lost = answer.was_lost ? " (a first answer was lost)" : "";
  const status = STATUSES[answer.status]?.words ?? "not planned";
  if (answer.result === "Completed") {
    return say("done", `${what} ${name}: done, it is ${status}${lost}.`, {}, id, isOfForm);
  }
  const where = answer.conflict ? ` First blocked point: ${pointOf(answer.conflict)}.` : "";
  const refused = `${what} ${name}: refused (${answer.note}), it stays ${status}${lost}`;
  return say("refused", `${refused}: ${answer.advice}.${where}`, {}, id, isOfForm);
}

export async function planDraft(id) {
  const draft = state.drafts.get(id);
  const isChange = state.plans.has(id) && state.plans.get(id).status !== "Closed";
  const doubts = doubtsOf(draft, await ask("cover", { draft: sentDraft(draft) }).catch(() => null));
  if (doubts.length && !await sure(`${doubts.join(" ")} Plan it all the same?`, "Plan it")) return;
  stop(id);
  const answer = await make(id, "plan", { draft: sentDraft(draft), is_change: isChange },
    isChange ? "Change" : "Plan", () => planDraft(id));
  if (answer?.note === "conflict") findReasons(id);
  if (answer?.result === "Completed") {
    state.reasons.delete(id);
    state.times.delete(id);
    if (state.changing === id) state.changing = null;
    notePlanned(id);
    changed("reasons", "chosen");
  }
}

export function activate(id) {
  return make(id, "activate", { id }, "Activate", () => activate(id));
}

export async function report(id, aircraft) {
  const words = aircraft === "Contingent" ? "contingent" : "off-nominal";
  const isLast = aircraft === "Contingent" && state.plans.get(id).aircraft !== "Contingent";
  const question = `Report ${nameOf(id)} contingent? After that it can only be closed.`;
  if (isLast && !await sure(question, "Report it")) return null;
  return make(id, "report", { id, aircraft }, `Report ${words}:`, () => report(id, aircraft));
}

export async function close(id) {
  if (!await sure(`Close ${nameOf(id)}? A closed flight stays closed.`, "Close it")) return null;
  return make(id, "close", { id }, "Close", () => close(id));
}

/** Clears a plan, after telling which others would be removed with it. */
export async function clear(id) {
  try {
    const { ids } = await ask("would_clear", { id });
    const others = ids.filter((other) => other !== id);
    const live = others.filter((other) => state.plans.get(other)?.status !== "Closed");
    const told = others.length ? ` It shares a point with ${counted(others.length, "other flight")} of yours, which ` +
      `${others.length === 1 ? "is" : "are"} removed too: ${others.map(nameOf).join(", ")}` +
      `${live.length ? ` (${live.length} not closed)` : ""}.` : "";
    if (!await sure(`Remove ${nameOf(id)} from the desk?${told}`, "Remove")) return;
    const cleared = await ask("clear", { id });
    say("done", `Clear: ${counted(cleared.count, "flight")} removed.`);
    changes += 1;
    ids.forEach((one) => state.plans.delete(one));
    discardDraft(id);
    await readPlans();
  } catch (why) {
    tellTrouble(`Clear ${nameOf(id)}`, why, { "Try again": () => clear(id) }, id);
  }
}

/** A draft of a plan that was drawn elsewhere: over the same cells. */
export function draftOf(plan) {
  const [first] = plan.volumes;
  const cells = [...new Set(plan.volumes.flatMap((volume) => volume.cells))];
  return { id: plan.id, name: plan.id.slice(0, 8), kind: "cells", places: [], cells, metres: 200, at_most: 64,
    above: "ellipsoid", lower: first.lower, upper: first.upper, ground: null, priority: plan.priority,
    start: Math.min(...plan.volumes.map((volume) => volume.start)),
    end: Math.max(...plan.volumes.map((volume) => volume.end)) };
}

/** Whether a plan's volumes differ in nothing but their cells, so that a draft can stand for them. */
export function hasOneWindow(plan) {
  const [first] = plan.volumes;
  return plan.volumes.every((volume) => !volume.is_rectangle && volume.lower === first.lower &&
    volume.upper === first.upper && volume.start === first.start && volume.end === first.end);
}
