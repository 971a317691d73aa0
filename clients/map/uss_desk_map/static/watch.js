// A look each minute, while a flight is in use or begins within a day: was somebody planned over it, has it changed?

import { Trouble } from "./asking.js";
import { byId } from "./elements.js";
import { busy, listPlans } from "./flying.js";
import { endOf, startOf, state } from "./state.js";
import { clockOf, now } from "./words.js";

const MINUTE = 60;
const DAY = 86_400;
const PAUSE_AFTER_TROUBLE = 10;

let isLooking = false;
/** The second before which no look is taken, after one that failed. */
let pause = 0;

export function startWatch() {
  setInterval(tick, 1000);
}

/** How many flights are in use, and how many begin within a day. */
function watched() {
  const live = [...state.plans.values()].filter((plan) => plan.status !== "Closed");
  const inUse = live.filter((plan) => plan.usage === "InUse").length;
  const soon = live.filter((plan) => plan.usage !== "InUse" && startOf(plan) < now() + DAY && endOf(plan) > now());
  return [inUse, soon.length];
}

async function tick() {
  const [inUse, soon] = watched();
  tell(inUse, soon);
  if (inUse + soon === 0 || isLooking || busy.size > 0 || now() < Math.max(pause, state.listed + MINUTE)) return;
  isLooking = true;
  try {
    await listPlans();
  } catch (why) {
    if (!(why instanceof Trouble)) throw why;
    pause = now() + PAUSE_AFTER_TROUBLE;
  } finally {
    isLooking = false;
  }
}

function tell(inUse, soon) {
  const counts = [inUse && `${inUse} in use`, soon && `${soon} within a day`].filter(Boolean).join(", ");
  const words = counts ? `${counts}: last looked at ${clockOf(state.listed)}` : "";
  if (byId("watch").textContent !== words) byId("watch").textContent = words;
}

/** Marks the title with how many flights have a conflict. */
export function markTitle() {
  const count = [...state.plans.values()].filter((plan) => plan.conflict).length;
  document.title = `${count ? `(${count}!) ` : ""}Flights of ${state.setting.operator}`;
}
