// The page: reads the setting, the drafts and the plans, and draws again what has changed.

import { desk, isStop, Trouble } from "./asking.js";
import { drawAltitude, drawTime, followDraft, goToTime, makeBars } from "./bars.js";
import { makeDraftForm } from "./draft_form.js";
import { followOthers, keep, kept, newDraft, readDrafts } from "./drafts.js";
import { drawBanner, drawDraft, isBeingDragged, makeDrawing, startDrawing } from "./drawing.js";
import { button, byId, element, redraw } from "./elements.js";
import { askAgain, coverDraft } from "./finding.js";
import { readPlans } from "./flying.js";
import { giveFocusBack } from "./focus.js";
import { makeMap, showAll, theMap } from "./map.js";
import { newestAbout, say } from "./messages.js";
import { drawTable } from "./plan_table.js";
import { planTold } from "./plan_view.js";
import { drawPlans, placesOf } from "./plans_on_map.js";
import { drawReasons } from "./reasons.js";
import { draftAtWork, listen, nameOf, startOf, state } from "./state.js";
import { markTitle, startWatch } from "./watch.js";

const DESK_WORDS = {
  asking: ["…", "asking the desk"],
  yes: ["●", "the desk answers"],
  no: ["○", "the desk doesn't answer"],
  no_program: ["○", "the program of this page doesn't answer: start it, and open the address that it prints"],
};

let fillForm = null;
/** The flight of the card, and whether it is planned and drawn; whether it is drawn on the map now. */
let shownKind = null;
let isDrawn = false;
/** Whether the desk didn't answer when it was last told. */
let wasAway = false;

async function start() {
  setTheme(localStorage.getItem("uss_desk_map theme") ?? "");
  state.setting = await setting();
  byId("operator").textContent = state.setting.operator;
  byId("desk-url").textContent = state.setting.desk;
  readDrafts();
  followOthers();
  makeMap();
  theMap().on("zoomend", () => [drawPlans, drawReasons].forEach((draw) => draw()));
  makeDrawing();
  makeBars();
  makeNewButtons();
  listenAll();
  drawAll();
  startWatch();
  if (await readPlans()) showEverything();
  document.documentElement.dataset.ready = "true";
}

async function setting() {
  const answer = await fetch("api/setting");
  if (!answer.ok) throw new Trouble({ text: "The program was started anew: open the address that it has printed." });
  return answer.json();
}

function listenAll() {
  listen(["plans", "chosen", "moment", "drafts"], drawPlans);
  listen(["plans", "chosen", "moment", "drafts", "busy", "messages"], () => drawTable(byId("plans")));
  listen(["plans", "chosen", "moment", "draft", "drafts", "cover", "reasons"], drawTime);
  listen(["plans", "chosen", "moment", "draft", "drafts", "cover"], drawAltitude);
  listen(["chosen", "drafts", "draft", "cover", "plans", "drawing"], drawDraft);
  listen(["chosen", "reasons"], drawReasons);
  listen(["drawing", "draft", "drafts", "chosen", "cover"], drawBanner);
  listen(["chosen", "plans", "draft", "drafts", "cover", "reasons", "busy", "drawing", "messages"], drawChosen);
  listen(["messages"], showSaid);
  listen(["draft", "drafts", "chosen"], draftChanged);
  listen(["plans"], markTitle);
  listen(["desk"], drawDesk);
  listen(["keeping"], tellKeeping);
  // the last one, when all else is drawn
  listen(["chosen", "plans", "draft", "drafts", "cover", "reasons", "busy", "drawing", "messages"], giveFocusBack);
}

function drawAll() {
  drawDesk();
  drawTable(byId("plans"));
  drawTime();
  drawAltitude();
  drawDraft();
}

/** A draft has changed: its cells are found, and what blocks it is asked again once it rests. */
function draftChanged(parts) {
  if (!draftAtWork()) return;
  coverDraft(state.chosen);
  if (!parts.has("draft")) return;
  followDraft(state.chosen);
  if (!isBeingDragged()) askAgain(state.chosen);
}

// ---- the flight that is chosen

function drawChosen() {
  const parent = byId("chosen");
  const id = state.chosen;
  const [plan, draft] = [state.plans.get(id), state.drafts.get(id)];
  parent.hidden = !plan && !draft;
  const kind = `${id} ${Boolean(plan)} ${Boolean(draftAtWork())}`;
  const hadFocus = parent.contains(document.activeElement);
  if (shownKind !== kind) makeChosen(parent, plan, draft);
  if (plan) redraw(parent.querySelector(".plan-told"), planTold(plan, zoomTo));
  fillForm?.();
  const heading = parent.querySelector("h2");
  if (heading) heading.textContent = nameOf(id);
  goToCard(parent, kind, hadFocus);
  shownKind = kind;
}

/** Shows the card of a flight that was chosen, and what was said of it; of one that is drawn, the map. */
function goToCard(parent, kind, hadFocus) {
  const [isNew, wasDrawn] = [shownKind !== kind, isDrawn];
  isDrawn = state.drawing !== null;
  if (isDrawn && !wasDrawn) byId("stage").scrollIntoView({ block: "start" });
  if (isDrawn || parent.hidden || !(isNew || wasDrawn)) return;
  const isSameFlight = !wasDrawn && kind.split(" ")[0] === shownKind?.split(" ")[0];
  if (!isSameFlight || hadFocus) parent.querySelector("h2").focus({ preventScroll: true });
  parent.scrollIntoView({ block: "start" });
}

function makeChosen(parent, plan, draft) {
  fillForm = null;
  parent.replaceChildren();
  if (!plan && !draft) return;
  parent.append(element("h2", { tabindex: -1 }, ""));
  if (plan) parent.append(element("div", { class: "plan-told" }));
  if (draftAtWork()) {
    const form = element("div", { class: "draft-form", role: "group", "aria-label": "The drawing" });
    parent.append(form);
    fillForm = makeDraftForm(form, draft.id);
  }
  goToTime(draftAtWork()?.start ?? startOf(plan));
}

function zoomTo(plan) {
  showAll(placesOf(plan));
}

/** Shows all live plans, or the drafts if there are none. */
function showEverything() {
  const drafted = [...state.drafts.values()].flatMap((draft) => draft.places).map(([east, north]) => [north, east]);
  if (!kept("seen", false)) showAll(livePlaces().length ? livePlaces() : drafted);
  keep("seen", true);
}

function livePlaces() {
  return [...state.plans.values()].filter((plan) => plan.status !== "Closed").flatMap(placesOf);
}

/** Brings what was said of the chosen flight into view. */
function showSaid() {
  if (newestAbout(state.chosen) === state.messages[0]) {
    document.querySelector("#chosen .said")?.scrollIntoView({ block: "nearest" });
  }
}

// ---- the rest

function makeNewButtons() {
  const make = (kind, words) => button(words, () => startDrawing(newDraft(kind).id), { id: `new-${kind}` });
  byId("new").append(element("span", {}, "New flight:"), make("polygon", "Polygon"), make("line", "Line"),
    make("circle", "Circle"), button("Show all", () => showAll(livePlaces())));
}

function drawDesk() {
  if (wasAway && desk.answers === "yes") readPlans();
  wasAway = desk.answers.startsWith("no");
  const [mark, words] = DESK_WORDS[desk.answers];
  byId("desk").className = desk.answers.startsWith("no") ? "desk-no" : `desk-${desk.answers}`;
  byId("desk-mark").textContent = mark;
  if (byId("desk-told").textContent !== words) byId("desk-told").textContent = words;
}

function tellKeeping() {
  if (!state.isKeeping) say("trouble", "The browser keeps nothing of this page: what is drawn goes when it is closed.");
}

function setTheme(theme) {
  byId("theme").value = theme;
  if (theme) document.documentElement.dataset.theme = theme;
  else delete document.documentElement.dataset.theme;
}

byId("theme").addEventListener("change", (event) => {
  localStorage.setItem("uss_desk_map theme", event.target.value);
  setTheme(event.target.value);
});
addEventListener("unhandledrejection", (event) => {
  if (isStop(event.reason)) return;
  say("trouble", `The page failed: ${event.reason?.message}. What was drawn is kept: load it again.`);
});
start().catch((why) => say("trouble", why.message));
