// The bar of time and that of altitude: what is where when. Dragging the one plays the day.

import { changeDraft, moveDraft } from "./drafts.js";
import { button, byId, drawn, element, redraw } from "./elements.js";
import { changed, choose, draftAtWork, nameOf, plansListed, state } from "./state.js";
import { freeSpans } from "./times.js";
import { clockOf, dateOf, dayOf, hourOf, metresOf, momentOf, now, spanOf, statusOf, utcOf } from "./words.js";

const MINUTE = 60;
const LANES = 8;
/** Of the height of a letter: a lane, and the line of hours above the lanes. */
const LANE_LETTERS = 0.72;
const AXIS_LETTERS = 1.05;
const STEP = 5 * MINUTE;
const ARROWS = { ArrowLeft: -STEP, ArrowRight: STEP, ArrowDown: -STEP, ArrowUp: STEP };
const PLAY_MILLISECONDS = 120;
const LEAST_REACH = 150;
const ROOM = 25;
const TICK_LETTERS = 1.8;
const TICKS = [25, 50, 100, 250, 500, 1000, 2500, 5000];

let playing = 0;
const parts = {};

// ---- time

export function makeBars() {
  state.moment = Math.floor(now() / STEP) * STEP;
  state.day = dayOf(state.moment);
  makeTimeBar();
  makeAltitudeBar();
  new ResizeObserver(drawTime).observe(parts.strip);
  new ResizeObserver(drawAltitude).observe(parts.column);
}

function makeTimeBar() {
  parts.strip = element("div", { class: "strip" });
  parts.slider = element("input", { type: "range", min: 0, step: 1, id: "moment", "aria-label": "Moment of the day",
    on: { input: () => setMoment(state.day + parts.slider.value * STEP, true), keydown: leaveDay } });
  parts.told = element("output", { for: "moment", id: "moment-told" });
  parts.play = button("▶ Play", play, { id: "play", "aria-pressed": "false" });
  parts.date = element("input", { type: "date", id: "day", "aria-label": "Day", on: { change: pickDay } });
  parts.alone = check("moment-alone", "only what is there at this moment", "isMomentAlone");
  byId("time").append(element("div", { class: "row" }, parts.play, button("‹ Day", () => turnDay(-1)), parts.date,
    button("Day ›", () => turnDay(1)), button("Now", () => setMoment(Math.floor(now() / STEP) * STEP, true)),
    parts.told, parts.alone.label), parts.strip, parts.slider);
}

function check(id, words, member) {
  const change = () => {
    state[member] = box.checked;
    changed("moment");
  };
  const box = element("input", { type: "checkbox", id, on: { change } });
  return { box, label: element("label", { class: "check" }, box, ` ${words}`) };
}

/** At an end of the bar an arrow key that points beyond it goes on in the day before, or in the next one. */
function leaveDay(event) {
  const second = state.moment + (ARROWS[event.key] ?? 0);
  if (second >= state.day && second < state.day + dayLength()) return;
  event.preventDefault();
  setMoment(second, true);
}

function dayLength() {
  return dayOf(state.day, 1) - state.day;
}

function setMoment(second, isAlone) {
  state.moment = second;
  if (second < state.day || second >= state.day + dayLength()) state.day = dayOf(second);
  state.isMomentAlone = state.isMomentAlone || isAlone;
  changed("moment");
}

function turnDay(days) {
  const since = state.moment - state.day;
  setMoment(dayOf(state.day, days) + Math.min(since, 86_400 - STEP), false);
}

function pickDay() {
  const [year, month, day] = parts.date.value.split("-").map(Number);
  if (year) setMoment(Math.round(new Date(year, month - 1, day).getTime() / 1000) + (state.moment - state.day), false);
}

/** Shows the day on which a flight begins, at its beginning. */
export function goToTime(second) {
  state.moment = Math.floor(second / STEP) * STEP;
  state.day = dayOf(second);
  changed("moment");
}

function play() {
  clearInterval(playing);
  const isPlaying = parts.play.getAttribute("aria-pressed") === "true";
  parts.play.setAttribute("aria-pressed", String(!isPlaying));
  parts.play.textContent = isPlaying ? "▶ Play" : "❚❚ Pause";
  playing = isPlaying ? 0 : setInterval(playOn, PLAY_MILLISECONDS);
}

function playOn() {
  const next = state.moment + STEP;
  setMoment(next < state.day + dayLength() ? next : state.day, true);
}

export function drawTime() {
  const length = dayLength();
  parts.slider.max = String(length / STEP - 1);
  parts.slider.value = String(Math.floor((state.moment - state.day) / STEP));
  parts.slider.setAttribute("aria-valuetext", momentOf(state.moment));
  parts.told.textContent = `${clockOf(state.moment)} here, ${utcOf(state.moment)}`;
  parts.date.value = dateOf(state.day);
  parts.alone.box.checked = state.isMomentAlone;
  drawStrip(parts.strip.clientWidth || 600, length);
}

function drawStrip(width, length) {
  const x = (second) => Math.round((second - state.day) / length * width * 10) / 10;
  const draft = draftAtWork();
  const bars = barsOf();
  const [lane, axis] = [LANE_LETTERS, AXIS_LETTERS].map((letters) => Math.round(letters * letter()));
  const lanes = Math.min(LANES, Math.max(1, ...bars.map((bar) => bar.lane + 1))) + (draft ? 1 : 0);
  const height = axis + lanes * lane + 2;
  redraw(parts.strip, drawn("svg", { width, height, viewBox: `0 0 ${width} ${height}`, role: "group",
    "aria-label": "Flights of the day" }, hours(width, height, axis, x),
  bars.map((bar) => drawBar(bar, x, axis + bar.lane * lane, lane - 2)),
  freeSpans(draft).map((span) => drawFree(span, x, axis + (lanes - 1) * lane, lane - 2)),
  draft && drawDraftBar(draft, x, axis + (lanes - 1) * lane, lane - 2), moment(height, x)));
}

/** The height of a letter in pixels. */
function letter() {
  return parseFloat(getComputedStyle(document.documentElement).fontSize);
}

function hours(width, height, axis, x) {
  const every = width < 26 * letter() ? 6 : width < 56 * letter() ? 3 : 1;
  return Array.from({ length: 24 / every }, (_, at) => at * every).map((hour) => {
    const at = x(hourOf(state.day, hour));
    return [drawn("line", { class: "hour", x1: at, x2: at, y1: axis - 4, y2: height }),
      drawn("text", { class: "axis", x: at + 2, y: axis - 5 }, `${String(hour).padStart(2, "0")}h`)];
  });
}

/** The plans of the day, each in the first lane in which it has room. */
function barsOf() {
  const ends = [];
  const bars = [];
  for (const plan of plansListed()) {
    for (const [start, end] of spansOf(plan)) {
      if (end <= state.day || start >= state.day + dayLength()) continue;
      const free = ends.findIndex((taken) => taken <= start);
      const lane = free < 0 ? ends.length : free;
      ends[lane] = end;
      bars.push({ plan, start, end, lane: Math.min(lane, LANES - 1) });
    }
  }
  return bars;
}

function spansOf(plan) {
  const spans = plan.volumes.map(({ start, end }) => [`${start} ${end}`, [start, end]]);
  return [...new Map(spans).values()];
}

function clipped(start, end, x) {
  const [from, to] = [Math.max(start, state.day), Math.min(end, state.day + dayLength())];
  return { x: x(from), width: Math.max(2, x(to) - x(from)) };
}

function drawBar({ plan, start, end }, x, y, height) {
  const { look, mark, words } = statusOf(plan);
  const box = { ...clipped(start, end, x), y: y + 1, height, rx: 2 };
  const told = `${nameOf(plan.id)}: ${words}, priority ${plan.priority}, ${spanOf(start, end).local}`;
  const place = { class: "bar-mark", x: box.x + 3, y: box.y + height - 1 };
  const chosen = plan.id === state.chosen ? " chosen" : "";
  return drawn("g", { class: `bar ${look}${chosen}`, on: { click: () => choose(plan.id) } },
    drawn("title", {}, told), drawn("rect", { ...box, fill: `url(#fill-${look})` }),
    box.width > 14 && drawn("text", place, `${mark}${plan.conflict ? "▲" : ""}`));
}

function moment(height, x) {
  const at = x(state.moment);
  return drawn("line", { class: "moment", x1: at, x2: at, y1: 0, y2: height });
}

// ---- the draft in time: dragged, or moved by the arrow keys, over the times at which it is free

function drawFree([start, end], x, y, height) {
  if (end <= state.day || start >= state.day + dayLength()) return null;
  return drawn("rect", { class: "free-span", ...clipped(start, end, x), y: y + 1, height },
    drawn("title", {}, `free: ${spanOf(start, end).local}`));
}

function drawDraftBar(draft, x, y, height) {
  const box = { ...clipped(draft.start, draft.end, x), y: y + 1, height, rx: 2 };
  if (draft.end <= state.day || draft.start >= state.day + dayLength()) return null;
  return drawn("g", { class: "bar draft chosen", id: "draft-bar", tabindex: 0, role: "slider",
    "aria-valuemin": state.day, "aria-valuemax": state.day + dayLength(), "aria-valuenow": draft.start,
    "aria-label": `Time of ${draft.name}: arrow keys move it`, "aria-valuetext": spanOf(draft.start, draft.end).local,
    on: { keydown: (event) => moveByKey(event, draft.id), pointerdown: (event) => dragBar(event, draft.id) } },
  drawn("title", {}, `${draft.name}: drag it to another time`),
  drawn("rect", { ...box, fill: "url(#fill-draft)" }));
}

function moveByKey(event, id) {
  const steps = { ...ARROWS, PageDown: -3600, PageUp: 3600 };
  if (!(event.key in steps)) return;
  event.preventDefault();
  moveDraft(id, steps[event.key] * (event.shiftKey ? 3 : 1));
}

/** Keeps the day of the bar that of the draft. */
export function followDraft(id) {
  const draft = state.drafts.get(id);
  if (draft.start >= state.day + dayLength() || draft.end <= state.day) goToTime(draft.start);
}

function dragBar(event, id) {
  event.preventDefault();
  const { start, end } = state.drafts.get(id);
  const scale = dayLength() / parts.strip.clientWidth;
  const move = (at) => {
    const by = Math.round((at.clientX - event.clientX) * scale / STEP) * STEP;
    if (start + by !== state.drafts.get(id).start) changeDraft(id, { start: start + by, end: end + by });
  };
  const stop = () => {
    removeEventListener("pointermove", move);
    removeEventListener("pointerup", stop);
    removeEventListener("pointercancel", stop);
  };
  addEventListener("pointermove", move);
  addEventListener("pointerup", stop);
  addEventListener("pointercancel", stop);
}

// ---- altitude

function makeAltitudeBar() {
  parts.column = element("div", { class: "column" });
  parts.height = element("input", { type: "range", id: "height", min: 0, max: LEAST_REACH, step: 5,
    "aria-label": "Altitude in metres", "aria-orientation": "vertical", on: { input: setAltitude } });
  parts.metres = element("output", { for: "height", id: "height-told" });
  parts.there = check("altitude-alone", "only there", "isAltitudeAlone");
  const upright = element("div", { class: "upright" }, parts.column, parts.height);
  byId("altitude").append(parts.metres, upright, parts.there.label);
}

function setAltitude() {
  state.altitude = Number(parts.height.value);
  state.isAltitudeAlone = true;
  changed("moment");
}

/** What the column shows: the volumes of the moment, or of all times, and the draft. */
function levels() {
  const isThen = (one) => !state.isMomentAlone || (one.start <= state.moment && state.moment < one.end);
  const found = plansListed().flatMap((plan) => plan.volumes.filter(isThen).slice(0, 1)
    .map(({ lower, upper }) => ({ id: plan.id, lower, upper, look: statusOf(plan).look, mark: statusOf(plan).mark })));
  const draft = draftAtWork();
  const { lower = null, upper = null } = state.covers.get(draft?.id)?.altitudes ?? {};
  if (lower === null || !isThen(draft)) return found;
  return [...found, { id: draft.id, lower, upper, look: "draft", mark: "✎" }];
}

export function drawAltitude() {
  const found = levels();
  const [bottom, top] = reachOf(found);
  if (!state.isAltitudeAlone) state.altitude = Math.min(top, Math.max(bottom, state.altitude));
  Object.assign(parts.height, { min: String(bottom), max: String(top), value: String(state.altitude) });
  parts.height.setAttribute("aria-valuetext", metresOf(state.altitude));
  parts.metres.textContent = metresOf(state.altitude);
  parts.there.box.checked = state.isAltitudeAlone;
  drawColumn(found, bottom, top, parts.column.clientWidth || 60, parts.column.clientHeight || 200);
}

/** The lowest and the highest altitude that the column shows, with some room beside what is there. */
function reachOf(found) {
  if (!found.length) return [0, LEAST_REACH];
  const bottom = Math.min(...found.map((one) => Math.floor((one.lower - ROOM) / 50) * 50));
  return [bottom, Math.max(bottom + LEAST_REACH, ...found.map((one) => Math.ceil((one.upper + ROOM) / 50) * 50))];
}

function drawColumn(found, bottom, top, width, height) {
  const y = (metres) => Math.round((top - metres) / (top - bottom) * height * 10) / 10;
  const tick = TICK_LETTERS * letter();
  const share = Math.min(20, (width - tick) / Math.max(1, found.length));
  redraw(parts.column, drawn("svg", { width, height, viewBox: `0 0 ${width} ${height}`, "aria-hidden": "true" },
    ticks(bottom, top, width, y), found.map((one, at) => drawLevel(one, tick + at * share, share, y)),
    drawn("line", { class: "moment", x1: 0, x2: width, y1: y(state.altitude), y2: y(state.altitude) })));
}

function ticks(bottom, top, width, y) {
  const step = TICKS.find((one) => (top - bottom) / one <= 7) ?? top - bottom;
  const found = [];
  for (let at = Math.ceil(bottom / step) * step; at < top; at += step) {
    found.push(drawn("line", { class: "hour", x1: 0, x2: width, y1: y(at), y2: y(at) }),
      drawn("text", { class: "axis", x: 0, y: y(at) - 2 }, String(at)));
  }
  return found;
}

function drawLevel({ id, lower, upper, look, mark }, x, width, y) {
  const box = { x, y: y(upper), width: Math.max(1, width - 1), height: Math.max(2, y(lower) - y(upper)) };
  const thin = width < 2.5 ? " thin" : "";
  return drawn("g", { class: `bar ${look}${id === state.chosen ? " chosen" : thin}`, on: { click: () => choose(id) } },
    drawn("title", {}, `${mark} ${nameOf(id)}: ${metresOf(lower)} to ${metresOf(upper)}`),
    drawn("rect", { ...box, fill: `url(#fill-${look})` }));
}
