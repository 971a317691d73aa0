// What blocks a draft: on the map and in words, by priority, cell by cell.

import { button, element } from "./elements.js";
import { stop } from "./finding.js";
import { layer, theMap } from "./map.js";
import { draftAtWork, state } from "./state.js";
import { counted, metresOf, momentOf, placeOf } from "./words.js";

const { L } = window;
const MOST_ROWS = 200;
const NUMBER_PIXELS = 24;

// ---- on the map

export function drawReasons() {
  layer("reasons").clearLayers();
  const reasons = state.reasons.get(draftAtWork()?.id);
  reasons?.blocked.forEach((one, number) => drawBlocked(one, number));
}

function drawBlocked({ ring, cell, conflict }, number) {
  const style = { className: "plan blocked", fillColor: "url(#fill-blocked)", fillOpacity: 1, weight: 1.5 };
  const told = `${number + 1}: priority ${conflict.priority}, from ${metresOf(conflict.altitude)}, ` +
    `${momentOf(conflict.second)} (cell ${cell})`;
  L.polygon(ring, { pane: "reasons", ...style }).bindTooltip(element("span", {}, told)).addTo(layer("reasons"));
  if (number > 0 && !hasRoom(ring)) return;
  drawMark(L.latLngBounds(ring).getCenter(), element("span", { class: "number" }, String(number + 1)));
  drawMark([conflict.latitude, conflict.longitude], element("span", { class: "first-point" }));
}

/** Whether a cell is drawn so large that its number has room. */
function hasRoom(ring) {
  const bounds = L.latLngBounds(ring);
  const [one, other] = [bounds.getNorthWest(), bounds.getSouthEast()].map((at) => theMap().latLngToContainerPoint(at));
  return Math.min(other.x - one.x, other.y - one.y) >= NUMBER_PIXELS;
}

function drawMark(place, html) {
  const icon = L.divIcon({ className: "label", html, iconSize: null });
  L.marker(place, { icon, interactive: false, keyboard: false }).addTo(layer("reasons"));
}

// ---- in words

/** What was asked of a draft, as elements. */
export function reasonsTold(id) {
  const reasons = state.reasons.get(id);
  return reasons && told(id, reasons);
}

function told(id, reasons) {
  return element("div", { class: "asked", id: "asked", "data-state": reasons.state },
    element("p", { class: `verdict ${reasons.state}`, role: "status" }, verdict(reasons)),
    reasons.state === "asking" && element("progress", { max: reasons.cells || 1, value: reasons.decided,
      "aria-label": "cells decided" }),
    reasons.state === "asking" && button("Stop asking", () => stop(id)),
    reasons.blocked.length > 0 && byPriority(reasons),
    reasons.blocked.length > 0 && table(reasons));
}

function verdict(reasons) {
  const cells = new Set(reasons.blocked.map((one) => one.cell)).size;
  const found = `${counted(cells, "cell")} blocked, ${reasons.decided} of ${reasons.cells} decided`;
  switch (reasons.state) {
    case "asking": return `Asking: ${found}.`;
    case "stopped": return `Stopped: ${found}; the others weren't asked.`;
    case "free": return `✓ Free: nothing blocks this flight at priority ${reasons.priority}.`;
    case "blocked":
      return `✕ Blocked in ${counted(cells, "cell")} of ${reasons.cells} at priority ${reasons.priority}.`;
    case "refused": return `✕ Refused (${reasons.answer.note}): ${reasons.answer.advice}.`;
    default: return `! ${reasons.told}.`;
  }
}

function byPriority({ blocked }) {
  const levels = [...new Set(blocked.map((one) => one.conflict.priority))].sort((one, other) => other - one);
  const words = levels.map((level) => {
    const count = blocked.filter((one) => one.conflict.priority === level).length;
    return `priority ${level} in ${counted(count, "cell")}`;
  });
  return element("p", {}, `Held there by others or by you: ${words.join(", ")}.`);
}

function table({ blocked }) {
  const rows = blocked.slice(0, MOST_ROWS).map(({ cell, conflict }, number) => element("tr", {},
    element("td", {}, String(number + 1)), element("td", {}, String(conflict.priority)),
    element("td", {}, metresOf(conflict.altitude)), element("td", {}, momentOf(conflict.second)),
    element("td", {}, placeOf(conflict.latitude, conflict.longitude)), element("td", {}, element("code", {}, cell))));
  const names = ["cell", "priority", "from", "time here (UTC)", "place", "token"];
  const head = element("thead", {}, element("tr", {}, ...names.map((name) => element("th", { scope: "col" }, name))));
  return element("details", { open: blocked.length <= 12 },
    element("summary", {}, "The first blocked point of each cell"),
    element("div", { class: "wide" }, element("table", {}, head, element("tbody", {}, ...rows))));
}
