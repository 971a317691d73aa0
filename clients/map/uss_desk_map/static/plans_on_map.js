// The operator's plans on the map: what each volume takes, a label with its status, and its conflict's point.

import { element } from "./elements.js";
import { layer, theMap } from "./map.js";
import { choose, isShown, nameOf, plansListed, state } from "./state.js";
import { beside, pointOf, statusOf } from "./words.js";

const { L } = window;
const NAME_PIXELS = 70;

export function drawPlans() {
  layer("plans").clearLayers();
  layer("labels").clearLayers();
  const plans = plansListed().sort((one, other) => (one.id === state.chosen) - (other.id === state.chosen));
  plans.forEach(drawPlan);
}

function drawPlan(plan) {
  const { look } = statusOf(plan);
  const shown = plan.volumes.filter(isShown);
  const isChosen = plan.id === state.chosen;
  const drawnOnce = new Set();
  for (const volume of shown) {
    const key = volume.cells.join() || JSON.stringify(volume.rings);
    if (drawnOnce.has(key)) continue;
    drawnOnce.add(key);
    const style = { className: `plan ${look}`, fillColor: `url(#fill-${look})`, weight: isChosen ? 3 : 1.5 };
    L.polygon(volume.rings.map((ring) => [ring]), { pane: "plans", fillOpacity: 1, ...style })
      .on("click", (event) => pick(event, plan.id)).addTo(layer("plans"));
  }
  if (!shown.length) return;
  label(plan, shown);
  if (plan.conflict) markConflict(plan);
}

function pick(event, id) {
  if (state.drawing) return;
  L.DomEvent.stopPropagation(event);
  choose(id);
}

function label(plan, volumes) {
  const { mark, look } = statusOf(plan);
  const bounds = L.latLngBounds(volumes.flatMap((volume) => volume.rings.flat()));
  const hasName = plan.id === state.chosen || isWide(bounds);
  const words = element("span", { class: `tag ${look}` }, element("b", {}, mark), hasName ? ` ${nameOf(plan.id)}` : "");
  const icon = L.divIcon({ className: "label", html: words, iconSize: null });
  L.marker(bounds.getCenter(), { icon, keyboard: false, interactive: false }).addTo(layer("labels"));
}

/** Whether a flight is drawn so large that its name has room. */
function isWide(bounds) {
  const [west, east] = [bounds.getSouthWest(), bounds.getSouthEast()].map((at) => theMap().latLngToContainerPoint(at));
  return east.x - west.x >= NAME_PIXELS;
}

function markConflict(plan) {
  const { latitude, longitude } = plan.conflict;
  const [first] = plan.volumes[0].rings;
  const words = element("span", { class: "conflict-mark", title: pointOf(plan.conflict) }, "▲");
  const icon = L.divIcon({ className: "label", html: words, iconSize: null });
  L.marker([latitude, beside(longitude, first[0][1])], { icon, keyboard: false }).on("click", (event) => pick(event, plan.id))
    .addTo(layer("labels"));
}

/** All places of a plan, to be shown. */
export function placesOf(plan) {
  return plan.volumes.flatMap((volume) => volume.rings.flat());
}
