// Drawing a flight: places are added by clicks, or by Enter at the middle of the map; dragged, put in between and taken
// back. The cells that it takes are drawn beneath.

import { drawnTold } from "./cover_told.js";
import { changeDraft, isWhole } from "./drafts.js";
import { button, byId, element, redraw } from "./elements.js";
import { layer, theMap } from "./map.js";
import { changed, draftAtWork, state } from "./state.js";
import { beside } from "./words.js";

const { L } = window;
const NEAR_PIXELS = 8;
const PART_DEGREES = 0.05;
const MOST_PARTS = 64;

let isDragging = false;

export function makeDrawing() {
  const map = theMap();
  map.on("click", (event) => state.drawing && addPlace(event.latlng));
  map.on("dblclick", () => state.drawing && endDrawing());
  byId("map").addEventListener("keydown", keyPressed);
}

function keyPressed(event) {
  if (!state.drawing || event.target !== byId("map")) return;
  const keys = { Enter: () => addPlace(theMap().getCenter()), Backspace: takeBack, Escape: endDrawing };
  if (!keys[event.key]) return;
  event.preventDefault();
  keys[event.key]();
}

export function startDrawing(id) {
  state.drawing = id;
  theMap().doubleClickZoom.disable();
  changed("drawing");
  byId("map").focus({ preventScroll: true });
}

export function endDrawing() {
  state.drawing = null;
  theMap().doubleClickZoom.enable();
  changed("drawing", "draft");
}

/** The place as it is kept: a tenth of a metre is a millionth of a degree. */
function keptPlace({ lat, lng }) {
  return [Number(lng.toFixed(6)), Number(lat.toFixed(6))];
}

function addPlace(latlng) {
  const draft = state.drafts.get(state.drawing);
  if (!draft) return endDrawing();
  const point = theMap().latLngToContainerPoint(latlng);
  const pointOf = (place) => theMap().latLngToContainerPoint([place[1], place[0]]);
  const isNear = (place) => place && pointOf(place).distanceTo(point) < NEAR_PIXELS;
  if (isNear(draft.places.at(-1))) return undefined;
  if (draft.kind === "polygon" && draft.places.length > 2 && isNear(draft.places[0])) return endDrawing();
  const places = draft.kind === "circle" ? [keptPlace(latlng)] : [...draft.places, keptPlace(latlng)];
  changeDraft(draft.id, { places });
  if (draft.kind === "circle") endDrawing();
  return undefined;
}

function takeBack() {
  const draft = state.drafts.get(state.drawing);
  changeDraft(draft.id, { places: draft.places.slice(0, -1) });
}

// ---- the bar above the map

export function drawBanner() {
  const draft = state.drafts.get(state.drawing);
  byId("drawing").hidden = byId("crosshair").hidden = !draft;
  byId("map").classList.toggle("drawing", Boolean(draft));
  if (!draft) return;
  const wanted = { polygon: "the corners", line: "the places of the line", circle: "the middle" }[draft.kind];
  const told = `Click ${wanted} on the map, or move the map under the cross by the arrow keys and press Enter. ` +
    `${drawnTold(draft)}`;
  redraw(byId("drawing"), element("span", {}, told),
  button("Add the cross", () => addPlace(theMap().getCenter())),
  button("Take back", takeBack, { disabled: draft.places.length === 0 }),
  button("Done", endDrawing));
}

// ---- the draft on the map

export function drawDraft() {
  if (isDragging) return;
  layer("draft").clearLayers();
  const draft = draftAtWork();
  const others = [...state.drafts.values()].filter((other) => other !== draft && !state.plans.has(other.id));
  others.forEach((other) => drawShape(other, "other"));
  if (!draft) return;
  drawCells(draft);
  drawShape(draft, "chosen");
  draft.places.forEach((place, number) => drawHandle(draft, number));
  if (draft.kind !== "circle") betweens(draft).forEach((number) => drawBetween(draft, number));
}

function drawCells(draft) {
  const cover = state.covers.get(draft.id);
  if (!cover?.rings) return;
  L.polygon(cover.rings.map((ring) => [ring]), { pane: "draft", className: "plan draft", interactive: false, weight: 1,
    fillColor: "url(#fill-draft)", fillOpacity: 1 }).addTo(layer("draft"));
}

function drawShape(draft, look) {
  shapeOf(draft, draft.places, look)?.addTo(layer("draft"));
}

function shapeOf(draft, places, look) {
  const options = { pane: "draft", className: `shape ${look}`, interactive: false, weight: 2.5, fill: false };
  const isCircle = draft.kind === "circle";
  if (places.length < (isCircle ? 1 : 2)) return null;
  if (isCircle) return L.circle(latlng(places[0]), { ...options, radius: draft.metres });
  const line = shortest(draft.kind === "polygon" && places.length > 2 ? [...places, places[0]] : places);
  return L.polyline(line, options);
}

function latlng([longitude, latitude]) {
  return [latitude, longitude];
}

/** The shortest lines between places, which are those that the cells cover. */
function shortest(places) {
  const found = [latlng(places[0])];
  for (let at = 1; at < places.length; at += 1) found.push(...between(places[at - 1], places[at]));
  return found;
}

function between(begin, end) {
  const far = Math.max(Math.abs(end[0] - begin[0]), Math.abs(end[1] - begin[1]));
  const parts = Math.min(MOST_PARTS, Math.ceil(far / PART_DEGREES) || 1);
  if (parts === 1) return [latlng(end)];
  const [first, last] = [vectorOf(begin), vectorOf(end)];
  const angle = Math.acos(Math.min(1, first.reduce((sum, part, at) => sum + part * last[at], 0)));
  const found = [];
  for (let part = 1; part < parts; part += 1) {
    const share = part / parts;
    const vector = first.map((one, at) => one * Math.sin((1 - share) * angle) + last[at] * Math.sin(share * angle));
    const [north, at] = placeOfVector(vector);
    found.push([north, beside(at, begin[0])]);
  }
  return [...found, latlng(end)];
}

function vectorOf([longitude, latitude]) {
  const [east, north] = [longitude * Math.PI / 180, latitude * Math.PI / 180];
  return [Math.cos(north) * Math.cos(east), Math.cos(north) * Math.sin(east), Math.sin(north)];
}

function placeOfVector([x, y, z]) {
  return [Math.atan2(z, Math.hypot(x, y)) * 180 / Math.PI, Math.atan2(y, x) * 180 / Math.PI];
}

// ---- handles

function handleIcon(look, words) {
  return L.divIcon({ className: `handle ${look}`, html: element("span", {}, words), iconSize: [22, 22] });
}

function drawHandle(draft, number) {
  const words = draft.kind === "circle" ? "+" : String(number + 1);
  const icon = handleIcon("place", words);
  const handle = L.marker(latlng(draft.places[number]), { draggable: true, keyboard: false, icon });
  handle.on("dragstart", () => { isDragging = true; });
  handle.on("drag", () => changeDraft(draft.id, { places: movedPlaces(draft, number, handle.getLatLng()) }));
  handle.on("dragend", () => { isDragging = false; changed("draft"); });
  handle.on("click", (event) => clicked(event, draft, number));
  handle.addTo(layer("draft"));
}

/** A click on the first place of a polygon that is being drawn ends it. */
function clicked(event, draft, number) {
  L.DomEvent.stopPropagation(event);
  if (state.drawing === draft.id && number === 0 && isWhole(draft)) endDrawing();
}

function movedPlaces(draft, number, at) {
  return state.drafts.get(draft.id).places.map((place, other) => (other === number ? keptPlace(at) : place));
}

/** The numbers of the places behind which one can be put in. */
function betweens(draft) {
  if (state.drawing === draft.id || draft.places.length < 2) return [];
  const isRing = draft.kind === "polygon" && draft.places.length > 2;
  return [...draft.places.keys()].slice(0, isRing ? undefined : -1);
}

function drawBetween(draft, number) {
  const [begin, end] = [draft.places[number], draft.places[(number + 1) % draft.places.length]];
  const middle = L.latLng((begin[1] + end[1]) / 2, (begin[0] + end[0]) / 2);
  const handle = L.marker(middle, { keyboard: false, icon: handleIcon("between", "+"), title: "Put a place in" });
  handle.on("click", (event) => {
    L.DomEvent.stopPropagation(event);
    changeDraft(draft.id, { places: draft.places.toSpliced(number + 1, 0, keptPlace(middle)) });
  });
  handle.addTo(layer("draft"));
}

export function isBeingDragged() {
  return isDragging;
}
