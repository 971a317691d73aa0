// The map and its ground: a grid of degrees, cells of S2, and tiles if the administrator has some.

import { ask } from "./asking.js";
import { keep, kept } from "./drafts.js";
import { button, byId, element, settled } from "./elements.js";
import { state } from "./state.js";
import { east } from "./words.js";

const { L } = window;
const STEPS = [45, 30, 15, 10, 5, 2, 1, 0.5, 0.2, 0.1, 0.05, 0.02, 0.01, 0.005, 0.002, 0.001, 0.0005, 0.0002, 0.0001];
const LINE_PIXELS = 110;
const CELL_PIXELS = 100;
const MOST_CELLS_SHOWN = 170;
const FACE_METRES = 9.2e6;
const METRES_A_PIXEL = 156543;
const MOST_LATITUDE = 85;

const LAYERS = ["cells", "degrees", "plans", "draft", "reasons", "labels"];
/** Panes of the map, lowest first. */
const PANES = ["ground", "plans", "draft", "reasons"];

let map = null;
const layers = {};
let cellsAsked = null;

/** The map, with a layer for each kind of thing that is drawn on it. */
export function makeMap() {
  map = L.map("map", { zoomControl: true, minZoom: 1, maxZoom: 22, worldCopyJump: true, zoomSnap: 0.5,
    attributionControl: Boolean(state.setting.tiles) });
  const view = kept("view", { middle: [30, 0], zoom: 2 });
  map.setView(view.middle, view.zoom);
  if (state.setting.tiles) putTiles();
  PANES.forEach((name, at) => { map.createPane(name).style.zIndex = String(390 + at); });
  for (const name of LAYERS) layers[name] = L.layerGroup().addTo(map);
  map.on("moveend", settled(120, drawGround));
  map.on("moveend", () => keep("view", { middle: map.getCenter(), zoom: map.getZoom() }));
  new ResizeObserver(settled(100, () => map.invalidateSize())).observe(byId("map"));
  byId("map-frame").append(makeTools());
  drawGround();
  return map;
}

export function theMap() {
  return map;
}

export function layer(name) {
  return layers[name];
}

function putTiles() {
  const escaped = new Option(state.setting.attribution).innerHTML;
  map.attributionControl.setPrefix(false);
  L.tileLayer(state.setting.tiles, { attribution: escaped, maxZoom: 22, maxNativeZoom: 19 }).addTo(map);
}

// ---- the ground

function drawGround() {
  drawDegrees();
  if (kept("has_cells", true)) drawCells();
  else layers.cells.clearLayers();
}

function stepAt(pixelsADegree) {
  return [...STEPS].reverse().find((step) => step * pixelsADegree >= LINE_PIXELS) ?? STEPS[0];
}

function drawDegrees() {
  const bounds = map.getBounds().pad(0.1);
  const size = map.getSize();
  const inner = map.getBounds();
  const step = stepAt(size.x / (inner.getEast() - inner.getWest()));
  const digits = Math.max(0, -Math.floor(Math.log10(step) + 1e-9));
  layers.degrees.clearLayers();
  const [south, north] = [Math.max(bounds.getSouth(), -MOST_LATITUDE), Math.min(bounds.getNorth(), MOST_LATITUDE)];
  for (const longitude of ticks(bounds.getWest(), bounds.getEast(), step)) {
    degreeLine([[south, longitude], [north, longitude]]);
    degreeLabel([inner.getSouth(), longitude], `${east(longitude).toFixed(digits)}°`, "degree-below");
  }
  for (const latitude of ticks(south, north, step)) {
    degreeLine([[latitude, bounds.getWest()], [latitude, bounds.getEast()]]);
    degreeLabel([latitude, inner.getEast()], `${latitude.toFixed(digits)}°`, "degree-beside");
  }
}

function ticks(low, high, step) {
  const found = [];
  for (let at = Math.ceil(low / step); at * step <= high; at += 1) found.push(at * step);
  return found;
}

function degreeLine(line) {
  L.polyline(line, { className: "degree", pane: "ground", interactive: false, weight: 1 }).addTo(layers.degrees);
}

function degreeLabel(place, words, look) {
  const icon = L.divIcon({ className: `degree-label ${look}`, html: element("span", {}, words), iconSize: null });
  L.marker(place, { icon, interactive: false, keyboard: false }).addTo(layers.degrees);
}

function levelShown() {
  const size = map.getSize();
  const pixels = Math.max(CELL_PIXELS, Math.sqrt(size.x * size.y / MOST_CELLS_SHOWN));
  const latitude = Math.min(MOST_LATITUDE, Math.abs(map.getCenter().lat));
  const metres = pixels * METRES_A_PIXEL * Math.cos(latitude * Math.PI / 180) / 2 ** map.getZoom();
  return Math.min(30, Math.max(0, Math.round(Math.log2(FACE_METRES / metres))));
}

async function drawCells() {
  cellsAsked?.abort();
  cellsAsked = new AbortController();
  const bounds = map.getBounds();
  const [south, north] = [Math.max(bounds.getSouth(), -90), Math.min(bounds.getNorth(), 90)];
  const reach = { west: bounds.getWest(), east: bounds.getEast(), south, north, level: levelShown() };
  const told = await ask("ground", reach, cellsAsked.signal).catch(() => null);
  if (!told) return;
  layers.cells.clearLayers();
  L.polygon(told.rings.map((ring) => [ring]), { className: "cell-grid", pane: "ground", interactive: false, weight: 1,
    fill: false })
    .addTo(layers.cells);
}

// ---- moving

/** Shows places as large as they fit. */
export function showAll(places) {
  if (places.length) map.fitBounds(L.latLngBounds(places).pad(0.15), { maxZoom: 17, animate: false });
}

function makeTools() {
  const place = element("input", { id: "go-to", placeholder: "47.37, 8.54", size: 13, inputmode: "text",
    autocomplete: "off", "aria-label": "Go to latitude, longitude" });
  return element("form", { class: "tools", on: { submit: (event) => goTo(event, place) } },
    place, element("button", { type: "submit" }, "Go"),
    button("S2 cells", turnCells, { "aria-pressed": String(kept("has_cells", true)), id: "has-cells" }));
}

function goTo(event, input) {
  event.preventDefault();
  const [latitude, longitude] = input.value.split(/[\s,;]+/).map(Number);
  const isPlace = Math.abs(latitude) <= 90 && Math.abs(longitude) <= 180;
  input.setAttribute("aria-invalid", String(!isPlace));
  if (!isPlace) return;
  map.setView([latitude, longitude], Math.max(map.getZoom(), 13), { animate: false });
  byId("map").focus({ preventScroll: true });
}

function turnCells() {
  const hasCells = !kept("has_cells", true);
  keep("has_cells", hasCells);
  byId("has-cells").setAttribute("aria-pressed", String(hasCells));
  drawGround();
}
