// How times, lengths and states are told. Each time is local, with UTC beside it.

export const STATUSES = {
  Planned: { mark: "P", words: "planned", look: "planned" },
  OkToFly: { mark: "F", words: "in use", look: "in-use" },
  OffNominal: { mark: "!", words: "off-nominal", look: "off" },
  Contingent: { mark: "‼", words: "contingent", look: "off" },
  Closed: { mark: "×", words: "closed", look: "closed" },
};
export const DRAFT = { mark: "✎", words: "drawn, not planned", look: "draft" };

/** The mark, words and look of a plan's status. */
export function statusOf(plan) {
  const status = plan.aircraft === "Contingent" && plan.status === "OffNominal" ? "Contingent" : plan.status;
  return STATUSES[status] ?? { mark: "?", words: status, look: "closed" };
}

function two(number) {
  return String(number).padStart(2, "0");
}

export function dateOf(second) {
  const at = new Date(second * 1000);
  return `${at.getFullYear()}-${two(at.getMonth() + 1)}-${two(at.getDate())}`;
}

export function clockOf(second) {
  const at = new Date(second * 1000);
  const seconds = at.getSeconds() ? `:${two(at.getSeconds())}` : "";
  return `${two(at.getHours())}:${two(at.getMinutes())}${seconds}`;
}

/** The time in UTC, with its date if that isn't the local one. */
export function utcOf(second) {
  const at = new Date(second * 1000);
  const seconds = at.getUTCSeconds() ? `:${two(at.getUTCSeconds())}` : "";
  const clock = `${two(at.getUTCHours())}:${two(at.getUTCMinutes())}${seconds}Z`;
  const date = at.toISOString().slice(0, 10);
  return date === dateOf(second) ? clock : `${date} ${clock}`;
}

/** A moment: date and clock here, and UTC. */
export function momentOf(second) {
  return `${dateOf(second)} ${clockOf(second)} (${utcOf(second)})`;
}

/** From one moment to another: the local words, and those of UTC. */
export function spanOf(start, end) {
  const isOneDay = dateOf(start) === dateOf(end);
  return {
    local: `${dateOf(start)} ${clockOf(start)} to ${isOneDay ? "" : `${dateOf(end)} `}${clockOf(end)}`,
    utc: `${utcOf(start)} to ${utcOf(end)}`,
  };
}

/** What an input of a date and a time has for a moment, and back: NaN if it is empty. */
export function inputOf(second) {
  return `${dateOf(second)}T${clockOf(second).slice(0, 5)}`;
}

export function secondOf(input) {
  return Math.round(new Date(input).getTime() / 1000);
}

/** The second at which the local day of a moment begins; with `days` that of a later or earlier day. */
export function dayOf(second, days = 0) {
  const at = new Date(second * 1000);
  return Math.round(new Date(at.getFullYear(), at.getMonth(), at.getDate() + days).getTime() / 1000);
}

/** The second at which an hour of a local day begins. */
export function hourOf(day, hour) {
  const at = new Date(day * 1000);
  return Math.round(new Date(at.getFullYear(), at.getMonth(), at.getDate(), hour).getTime() / 1000);
}

export function now() {
  return Math.floor(Date.now() / 1000);
}

export function metresOf(metres) {
  return `${Number(metres.toFixed(1)).toLocaleString("en")} m`;
}

export function sizeOf(squareMetres) {
  if (squareMetres < 1e5) return `${Math.round(squareMetres).toLocaleString("en")} m²`;
  return `${Number((squareMetres / 1e6).toPrecision(3)).toLocaleString("en", { maximumFractionDigits: 3 })} km²`;
}

/** A longitude turned by whole rounds, so that it is as near to another one as it can be. */
export function beside(longitude, other) {
  return longitude + 360 * Math.round((other - longitude) / 360);
}

/** Rings of latitudes and longitudes, all turned as the first place of the first one is to be near to a longitude. */
export function ringsBeside(rings, longitude) {
  const turned = rings.length ? beside(rings[0][0][1], longitude) - rings[0][0][1] : 0;
  return turned ? rings.map((ring) => ring.map(([north, at]) => [north, at + turned])) : rings;
}

/** A longitude between -180 and 180. */
export function east(longitude) {
  return Math.abs(longitude) <= 180 ? longitude : ((((longitude + 180) % 360) + 360) % 360) - 180;
}

export function placeOf(latitude, longitude) {
  return `${latitude.toFixed(6)}, ${east(longitude).toFixed(6)}`;
}

/** A conflict's point in words. */
export function pointOf(conflict) {
  return `priority ${conflict.priority} at ${placeOf(conflict.latitude, conflict.longitude)}, ` +
    `${metresOf(conflict.altitude)}, ${momentOf(conflict.second)}`;
}

export function counted(number, one, many = `${one}s`) {
  return `${number.toLocaleString("en")} ${number === 1 ? one : many}`;
}
