// The altitudes of a drawn flight: counted from the ground, the sea or the ellipsoid, and what they come to.

import { ABOVE } from "./drafts.js";
import { element } from "./elements.js";
import { choiceField, openMetresField, row } from "./fields.js";
import { state } from "./state.js";
import { metresOf } from "./words.js";

/** The rows of the form that have the altitudes. */
export function altitudeRows(id, fields) {
  const { has_sea: hasSea, limits } = state.setting;
  const choices = Object.entries(ABOVE).filter(([above]) => hasSea || above !== "sea");
  const from = `Ground here, m above ${hasSea ? ABOVE.sea : ABOVE.ellipsoid}`;
  const ground = openMetresField(id, fields, from, "ground", { min: limits.lowest });
  fields.push((draft) => { ground.querySelector("input").placeholder = groundKnown(draft); });
  return [
    row(choiceField(id, fields, "Altitudes above", "above", choices), ground),
    row(openMetresField(id, fields, "From, m", "lower", { min: limits.lowest }),
      openMetresField(id, fields, "To, m", "upper", { min: limits.lowest })),
  ];
}

/** The ground beneath a drawing as the program's tiles have it; empty if they have none. */
function groundKnown(draft) {
  const ground = state.covers.get(draft.id)?.altitudes?.ground;
  if (draft.ground !== null || !ground) return "";
  return [...new Set(ground.map((metres) => metres.toFixed(0)))].join(" to ");
}

/** What the altitudes of a drawing come to, and what is to be known of them. */
export function altitudesTold(cover) {
  const found = cover?.altitudes;
  if (!found) return [];
  return [
    found.lower !== null && element("p", { id: "above-ellipsoid" },
      `${metresOf(found.lower)} to ${metresOf(found.upper)} above the WGS84 ellipsoid, as the desk counts.`),
    found.warning && element("p", { class: "warning", id: "altitude-warning", role: "alert" }, `! ${found.warning}`),
  ];
}
