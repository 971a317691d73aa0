// Fields of the form of a drawn flight: each shows a member of the draft, and changes it.

import { changeDraft } from "./drafts.js";
import { element } from "./elements.js";
import { state } from "./state.js";
import { inputOf, momentOf, secondOf } from "./words.js";

export function row(...parts) {
  return element("div", { class: "row" }, ...parts);
}

function alone(member, value) {
  return { [member]: value };
}

/** A field of a draft; `fields` gets what fills it anew. What can't be read is marked, and the draft stays as it was. */
export function field(id, fields, words, member, type, { read = String, show = String, members = alone, ...more } = {}) {
  const input = element("input", { type, id: `draft-${member}`, autocomplete: "off", ...more, on: { input: () => {
    const value = input.validity.badInput ? NaN : read(input.value);
    const isRead = typeof value === "string" || value === null || Number.isFinite(value);
    input.setAttribute("aria-invalid", String(!isRead));
    if (isRead) changeDraft(id, members(member, value, state.drafts.get(id)));
  } } });
  fields.push((draft) => {
    const value = show(draft[member]);
    if (input !== document.activeElement && input.value !== value) {
      input.value = value;
      input.removeAttribute("aria-invalid");
    }
  });
  return element("label", {}, element("span", {}, words), input);
}

/** A field of a whole number. */
export function wholeField(id, fields, words, member, more) {
  const read = (input) => (/^\d+$/.test(input) ? Number(input) : NaN);
  return field(id, fields, words, member, "number", { step: 1, read, ...more });
}

/** A field of metres, which may not be empty. */
export function metresField(id, fields, words, member, more) {
  const read = (input) => (input.trim() === "" ? NaN : Number(input));
  return field(id, fields, words, member, "number", { max: state.setting.limits.highest, step: "any", read, ...more });
}

/** A field of metres that may be empty: null then. */
export function openMetresField(id, fields, words, member, more) {
  const read = (input) => (input.trim() === "" ? null : Number(input));
  const show = (value) => (value === null ? "" : String(value));
  return metresField(id, fields, words, member, { read, show, ...more });
}

/** A start that is typed moves the end with it. */
function withEnd(_, start, draft) {
  return { start, end: start + draft.end - draft.start };
}

/** A field of a moment in local time, with UTC beneath. */
export function timeField(id, fields, words, member) {
  const utc = element("small", {});
  fields.push((draft) => { utc.textContent = `UTC ${momentOf(draft[member]).split("(")[1].slice(0, -1)}`; });
  const label = field(id, fields, words, member, "datetime-local",
    { read: secondOf, show: inputOf, members: member === "start" ? withEnd : alone });
  label.append(utc);
  return label;
}

/** A choice of a draft: pairs of a value and its words. */
export function choiceField(id, fields, words, member, choices, read = String) {
  const change = () => changeDraft(id, { [member]: read(select.value) });
  const select = element("select", { id: `draft-${member}`, on: { change } },
    ...choices.map(([value, shown]) => element("option", { value }, shown)));
  fields.push((draft) => { select.value = String(draft[member]); });
  return element("label", {}, element("span", {}, words), select);
}
