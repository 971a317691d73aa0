// What was done, refused and found, in words. What is about the chosen flight stands in its card, beneath the button
// that was pressed; the rest stands in a list, newest first. Each message is read out, and stays until it is taken away.

import { button, byId, element } from "./elements.js";
import { changed, listen, state } from "./state.js";
import { clockOf, now } from "./words.js";

const MOST = 30;
const MARKS = { done: "✓", refused: "✕", trouble: "!", note: "i" };
/** The place of messages about the list of flights, which stand beneath its buttons. */
export const LIST = "list";

let count = 0;
const boxes = new Map();

/**
 * Says something. `look` is done, refused, trouble or note; `doing` has words of buttons and what they do; `about` is the
 * id of a flight, or LIST, if a button of it was pressed, and `isOfForm` whether that is in the form of its drawing.
 */
export function say(look, words, doing = {}, about = null, isOfForm = false) {
  count += 1;
  const message = { number: count, look, words, doing, about, isOfForm, second: now() };
  state.messages = [message, ...state.messages].slice(0, MOST);
  readOut(look === "refused" || look === "trouble" ? "spoken-at-once" : "spoken", words);
  changed("messages");
}

/** A paragraph that is put into a live region is read out, also if its words are those of the one before. */
function readOut(region, words) {
  byId(region).replaceChildren(element("p", {}, words));
}

function takeAway(message) {
  state.messages = state.messages.filter((other) => other !== message);
  changed("messages");
}

function boxOf(message) {
  const { number, look, words, doing, second } = message;
  const buttons = Object.entries(doing).map(([name, run]) => button(name, () => {
    takeAway(message);
    run();
  }));
  return element("div", { class: `message ${look}${message.isSeen ? " seen" : ""}`, "data-key": number },
    element("span", { class: "mark", "aria-hidden": "true" }, MARKS[look]),
    element("p", {}, element("time", {}, clockOf(second)), ` ${words} `, ...buttons),
    button("×", () => takeAway(message), { "aria-label": "Take this message away", class: "plain" }));
}

/** The newest message about a flight, or about LIST. */
export function newestAbout(about) {
  return state.messages.find((message) => message.about === about);
}

/** The newest message about a flight, or about LIST, to be put beneath the buttons; nothing if there is none. */
export function saidAbout(about) {
  const message = newestAbout(about);
  if (message) message.isSeen = true;
  return element("div", { class: "said" }, message && boxOf(message));
}

/** Draws the messages that stand nowhere else. Boxes that stay keep the focus. */
function drawMessages() {
  const elsewhere = [newestAbout(state.chosen ?? ""), newestAbout(LIST)];
  const listed = state.messages.filter((message) => !elsewhere.includes(message));
  const numbers = new Set(listed.map((message) => message.number));
  for (const [number, box] of boxes) {
    if (numbers.has(number)) continue;
    box.remove();
    boxes.delete(number);
  }
  listed.forEach((message, at) => {
    const box = boxes.get(message.number) ?? boxOf(message);
    boxes.set(message.number, box);
    const there = byId("messages").children[at];
    if (there !== box) byId("messages").insertBefore(box, there ?? null);
  });
}

/** Asks a question, and resolves to whether the answer is yes. */
export function sure(told, yes) {
  const dialog = byId("question");
  return new Promise((resolve) => {
    const end = (isYes) => {
      dialog.close();
      resolve(isYes);
    };
    dialog.replaceChildren(element("p", { id: "question-told" }, told),
      element("div", { class: "buttons" }, button(yes, () => end(true), { class: "danger" }),
        button("No", () => end(false), { autofocus: true })));
    dialog.oncancel = () => resolve(false);
    dialog.showModal();
  });
}

listen(["messages", "chosen"], drawMessages);
