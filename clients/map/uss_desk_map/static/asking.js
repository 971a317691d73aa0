// Requests to the program that serves this page, which asks the desk.

import { changed } from "./state.js";

const NO_PROGRAM = "The program that serves this page doesn't answer. Start uss_desk_map again and open the address " +
  "that it prints; what you drew is kept here.";
const STRANGER = "The program that serves this page was started anew: open the address that it has printed. What you " +
  "drew is kept here.";
const SECONDS_BETWEEN = 5;

/** Whether the desk answers: "asking", "yes", "no", or "no_program" if the program that serves this page doesn't. */
export const desk = { answers: "asking" };
let isWaiting = false;

/** Why nothing came of a request. */
export class Trouble extends Error {
  constructor(told) {
    super(told.text);
    Object.assign(this, told);
  }
}

export function isStop(why) {
  return why instanceof DOMException && why.name === "AbortError";
}

/** Asks a call, and returns its answer; a Trouble is thrown if nothing came of it. */
export async function ask(call, words = {}, signal = undefined) {
  const answer = await post(call, words, signal);
  const value = await valueOf(answer);
  if (!["cover", "ground"].includes(call)) tellDesk("yes");
  return value;
}

/** Asks a call that is answered step by step. */
export async function* askSteps(call, words, signal) {
  const answer = await post(call, words, signal);
  if (!answer.ok) await valueOf(answer);
  const reader = answer.body.pipeThrough(new TextDecoderStream()).getReader();
  for (let rest = ""; ;) {
    const { value, done } = await reader.read();
    if (done) return;
    const lines = (rest + value).split("\n");
    rest = lines.pop();
    for (const line of lines) yield stepOf(JSON.parse(line));
  }
}

function stepOf(step) {
  if (step.trouble) throw troubled(step.trouble);
  tellDesk("yes");
  return step;
}

async function post(call, words, signal) {
  try {
    const headers = { "content-type": "application/json" };
    return await fetch(`api/${call}`, { method: "POST", headers, body: JSON.stringify(words), signal });
  } catch (why) {
    if (isStop(why)) throw why;
    throw troubled({ kind: "no_program", word: "", text: NO_PROGRAM, may_stand: true });
  }
}

async function valueOf(answer) {
  if (answer.status === 403) throw troubled({ kind: "no_program", word: "", text: STRANGER, may_stand: false });
  const value = await answer.json().catch((why) => {
    if (isStop(why)) throw why;
    return null;
  });
  if (answer.ok && value) return value;
  throw troubled(value?.trouble ?? { kind: "program", word: "", may_stand: true,
    text: `the program that serves this page failed (${answer.status}): see what it has printed` });
}

function troubled(told) {
  if (told.kind === "no_answer") tellDesk("no");
  if (told.kind === "no_program") tellDesk("no_program");
  return new Trouble(told);
}

function tellDesk(answers) {
  if (desk.answers === answers) return;
  desk.answers = answers;
  changed("desk");
  if (answers !== "yes") waitForDesk();
}

/** Asks each few seconds whether the desk is there again. */
async function waitForDesk() {
  if (isWaiting) return;
  isWaiting = true;
  while (desk.answers !== "yes") {
    await new Promise((resolve) => setTimeout(resolve, SECONDS_BETWEEN * 1000));
    await ask("status").catch(() => null);
  }
  isWaiting = false;
}
