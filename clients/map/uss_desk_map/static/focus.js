// The focus of the keyboard, which a button loses while it is disabled, and when it is taken off the page.

import { byId } from "./elements.js";

/** What had the focus last; null once its user has left it for nothing else. */
let focused = null;

addEventListener("focusin", ({ target }) => { focused = target; });
addEventListener("focusout", ({ target }) => queueMicrotask(() => {
  if (focused === target && target.isConnected && !target.disabled) focused = null;
}));

/** Gives the focus back if it was lost: to the same button, or to the heading of the chosen flight if there is none. */
export function giveFocusBack() {
  if (!focused || document.activeElement !== document.body) return;
  const same = focused.isConnected ? focused : focused.id && byId(focused.id);
  if (same?.disabled) return;
  (same || byId("chosen").querySelector("h2") || byId("side")).focus({ preventScroll: true });
}
