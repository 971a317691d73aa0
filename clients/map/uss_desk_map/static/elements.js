// Elements of the page, made without any text that is read as HTML.

const SVG = "http://www.w3.org/2000/svg";

/** What an element does at which event. It may be put anew, as an element that stays is given another's. */
const doings = new WeakMap();

function run(event) {
  doings.get(event.currentTarget)?.[event.type]?.(event);
}

function put(made, properties, children) {
  for (const [name, value] of Object.entries(properties)) {
    if (name === "on") {
      doings.set(made, value);
      for (const event of Object.keys(value)) made.addEventListener(event, run);
    } else if (name === "value") {
      made.value = value;
    } else if (value === true) {
      made.setAttribute(name, "");
    } else if (value !== false && value !== null && value !== undefined) {
      made.setAttribute(name, String(value));
    }
  }
  made.append(...childrenIn(children));
  return made;
}

function childrenIn(children) {
  return children.flat(Infinity).filter((child) => child !== null && child !== undefined && child !== false);
}

/** An element of HTML. `on` has what runs at which event; a property that is true is an attribute without a value. */
export function element(name, properties = {}, ...children) {
  return put(document.createElement(name), properties, children);
}

/** An element of SVG. */
export function drawn(name, properties = {}, ...children) {
  return put(document.createElementNS(SVG, name), properties, children);
}

export function byId(id) {
  return document.getElementById(id);
}

// ---- drawing anew

/** Puts children in place of those that an element has. What is alike stays, with the focus and a press under way. */
export function redraw(parent, ...children) {
  const wanted = childrenIn(children).map((child) => (child instanceof Node ? child : document.createTextNode(child)));
  wanted.forEach((child, at) => {
    const had = parent.childNodes[at];
    if (!had) parent.append(child);
    else if (isAlike(had, child)) become(had, child);
    else had.replaceWith(child);
  });
  while (parent.childNodes.length > wanted.length) parent.lastChild.remove();
}

function isAlike(had, wanted) {
  return had.nodeName === wanted.nodeName && keyOf(had) === keyOf(wanted) && had.type === wanted.type;
}

function keyOf(node) {
  return node.nodeType === Node.ELEMENT_NODE ? node.id || node.getAttribute("data-key") : null;
}

/** Makes an element what another is, which isn't in the page. */
function become(had, wanted) {
  if (had.nodeType !== Node.ELEMENT_NODE) {
    if (had.data !== wanted.data) had.data = wanted.data;
    return;
  }
  takeAttributes(had, wanted);
  takeDoings(had, wanted);
  if (had.nodeName === "INPUT" && had !== document.activeElement) {
    Object.assign(had, { value: wanted.value, checked: wanted.checked });
  }
  redraw(had, ...wanted.childNodes);
}

/** The attributes of another element, but for whether details are open, which its reader decides. */
function takeAttributes(had, wanted) {
  const names = new Set([...had.getAttributeNames(), ...wanted.getAttributeNames()]);
  for (const name of names) {
    const value = wanted.getAttribute(name);
    if (name === "open" && had.nodeName === "DETAILS") continue;
    if (value === null) had.removeAttribute(name);
    else if (had.getAttribute(name) !== value) had.setAttribute(name, value);
  }
}

function takeDoings(had, wanted) {
  const [old, now] = [doings.get(had) ?? {}, doings.get(wanted) ?? {}];
  doings.set(had, now);
  for (const event of Object.keys(now)) if (!(event in old)) had.addEventListener(event, run);
}

/** A button with the words that it has, and what it does. */
export function button(words, act, properties = {}) {
  return element("button", { type: "button", on: { click: act }, "data-key": words, ...properties }, words);
}

/** Runs something once nothing has asked for it for so many milliseconds. */
export function settled(milliseconds, act) {
  let timer = 0;
  return (...words) => {
    clearTimeout(timer);
    timer = setTimeout(() => act(...words), milliseconds);
  };
}
