// Elements: data becomes text, never markup. Outside the proof.
export const $ = id => document.getElementById(id);
export function make(tag, as = "", ...inside) {
  const e = document.createElement(tag);
  if (as) e.className = as;
  e.append(...inside);
  return e;
}
export function button(text, as, press, label = "") {
  const e = make("button", as, text);
  e.type = "button";
  if (label) e.setAttribute("aria-label", label);
  e.onclick = press;
  return e;
}
export function say(e, text) { if (e.textContent !== text) e.textContent = text; }
// Shows two parts of a whole, what is used and what is offered.
export function bar(e, used, offered) {
  if (!e.firstChild) e.append(make("i"), make("i"));
  const first = Math.min(1, used), parts = [first, Math.min(1 - first, offered)];
  parts.forEach((part, k) => { e.children[k].style.width = (100 * part).toFixed(2) + "%"; });
}
// Makes a parent have one element for each item, in order. An element that exists is kept, with its focus.
export function keyed(parent, items, keyOf, made, update = () => {}) {
  const old = parent.byKey || new Map(), now = new Map();
  for (const item of items) now.set(keyOf(item), null);
  for (const [key, e] of old) if (!now.has(key)) e.remove();
  let at = parent.firstChild;
  for (const item of items) {
    const key = keyOf(item), e = old.get(key) || made(item);
    now.set(key, e);
    update(e, item);
    if (e === at) at = at.nextSibling; else parent.insertBefore(e, at);
  }
  parent.byKey = now;
}
// What draws on an empty canvas of so many pixels of the page.
export function brush(canvas, width, height) {
  const scale = devicePixelRatio || 1, g = canvas.getContext("2d");
  canvas.style.height = height + "px";
  canvas.width = Math.round(width * scale);
  canvas.height = Math.round(height * scale);
  g.setTransform(scale, 0, 0, scale, 0, 0);
  return g;
}
export const colour = name => getComputedStyle(document.documentElement).getPropertyValue(name).trim();
