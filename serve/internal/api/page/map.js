// The map of agents: how much of each is used and offered, and which role has most of it. Outside the proof.
import {$, brush, colour, keyed, make, say} from "./dom.js";
import {link, stateText} from "./lists.js";
import {view} from "./state.js";
import {percent, plain, plural, visible} from "./text.js";

let layout = null;
// The part of an agent that is used, and the part that is offered: of one resource, or of the one that is held most.
function partsOf(a, measure) {
  let best = {used: 0, offered: 0, all: 0};
  for (const [name, total] of measure ? [[measure, a.total.get(measure) || 0]] : a.scalars) {
    if (!total) continue;
    const used = (a.used.get(name) || 0) / total, offered = (a.offered.get(name) || 0) / total;
    if (used + offered >= best.all) best = {used, offered, all: used + offered};
  }
  return best;
}
const greatest = map => { let best = "", most = 0; for (const [role, part] of map) if (part > most) { best = role; most = part; } return best; };
function layoutOf(count, width) {
  const labelled = Math.max(1, Math.floor((width + 10) / 112));
  if (Math.ceil(count / labelled) * 38 <= 420) return {columns: labelled, w: (width + 10) / labelled - 10, h: 29, gapX: 10, gapY: 9, labelled: true};
  for (let size = 26; ; size--) {
    const gap = size > 12 ? 3 : size > 7 ? 2 : 1, columns = Math.max(1, Math.floor((width + gap) / (size + gap)));
    if (size <= 5 || Math.ceil(count / columns) * (size + gap) <= 400) return {columns, w: size, h: size, gapX: gap, gapY: gap, labelled: false};
  }
}
export function drawMap() {
  const c = view.cluster, canvas = $("map");
  $("map-card").hidden = !c || !c.agents.length;
  const width = canvas.clientWidth;
  if (!c || !width) return;
  const l = layout = layoutOf(c.agents.length, width), rows = Math.ceil(c.agents.length / l.columns);
  const g = brush(canvas, width, Math.max(4, rows * (l.h + l.gapY) - l.gapY));
  const look = {track: colour("--track"), ink: colour("--ink"), dim: colour("--dim"), warn: colour("--warn"), bad: colour("--bad"), line: colour("--card"), hues: [...Array(8)].map((_, k) => colour("--hue" + k))};
  look.stripes = look.hues.map(hue => stripes(g, hue));
  const chosen = c.agents.findIndex(a => a.name === view.agent), measure = $("measure").value;
  c.agents.forEach((a, k) => {
    const x = (k % l.columns) * (l.w + l.gapX), y = Math.floor(k / l.columns) * (l.h + l.gapY);
    drawAgent(g, l, look, c, a, partsOf(a, measure), x, y, k === chosen);
  });
  drawLegend(c, measure);
  drawChosen(c.agents[chosen]);
}
const hueOf = (c, role) => c.hues.get(role) ?? 7;
function drawAgent(g, l, look, c, a, part, x, y, chosen) {
  const top = l.labelled ? y + 18 : y, h = l.labelled ? 11 : l.h;
  g.fillStyle = look.track;
  g.fillRect(x, top, l.w, h);
  const fill = (style, from, to) => {
    g.fillStyle = style;
    if (l.labelled) g.fillRect(x + from * l.w, top, (to - from) * l.w, h); else g.fillRect(x, top + h - to * h, l.w, (to - from) * h);
  };
  if (part.offered) fill(look.stripes[hueOf(c, greatest(a.offerees))], part.used, Math.min(1, part.all));
  if (part.used) fill(look.hues[hueOf(c, greatest(a.users))], 0, part.used);
  const away = a.state === "silent" || a.state === "no link", mark = away ? look.bad : look.warn;
  if (l.labelled) {
    g.font = "12.5px system-ui, sans-serif";
    g.textBaseline = "top";
    g.fillStyle = away ? look.bad : a.active ? look.ink : look.warn;
    g.fillText(fitted(g, away || !a.active ? `${a.name} ${a.state}` : a.name, l.w), x, y + 2);
  }
  if (!a.active || away) {
    g.strokeStyle = mark;
    g.lineWidth = l.w > 10 ? 1.5 : 1;
    g.beginPath(); g.moveTo(x, top + h); g.lineTo(x + Math.min(l.w, h), top); g.stroke();
    g.strokeRect(x + .75, top + .75, l.w - 1.5, h - 1.5);
  }
  if (chosen) {
    g.strokeStyle = look.ink;
    g.lineWidth = 2;
    g.strokeRect(x + 1, top + 1, l.w - 2, h - 2);
  }
}
// Stripes in a role's colour, so that what is offered is not told by a colour alone.
function stripes(g, hue) {
  const tile = document.createElement("canvas"), t = tile.getContext("2d");
  tile.width = tile.height = 4;
  t.globalAlpha = .38;
  t.fillStyle = hue;
  t.fillRect(0, 0, 4, 4);
  t.globalAlpha = .8;
  for (let k = 0; k < 4; k++) t.fillRect(k, 3 - k, 1, 1);
  return g.createPattern(tile, "repeat");
}
function fitted(g, text, width) {
  if (g.measureText(text).width <= width) return text;
  let n = text.length;
  while (n > 1 && g.measureText(text.slice(0, n) + "…").width > width) n--;
  return text.slice(0, n) + "…";
}
// In words what the map shows: states, and of each role on how many agents it has most.
function drawLegend(c, measure) {
  const full = c.agents.filter(a => partsOf(a, measure).used > .95).length, offered = c.agents.filter(a => { const p = partsOf(a, measure); return p.offered > 0 && p.all > .95; }).length;
  const apart = c.agents.filter(a => !a.active).length, away = c.agents.filter(a => a.state === "silent" || a.state === "no link").length;
  const words = [`${plain(full)} fully used`, `${plain(offered)} with the rest offered`, apart ? `${plain(apart)} inactive` : "", away ? `${plain(away)} silent` : ""].filter(w => w).join(", ");
  say($("map-text"), `${plural(c.agents.length, "agent")}: ${words}.`);
  $("map").setAttribute("aria-label", `Map of ${plural(c.agents.length, "agent")}: ${words}`);
  const uses = new Map(), offers = new Map(), count = (map, role) => { if (role) map.set(role, (map.get(role) || 0) + 1); };
  for (const a of c.agents) { count(uses, greatest(a.users)); count(offers, greatest(a.offerees)); }
  const all = c.roots.filter(node => uses.has(node.path) || offers.has(node.path)), roles = all.slice(0, 8);
  say($("map-more"), all.length > roles.length ? `and ${plural(all.length - roles.length, "more role")}, in the same colours again` : "");
  keyed($("map-roles"), roles, node => node.path + node.hue, node => make("li", "", make("i", "swatch hue" + node.hue), make("span", "", visible(node.path)), make("span", "dim")), (e, node) => {
    say(e.children[2], [uses.get(node.path) ? `${plain(uses.get(node.path))} used` : "", offers.get(node.path) ? `${plain(offers.get(node.path))} offered` : ""].filter(w => w).join(", "));
  });
}
function drawChosen(a) {
  const box = $("picked");
  if (!a) { say(box, "Choose an agent on the map to see it."); box.key = ""; return; }
  if (box.key !== a.name) {
    box.key = a.name;
    const to = make("a", "", visible(a.name));
    to.href = link("agents", a.name);
    box.replaceChildren(to, make("span"));
  }
  const used = [...a.scalars.keys()].map(name => `${name} ${percent((a.used.get(name) || 0) / (a.scalars.get(name) || 1))} used`).slice(0, 3);
  say(box.lastChild, `: ${[stateText(a), ...used, plural(a.tasks.length, "task"), plural(a.offers.length, "offer")].join(", ")}`);
}
function choose(k) {
  const agents = view.cluster?.agents || [];
  if (!agents.length) return;
  view.agent = agents[Math.max(0, Math.min(agents.length - 1, k))].name;
  drawMap();
}
const at = e => {
  const l = layout, column = Math.floor(e.offsetX / (l.w + l.gapX)), k = Math.floor(e.offsetY / (l.h + l.gapY)) * l.columns + column;
  return column < l.columns && k < view.cluster.agents.length ? k : -1;
};
export function startMap() {
  $("measure").onchange = drawMap;
  $("map").onclick = e => { const k = at(e); if (k >= 0) { choose(k); location.hash = link("agents", view.agent).slice(1); } };
  $("map").onmousemove = e => { const k = layout ? at(e) : -1, name = k >= 0 ? view.cluster.agents[k].name : ""; if ($("map").title !== name) $("map").title = name; };
  $("map").onkeydown = e => {
    const agents = view.cluster?.agents || [], k = agents.findIndex(a => a.name === view.agent), columns = layout?.columns || 1;
    if (e.key === "Enter" && k >= 0) { location.hash = link("agents", view.agent).slice(1); return; }
    const to = {ArrowRight: k + 1, ArrowLeft: k - 1, ArrowDown: k < 0 ? 0 : k + columns, ArrowUp: k - columns, Home: 0, End: agents.length - 1}[e.key];
    if (to === undefined) return;
    e.preventDefault();
    if (to >= 0 && to < agents.length || k < 0) choose(to);
  };
}
