// The overview: how full the cluster is, its numbers, what needs attention, and the shares of roles. Outside the proof.
import {actions, confirm} from "./actions.js";
import {$, bar, button, keyed, make, say} from "./dom.js";
import {memberNotes} from "./members.js";
import {waiting} from "./model.js";
import {link} from "./lists.js";
import {mayOperate, view} from "./state.js";
import {byName, byRank, percent, plain, plural, short, some, visible} from "./text.js";

// ---- how full: what is used is the number; what is offered is told apart
export function drawMeters(c) {
  const names = [...c.total.keys()].sort(byRank);
  keyed($("meters"), names, n => n, () => {
    const e = make("div", "meter"), name = make("h3"), used = make("b"), track = make("div", "bar"), rows = make("dl");
    e.append(make("div", "top", name, make("span", "", used, make("small", "dim", " used"))), track, rows);
    e.parts = {name, used, track, rows};
    return e;
  }, (e, name) => {
    const total = c.total.get(name), used = c.used.get(name) || 0, offered = c.offered.get(name) || 0, apart = c.apart.get(name) || 0, p = e.parts;
    const of = n => total ? n / total : 0, free = Math.max(0, total - used - offered - apart);
    say(p.name, name);
    say(p.used, percent(of(used)));
    bar(p.track, of(used), c.whole ? of(offered) : 0);
    const rows = c.whole ? [["used", used], ["offered", offered], ["free", free], ...(apart ? [["inactive", apart]] : []), ["total", total]] : [["used or offered", used], ["total", total]];
    keyed(p.rows, rows, r => r[0], ([kind]) => make("div", kind.split(" ")[0], make("dt", "", kind), make("dd"), make("dd", "share")), (row, [kind, n]) => {
      say(row.children[1], short(n));
      say(row.children[2], kind === "total" ? "" : percent(of(n)));
    });
  });
  if (!names.length) keyed($("meters"), [" none"], n => n, () => make("p", "dim", "There are no agents."));
}
const isAway = a => a.state === "silent" || a.state === "no link";
export function drawNumbers(c) {
  const apart = c.agents.filter(a => !a.active).length, away = c.agents.filter(isAway).length, idle = waiting(c).length;
  const facts = [
    ["agents", c.agents.length, [apart ? `${plain(apart)} inactive` : "", away ? `${plain(away)} silent` : ""].filter(w => w).join(", ")],
    ["frameworks", c.frameworks.length, idle ? `${plain(idle)} ${idle === 1 ? "holds" : "hold"} nothing` : ""], ["tasks", c.tasks.length, ""], ["offers", c.offers.length, "outstanding"], ["filters", c.filters, "in force"],
  ];
  keyed($("numbers"), facts, f => f[0], ([name]) => {
    const e = make("div"), value = make("dd"), more = make("dd", "dim small");
    e.append(make("dt", "", name), value, more);
    e.parts = {value, more};
    return e;
  }, (e, [name, value, more]) => {
    say(e.parts.value, c.whole || name === "frameworks" ? plain(value) : "–");
    say(e.parts.more, more);
  });
  const counts = {agents: c.agents.length, frameworks: c.frameworks.length, tasks: c.tasks.length, offers: c.offers.length};
  for (const [name, n] of Object.entries(counts)) say($("n-" + name), c.whole ? plain(n) : "");
}

const greatest = {agents: 4096, frameworks: 1024, clients: 4096, weights: 4096, limits: 4096, filters: 65536, events: 4294967295};
function notesOf(c) {
  const notes = [];
  const silent = c.agents.filter(isAway).map(a => a.name);
  if (silent.length) notes.push({bad: true, text: `${plural(silent.length, "agent is", "agents are")} silent: ${some(silent)}. `, to: silent.length === 1 ? link("agents", silent[0]) : "#agents?silent", label: "Show"});
  const cut = c.frameworks.filter(f => f.link && !f.link.connected);
  if (cut.length) notes.push({text: `${plural(cut.length, "framework is", "frameworks are")} disconnected: ${some(cut.map(f => f.link.name || f.name))}. `, to: cut.length === 1 ? link("frameworks", cut[0].name) : "#frameworks?disconnected", label: "Show"});
  for (const node of c.nodes.values()) {
    const full = [...node.limit || []].filter(([name, most]) => node.consumed.get(name) && node.consumed.get(name) >= most);
    if (full.length) notes.push({text: `${visible(node.path)} has consumed its limit of ${full.map(([name]) => name).join(", ")}.`});
  }
  const apart = c.agents.filter(a => !a.active && !isAway(a)).map(a => a.name), idle = waiting(c).map(f => f.name);
  if (apart.length) notes.push({text: `${plural(apart.length, "agent is", "agents are")} inactive: ${some(apart)}. `, to: apart.length === 1 ? link("agents", apart[0]) : "#agents?inactive", label: "Show"});
  if (idle.length) notes.push({text: `${plural(idle.length, "framework holds", "frameworks hold")} nothing: ${some(idle)}. `, to: link("frameworks", idle[0]), label: "Why?", why: true});
  const clients = [...c.nodes.values()].filter(n => n.framework).length, {weights, limits, filters, events} = c;
  for (const [name, size] of Object.entries({agents: c.agents.length, frameworks: c.frameworks.length, clients, weights, limits, filters, events})) {
    if (size > .8 * greatest[name]) notes.push({bad: true, text: `${plain(size)} of ${plain(greatest[name])} ${name}: soon there is no room for more.`});
  }
  return notes;
}
export function drawNotes() {
  const notes = view.problem ? [{bad: true, text: view.problem}] : [];
  notes.push(...memberNotes());
  for (const text of [view.lacks, view.warning, view.restarts]) if (text) notes.push({text});
  if (view.cluster) notes.push(...notesOf(view.cluster));
  const refused = [...view.refusals].sort((a, b) => b[1] - a[1]);
  if (refused.length) notes.push({text: "Refused in the last minute: " + refused.slice(0, 4).map(([name, n]) => `${plain(n)} ${visible(name)}`).join(", ") + "."});
  const shown = notes.slice(0, 8);
  if (notes.length > 8) shown.push({text: `And ${plain(notes.length - 8)} more.`});
  $("notes").hidden = !shown.length;
  keyed($("notes"), shown, n => n.text, n => {
    const e = make("li", n.bad ? "bad" : "", n.text);
    if (n.to) {
      const a = make("a", "", n.label);
      a.href = n.to;
      e.append(a);
    }
    return e;
  });
}

// ---- shares and limits
const orders = {
  name: (a, b) => byName(a.name, b.name),
  share: (a, b) => b.share - a.share || orders.name(a, b),
  next: (a, b) => a.weighted - b.weighted || a.count - b.count || orders.name(a, b),
};
function treeRows(c) {
  const rows = [], order = orders[$("order").value], everything = c.nodes.size <= 60;
  const walk = nodes => {
    for (const node of [...nodes].sort((a, b) => !a.framework - !b.framework || order(a, b))) {
      if (node.children.length && !view.folds.has(node.path)) view.folds.set(node.path, everything);
      rows.push(node);
      if (view.folds.get(node.path)) walk(node.children);
    }
  };
  walk(c.roots);
  return rows;
}
export function drawTree() {
  const c = view.cluster;
  if (!c) return;
  $("tree").hidden = !c.roots.length;
  $("nobody").hidden = c.roots.length > 0;
  keyed($("tree").tBodies[0], treeRows(c), n => n.path, newTreeRow, (e, node) => updateTreeRow(e, node, c.whole));
}
function newTreeRow(node) {
  const e = make("tr", node.framework ? "framework" : "role"), p = e.parts = {};
  e.setAttribute("role", "row");
  p.open = button("", "open", () => { view.folds.set(node.path, !view.folds.get(node.path)); drawTree(); });
  p.leaf = make("i", "leaf");
  p.name = make(node.framework ? "a" : "span", "label");
  if (node.framework) p.name.href = link("frameworks", node.name);
  p.hue = node.depth || node.framework ? "" : make("i", "swatch hue" + node.hue);
  p.more = make("small");
  p.track = make("div", "bar");
  p.used = make("td", "n used");
  p.offered = make("td", "n offered");
  p.weighted = make("td", "n weighted");
  p.limits = make("ul", "limits");
  p.set = make("td", "act");
  const text = make("div", "text", p.name, " ", p.more), line = make("div", "in" + Math.min(5, node.depth), p.open, p.leaf, p.hue, text);
  p.limit = make("td", "limit");
  const name = make("th", "name", line);
  name.scope = "row";
  e.append(name, make("td", "part", p.track), p.used, p.offered, p.weighted, p.limit, p.set);
  [...e.cells].forEach((cell, k) => cell.setAttribute("role", k ? "cell" : "rowheader"));
  [p.used, p.offered, p.weighted].forEach((cell, k) => { cell.dataset.label = ["used", "offered", "by weight"][k]; });
  return e;
}
function updateTreeRow(e, node, whole) {
  const p = e.parts, folds = node.children.length > 0, opened = !!view.folds.get(node.path);
  const inside = node.children.filter(n => n.framework).length;
  p.open.hidden = !folds;
  p.leaf.hidden = folds;
  p.open.setAttribute("aria-expanded", opened);
  p.open.setAttribute("aria-label", (opened ? "Close " : "Open ") + visible(node.path));
  say(p.name, visible(node.framework?.link?.name || node.name));
  const words = [node.suppressed ? "suppressed" : "", node.weight !== 1 ? "weight " + plain(node.weight) : "", !opened && inside ? plural(inside, "framework") : ""];
  say(p.more, words.filter(w => w).join(", "));
  bar(p.track, node.usedPart, node.offeredPart);
  p.track.title = `${percent(node.share)} of the cluster's ${node.of || "resources"}, used and offered together; ${plural(node.count, "offer")} received`;
  const part = x => x ? percent(x) : "–";
  say(p.used, whole ? part(node.usedPart) : "");
  say(p.offered, whole ? part(node.offeredPart) : "");
  say(p.weighted, node.framework ? "" : part(node.weighted));
  drawLimits(p, node);
  const isSet = !node.framework && mayOperate();
  if (isSet && !p.set.firstChild) p.set.append(button("Set", "small", () => confirm(actions.policy(view.cluster.nodes.get(node.path) || node)), `Set weight and limit of ${visible(node.path)}`));
  if (!isSet) p.set.replaceChildren();
}
function drawLimits(p, node) {
  if (!node.limit) { p.limits.remove(); return; }
  if (!p.limits.parentNode) p.limit.append(p.limits);
  keyed(p.limits, [...node.limit], ([name]) => name, () => {
    const e = make("li"), track = make("div", "bar"), text = make("span");
    e.append(text, track);
    e.parts = {track, text};
    return e;
  }, (e, [name, most]) => {
    const consumed = node.consumed.get(name) || 0, full = consumed >= most && consumed > 0;
    e.parts.track.classList.toggle("over", full);
    bar(e.parts.track, most ? consumed / most : +full, 0);
    e.parts.text.className = full ? "full" : "";
    e.title = `${plain(consumed)} of ${plain(most)}`;
    say(e.parts.text, `${name} ${short(consumed)} of ${short(most)}` + (full ? ", full" : ""));
  });
}
export function startOverview() {
  $("order").onchange = drawTree;
  $("unfold").onclick = $("fold").onclick = e => {
    for (const node of view.cluster?.nodes.values() || []) view.folds.set(node.path, e.target.id === "unfold");
    drawTree();
  };
}
