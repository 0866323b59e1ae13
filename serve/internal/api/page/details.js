// One agent, or one framework: what it has, what is on it, and what may be done. Outside the proof.
import {actionButton, actions} from "./actions.js";
import {$, bar, button, keyed, make, say} from "./dom.js";
import {anchor, drawState, frameworkState, offerList, now, stateTitle, taskList, titleOf} from "./lists.js";
import {silentSince} from "./model.js";
import {mayAgent, mayFramework, mayOperate, view} from "./state.js";
import {bundle, byRank, cut, moment, percent, plain, plural, visible} from "./text.js";
import {explain} from "./why.js";

// A panel beside a list. It is built once, and drawn again with each state.
class Panel {
  constructor(id, without, close) {
    this.root = $(id);
    this.title = make("h2");
    this.title.tabIndex = -1;
    this.title.id = id + "-title";
    this.state = make("span");
    this.facts = make("dl", "facts-list");
    this.acts = make("div", "acts");
    this.tasks = taskList({without, isSmall: true, size: 12});
    this.offers = offerList({without, isSmall: true, size: 12});
    this.taskTitle = make("h3");
    this.offerTitle = make("h3");
    this.extra = make("div", "extra");
    this.root.setAttribute("aria-labelledby", this.title.id);
    const head = make("div", "head", this.title, this.state, button("Close", "plain", close));
    this.root.append(head, this.acts, this.facts, this.extra, this.taskTitle, this.tasks.root, this.offerTitle, this.offers.root);
  }
  draw(title, facts, row) {
    this.root.hidden = false;
    say(this.title, visible(title));
    keyed(this.facts, facts.filter(f => f[1]), f => f[0], ([name]) => { const e = make("div", "", make("dt", "", name), make("dd")); return e; }, (e, [, value]) => {
      if (!(value instanceof Node)) say(e.lastChild, value); else if (e.lastChild.firstChild?.key !== value.key) e.lastChild.replaceChildren(value);
    });
    say(this.taskTitle, plural(row.tasks.length, "task"));
    say(this.offerTitle, plural(row.offers.length, "outstanding offer"));
    this.tasks.root.hidden = !row.tasks.length;
    this.offers.root.hidden = !row.offers.length;
    this.tasks.show(row.tasks);
    this.offers.show(row.offers);
  }
  // Buttons stay while their set does, so that the focus does.
  actions(key, made) {
    if (this.acts.key === key) return;
    this.acts.key = key;
    this.acts.replaceChildren(...made());
    this.acts.hidden = !this.acts.childNodes.length;
  }
  gone(title, text) {
    this.draw(title, [], {tasks: [], offers: []});
    this.state.replaceChildren();
    this.actions("gone", () => []);
    this.extra.replaceChildren(make("p", "dim", text));
    this.extra.key = this.extra.of = "";
    this.taskTitle.textContent = this.offerTitle.textContent = "";
  }
}
let agentPanel, frameworkPanel;
// Closes a panel: the focus goes back to the row that opened it.
const back = page => () => {
  const from = location.hash, row = [...document.querySelectorAll(`#${page}-list a`)].find(a => a.getAttribute("href") === from);
  location.hash = page;
  (row || $(page + "-title")).focus();
};
export function startDetails() {
  agentPanel = new Panel("agent", ["agent"], back("agents"));
  frameworkPanel = new Panel("framework", ["framework"], back("frameworks"));
}
// A link to the messages that name an agent or a framework.
function history(kind, name) {
  const a = make("a", "", "who sent what");
  a.href = `#audit?${kind}=${encodeURIComponent(name)}`;
  a.key = kind + name;
  return a;
}
export const focusDetail = page => (page === "agents" ? agentPanel : frameworkPanel).title.focus();

export function drawAgent() {
  const name = view.page === "agents" ? view.chosen : "", a = view.cluster?.agentOf.get(name);
  if (!name || !view.cluster) { agentPanel.root.hidden = true; return; }
  if (!a) { agentPanel.gone(name, "There is no such agent."); return; }
  const since = silentSince(a);
  agentPanel.draw(a.name, [
    ["Total", cut(bundle(a.text), 400)], ["History", history("agent", a.name)], ["Host", a.link?.host ? visible(a.link.host) : ""],
    ["Last heartbeat", since ? `about ${stateTitle(a).replace("since ", "")}` : since === 0 ? "it is about to be deactivated" : ""],
  ], a);
  drawState(agentPanel.state, a);
  const own = mayAgent(name), ops = mayOperate(), hasReserved = a.reserved.size > 0;
  const act = (text, action, as) => actionButton(text, `${text === "Reserve" || text === "Unreserve" ? text + " on" : text} ${name}`, () => action(view.cluster.agentOf.get(name) || a), as);
  agentPanel.actions(JSON.stringify([name, a.active, own, ops, hasReserved]), () => [
    ...(own ? [a.active ? act("Drain", actions.drain) : act("Activate", actions.activate)] : []),
    ...(ops ? [act("Reserve", actions.reserve)] : []),
    ...(ops && hasReserved ? [act("Unreserve", b => { const [[role, resources] = ["", []]] = b.reserved; return actions.unreserve(b, role, resources.join(";")); })] : []),
    ...(own ? [act("Remove", actions.removeAgent, "grave")] : []),
  ]);
  drawResources(agentPanel.extra, a);
}
// What an agent has, by resource: used, offered, and free, each apart.
function drawResources(box, a) {
  if (box.key !== "table") {
    const head = make("tr", "", ...["Resource", "", "Total", "Used", "Offered", "Free"].map((text, k) => { const th = make("th", k > 1 ? "n" : "", text || make("span", "sr", "Used and offered")); th.scope = "col"; return th; }));
    const table = make("table", "resources", make("caption", "sr", "Resources of the agent"), make("thead", "", head), make("tbody"));
    box.replaceChildren(table);
    box.key = "table";
  }
  const names = [...a.total.keys()].sort(byRank);
  keyed(box.firstChild.tBodies[0], names, n => n, () => {
    const th = make("th");
    th.scope = "row";
    return make("tr", "", th, make("td", "", make("span", "bar")), ...[0, 1, 2, 3].map(() => make("td", "n")));
  }, (e, name) => {
    const total = a.total.get(name), used = a.used.get(name) || 0, offered = a.offered.get(name) || 0;
    say(e.cells[0], name);
    bar(e.cells[1].firstChild, total ? used / total : 0, total ? offered / total : 0);
    [total, used, offered, Math.max(0, total - used - offered)].forEach((n, k) => say(e.cells[k + 2], plain(n)));
  });
}
export function drawFramework() {
  const name = view.page === "frameworks" ? view.chosen : "", f = view.cluster?.frameworkOf.get(name);
  if (!name || !view.cluster) { frameworkPanel.root.hidden = true; return; }
  if (!f) { frameworkPanel.gone(name, "There is no such framework."); return; }
  const asleep = f.clients.filter(k => k.suppressed).map(k => k.role);
  frameworkPanel.draw(titleOf(f), [
    ["Roles", visible(f.clients.map(k => k.role).join(", "))], ["Used", `${percent(f.usedPart)} of the cluster`], ["Offered", percent(f.offeredPart)], ["Dominant", f.of],
    ["Offers received", plain(f.count)], ["History", history("framework", f.name)], ["Suppressed in", visible(asleep.join(", "))],
    ["Mesos id", f.link ? visible(f.link.id) : ""], ["Principal", f.link?.principal ? visible(f.link.principal) : ""],
    ["Stream ended", f.link && !f.link.connected && f.link.since ? moment(f.link.since) : ""],
  ], f);
  frameworkPanel.state.className = "state " + (f.link && !f.link.connected ? "bad" : "ok");
  say(frameworkPanel.state, frameworkState(f));
  frameworkPanel.actions(JSON.stringify([name, mayFramework(name)]), () => mayFramework(name)
    ? [actionButton("Remove", `Remove ${titleOf(f)}`, () => actions.removeFramework(view.cluster.frameworkOf.get(name) || f), "grave")] : []);
  const box = frameworkPanel.extra;
  if (box.of === f.name) return;
  box.of = f.name;
  box.key = "";
  const list = make("ul", "because");
  list.setAttribute("aria-live", "polite");
  box.replaceChildren(button("Why does it get nothing?", "", () => explain(f.name, list)), list);
}
export {anchor, now};
