// The lists of agents, frameworks, tasks and offers. Outside the proof.
import {actions, confirm} from "./actions.js";
import {bar, button, make, say} from "./dom.js";
import {silentSince} from "./model.js";
import {mayFramework, mayOperate, view} from "./state.js";
import {List} from "./table.js";
import {ago, bundle, byRank, cut, moment, natural, percent, pieces, plain, short, stamp, visible} from "./text.js";

export const link = (page, name) => "#" + page + "/" + encodeURIComponent(name);
export function anchor(page, name, text = name) {
  const a = make("a", "", visible(text));
  a.href = link(page, name);
  return a;
}
// A link that follows its row.
function follow(td, page, name, text = name) {
  const a = td.firstChild || td.appendChild(make("a"));
  say(a, visible(text));
  if (a.to !== page + name) { a.href = link(page, name); a.to = page + name; }
}
const firstScalar = (map, name) => map.get(name) || 0;
export const stateText = a => {
  const since = silentSince(a), for_ = since ? `, for ${ago(now() - since)}` : "";
  return a.state === "silent" ? "silent" + for_ : a.state === "no link" ? "no link" + for_ : a.state;
};
// The service's time, as the browser's clock may be wrong.
export const now = () => view.status?.at || Date.now();
export function stateTitle(a) {
  const since = silentSince(a);
  return since ? "since " + stamp(since) : "";
}
const bad = new Set(["silent", "no link"]);
export function drawState(td, a) {
  const e = td.firstChild || td.appendChild(make("span"));
  e.className = "state " + (bad.has(a.state) ? "bad" : a.active ? "ok" : "warn");
  say(e, stateText(a));
  e.title = stateTitle(a);
}
// A part of a total as a bar with its number: of what is used, or of what is offered.
function part(name, kind) {
  return {
    as: "n part", make: td => { td.append(make("span"), make("span", "bar " + kind)); },
    update: (td, a) => {
      const total = a.scalars.get(name), amount = firstScalar(a[kind], name), [text, track] = td.children;
      say(text, total ? short(amount) + " / " + short(total) : "–");
      bar(track, kind === "used" && total ? amount / total : 0, kind === "offered" && total ? amount / total : 0);
    },
    sort: a => a.scalars.get(name) ? firstScalar(a[kind], name) / a.scalars.get(name) : -1, first: true,
  };
}
const partText = p => p ? percent(p) : "–";
const holdsText = map => [...map].sort((a, b) => byRank(a[0], b[0])).map(([name, n]) => `${name} ${short(n)}`).join(", ");

export const agents = new List({
  name: "agent", names: "agents", caption: "Agents with their state, what is used and what is offered", keyOf: a => a.name, sort: ["name", false], empty: "There are no agents.",
  textOf: a => `${a.name} ${a.state} ${a.link?.host || ""} ${[...a.reserved.keys()].join(" ")}`,
  filters: [
    {name: "active", has: a => a.active}, {name: "inactive", has: a => !a.active}, {name: "silent", has: a => bad.has(a.state)},
    {name: "fully used", has: a => a.usedPart > .999}, {name: "with offers", has: a => a.offers.length > 0}, {name: "with tasks", has: a => a.tasks.length > 0},
  ],
  columns: [
    {key: "name", label: "Agent", sort: a => natural(a.name), update: (td, a) => follow(td, "agents", a.name)},
    {key: "state", label: "State", sort: a => a.state + natural(a.name), update: drawState},
    {key: "cpus", label: "cpus used", ...part("cpus", "used")},
    {key: "mem", label: "mem used", ...part("mem", "used")},
    {key: "offered", label: "Offered", as: "n", text: a => partText(a.offeredPart), sort: a => a.offeredPart, first: true},
    {key: "tasks", label: "Tasks", as: "n", text: a => plain(a.tasks.length), sort: a => a.tasks.length, first: true},
    {key: "offers", label: "Offers", as: "n", text: a => plain(a.offers.length), sort: a => a.offers.length, first: true},
  ],
});
export const frameworkState = f => {
  if (f.link && !f.link.connected) return "disconnected" + (f.link.since ? `, for ${ago(now() - f.link.since)}` : "");
  return f.asleep ? "suppressed" : f.tasks.length || f.offers.length ? "active" : "holds nothing";
};
export const titleOf = f => f.link?.name || f.name;
export const frameworks = new List({
  name: "framework", names: "frameworks", caption: "Frameworks with their roles and what they hold", keyOf: f => f.name, sort: ["name", false], empty: "There are no frameworks.",
  textOf: f => `${f.name} ${titleOf(f)} ${f.clients.map(k => k.role).join(" ")} ${frameworkState(f)} ${f.link?.principal || ""}`,
  filters: [{name: "holding nothing", has: f => !f.tasks.length && !f.offers.length}, {name: "suppressed", has: f => f.asleep}, {name: "disconnected", has: f => f.link && !f.link.connected}],
  columns: [
    {key: "name", label: "Framework", sort: f => natural(titleOf(f)), update: (td, f) => follow(td, "frameworks", f.name, titleOf(f))},
    {key: "roles", label: "Roles", sort: f => f.clients[0]?.role || "", text: f => visible(f.clients.map(k => k.role).join(", "))},
    {key: "state", label: "State", sort: frameworkState, text: frameworkState},
    {key: "used", label: "Used", as: "n", sort: f => f.usedPart, first: true, text: f => partText(f.usedPart)},
    {key: "offered", label: "Offered", as: "n", sort: f => f.offeredPart, first: true, text: f => partText(f.offeredPart)},
    {key: "of", label: "Dominant", sort: f => f.of, text: f => f.of},
    {key: "tasks", label: "Tasks", as: "n", sort: f => f.tasks.length, first: true, text: f => plain(f.tasks.length)},
    {key: "offers", label: "Offers", as: "n", sort: f => f.offers.length, first: true, text: f => plain(f.offers.length)},
  ],
});
const frameworkTitle = name => { const f = view.cluster?.frameworkOf.get(name); return f ? titleOf(f) : name; };
const taskName = t => t.title || t.task;
const taskKey = t => `${t.framework} ${t.task} ${t.mesos ? t.mesos.task : ""}`;
export const taskState = t => t.mesos ? t.mesos.state.replace("TASK_", "").toLowerCase() + (t.mesos.killing ? ", being killed" : "") : "";
const ended = /finished|failed|killed|error|lost|dropped|gone/;
function act(td, isAllowed, text, label, press) {
  const b = td.firstChild;
  if (!isAllowed) { b?.remove(); return; }
  const e = b || td.appendChild(button(text, "small"));
  e.onclick = press;
  e.setAttribute("aria-label", label);
}
// Where an agent shows the files of a task. The browser asks for a token there: the page sends none to agents.
function outputOf(t) {
  const agent = t.mesos && mayOperate() ? view.cluster?.agentOf.get(t.agent)?.link : null;
  if (!agent?.port || !/^[\w.:-]+$/.test(agent.host || "")) return "";
  const host = agent.host.includes(":") ? `[${agent.host}]` : agent.host;
  return `${location.protocol}//${host}:${agent.port}/sandbox#/frameworks/${encodeURIComponent(t.mesos.id)}/executors/${encodeURIComponent(t.mesos.executor)}/runs/latest`;
}
function drawOutput(td, t) {
  const to = outputOf(t);
  if (td.to === to) return;
  td.to = to;
  td.replaceChildren(...(to ? [["files", "/"], ["stdout", "/stdout"], ["stderr", "/stderr"]] : []).flatMap(([name, path]) => {
    const a = make("a", "", name);
    Object.assign(a, {href: to + path, target: "_blank", rel: "noopener noreferrer"});
    a.setAttribute("aria-label", `${name} of task ${visible(taskName(t))}, in a new tab`);
    return [a, " "];
  }));
}
const killable = t => t.mesos && !ended.test(taskState(t)) && !t.mesos.killing;
const mayKill = t => mayOperate() || view.cluster?.frameworkOf.get(t.framework)?.link?.principal === view.me?.name;
const amountOf = (text, name) => pieces(text).reduce((n, p) => p.name === name ? n + p.amount : n, 0);

export function taskList(options = {}) {
  const columns = [
    {key: "name", label: "Task", sort: t => natural(taskName(t)), text: t => visible(taskName(t))},
    {key: "framework", label: "Framework", sort: t => natural(frameworkTitle(t.framework)), update: (td, t) => follow(td, "frameworks", t.framework, frameworkTitle(t.framework))},
    {key: "role", label: "Role", sort: t => t.role, text: t => visible(t.role)},
    {key: "agent", label: "Agent", sort: t => natural(t.agent || ""), update: (td, t) => follow(td, "agents", t.agent || "")},
    {key: "state", label: "State", isOptional: true, sort: taskState, text: taskState},
    {key: "sandbox", label: "Sandbox", isOptional: true, sort: t => outputOf(t), update: drawOutput},
    {key: "cpus", label: "Uses", sort: t => amountOf(t.use, "cpus"), first: true, text: t => t.use ? cut(bundle(t.use), 120) + (t.shared ? " (shared)" : "") : ""},
    {key: "act", label: "Actions", isHidden: true, as: "act",
      update: (td, t) => act(td, killable(t) && mayKill(t), "Kill", `Kill task ${taskName(t)}`, () => confirm(actions.kill(t.mesos)))},
  ];
  return new List({name: "task", names: "tasks", caption: "Tasks", keyOf: taskKey, sort: ["name", false], empty: "There are no tasks.",
    textOf: t => `${taskName(t)} ${t.task} ${t.framework} ${frameworkTitle(t.framework)} ${t.role} ${t.agent} ${taskState(t)}`, ...options,
    columns: columns.filter(c => !options.without?.includes(c.key))});
}
export function offerList(options = {}) {
  const columns = [
    {key: "offer", label: "Offer", as: "n", sort: o => o.offer, first: true, text: o => plain(o.offer)},
    {key: "framework", label: "Framework", sort: o => natural(frameworkTitle(o.framework)), update: (td, o) => follow(td, "frameworks", o.framework, frameworkTitle(o.framework))},
    {key: "role", label: "Role", sort: o => o.role, text: o => visible(o.role)},
    {key: "agent", label: "Agent", sort: o => natural(o.agent), update: (td, o) => follow(td, "agents", o.agent)},
    {key: "cpus", label: "Resources", sort: o => amountOf(o.resources, "cpus"), first: true, text: o => cut(bundle(o.resources), 200)},
    {key: "act", label: "Actions", isHidden: true, as: "act",
      update: (td, o) => act(td, mayOperate(), "Rescind", `Rescind offer ${o.offer}`, () => confirm(actions.rescind(o)))},
  ];
  return new List({name: "offer", names: "offers", caption: "Outstanding offers", keyOf: o => o.offer, sort: ["offer", true], empty: "No offer is outstanding.",
    textOf: o => `${o.offer} ${o.framework} ${frameworkTitle(o.framework)} ${o.role} ${o.agent} ${o.resources}`, ...options,
    columns: columns.filter(c => !options.without?.includes(c.key))});
}
export const tasks = taskList(), offers = offerList();
export {mayFramework, moment};
