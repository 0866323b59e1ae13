// The cluster, made of the rows of the allocator's state and of what the service knows beside it. Outside the proof.
import {add, addAll, byName, isScalar, pieces} from "./text.js";

const paths = new Map();
export function upTo(role) {
  let all = paths.get(role);
  if (!all) {
    const parts = role.split("/");
    paths.set(role, all = parts.map((_, k) => parts.slice(0, k + 1).join("/")));
  }
  return all;
}
function newNode(nodes, path, name, role, framework) {
  const above = upTo(role), parent = framework ? role : above[above.length - 2];
  const node = {
    path, name, role, framework, parent, depth: above.length - (framework ? 0 : 1), weight: 1, count: 0, limit: null, limitText: "", suppressed: false,
    used: new Map(), offered: new Map(), consumed: new Map(), children: [],
  };
  nodes.set(path, node);
  return node;
}
function roleNode(nodes, role) {
  for (const path of upTo(role)) if (!nodes.has(path)) newNode(nodes, path, path.slice(path.lastIndexOf("/") + 1), path, null);
  return nodes.get(role);
}
export const clientPath = (role, framework) => role + "/./" + framework;

export function clusterOf(rows, details = []) {
  const c = {
    events: 0, agents: [], frameworks: [], offers: [], tasks: [], filters: 0, limits: 0, weights: 0, nodes: new Map(), agentOf: new Map(), frameworkOf: new Map(),
    total: new Map(), used: new Map(), offered: new Map(), apart: new Map(), whole: true,
  };
  const take = {
    state: r => { c.events = r.events; },
    agent: r => takeAgent(c, r),
    framework: r => takeFramework(c, r),
    weight: r => { roleNode(c.nodes, r.role).weight = Number(r.weight); c.weights++; },
    limit: r => { const node = roleNode(c.nodes, r.role); node.limit = new Map(); node.limitText = r.limit; addAll(node.limit, r.limit); c.limits++; },
    offer: r => { c.offers.push(r); takeHolding(c, r, "offered", r.resources); },
    task: r => { takeHolding(c, r, "used", r.use); },
    filter: () => { c.filters++; },
  };
  const known = detailsOf(details);
  c.held = known.tasks;
  for (const row of rows) take[row.row]?.(row);
  for (const list of known.tasks.values()) for (const t of list) if (!t.taken) takeTask(c, {agent: t.agent, framework: t.framework, role: "", task: t.task, use: ""}, t);
  for (const a of c.agents) {
    Object.assign(a, {silent: known.silent.get(a.name), link: known.agents.get(a.name)});
    a.state = stateOf(a);
    for (const [name, amount] of a.scalars) {
      add(c.total, name, amount);
      if (!a.active) add(c.apart, name, Math.max(0, amount - (a.used.get(name) || 0)));
    }
  }
  for (const f of c.frameworks) f.link = known.frameworks.get(f.name);
  for (const node of c.nodes.values()) shareOf(c, node);
  for (const f of c.frameworks) shareOf(c, f);
  for (const a of c.agents) fullnessOf(a);
  return linked(c);
}
// The rows that are not the allocator's, by the names that it uses.
function detailsOf(rows) {
  const known = {silent: new Map(), agents: new Map(), frameworks: new Map(), tasks: new Map()};
  for (const d of rows) {
    if (d.row === "silent") known.silent.set(d.agent, d.since || 0);
    if (d.row === "mesos_agent") known.agents.set(d.agent, d);
    if (d.row === "mesos_framework") known.frameworks.set(d.framework, d);
    if (d.row !== "mesos_task") continue;
    d.taken = false;
    const key = d.framework + "/" + (d.holds?.[0] ?? ""); // a second one is its executor's
    if (known.tasks.has(key)) known.tasks.get(key).push(d); else known.tasks.set(key, [d]);
  }
  return known;
}
function stateOf(a) {
  if (a.silent !== undefined) return "silent";
  if (a.link && !a.link.connected) return "no link";
  return a.active ? "active" : a.tasks.some(t => t.use) ? "draining" : "inactive"; // a task of Mesos that has ended uses nothing
}
export const silentSince = a => a.silent ?? (a.link && !a.link.connected ? a.link.since || 0 : undefined);

function takeAgent(c, r) {
  const a = {name: r.agent, active: r.active, text: r.total, total: new Map(), scalars: new Map(), used: new Map(), offered: new Map(), reserved: new Map(),
    users: new Map(), offerees: new Map(), tasks: [], offers: []};
  c.agents.push(a);
  c.agentOf.set(a.name, a);
  addAll(a.total, a.text);
  addAll(a.scalars, a.text, isScalar);
  // What is reserved for a role counts as consumed by it and by the roles above it.
  for (const p of pieces(a.text)) {
    if (p.role === "*") continue;
    a.reserved.set(p.role, [...a.reserved.get(p.role) || [], `${p.name}:${p.value}`]);
    if (!isScalar(p)) continue;
    roleNode(c.nodes, p.role);
    for (const role of upTo(p.role)) add(c.nodes.get(role).consumed, p.name, p.amount);
  }
}
function takeFramework(c, r) {
  const f = {name: r.framework, clients: r.clients, used: new Map(), offered: new Map(), tasks: [], offers: [], weight: 1, asleep: r.clients.every(k => k.suppressed),
    count: r.clients.reduce((n, k) => n + k.count, 0)};
  c.frameworks.push(f);
  c.frameworkOf.set(f.name, f);
  for (const client of r.clients) {
    roleNode(c.nodes, client.role);
    const node = newNode(c.nodes, clientPath(client.role, f.name), f.name, client.role, f);
    node.suppressed = client.suppressed;
    node.count = client.count;
    for (const role of upTo(client.role)) c.nodes.get(role).count += client.count;
  }
}
// Each of the allocator's tasks is a task, or has the resources of one or several tasks of Mesos.
function takeTask(c, row, of) {
  const t = {...row, mesos: of, agentRow: c.agentOf.get(row.agent), shared: false};
  if (of) { of.taken = true; t.title = of.task; }
  c.tasks.push(t);
  c.agentOf.get(t.agent)?.tasks.push(t);
  c.frameworkOf.get(t.framework)?.tasks.push(t);
  return t;
}
function takeHolding(c, row, kind, text) {
  const client = c.nodes.get(clientPath(row.role, row.framework)), agent = c.agentOf.get(row.agent), framework = c.frameworkOf.get(row.framework);
  if (kind === "used") {
    const sharing = c.held.get(row.framework + "/" + row.task) || [undefined];
    for (const of of sharing) takeTask(c, row, of).shared = sharing.length > 1;
  } else {
    agent?.offers.push(row);
    framework?.offers.push(row);
  }
  if (agent) {
    addAll(agent[kind], text);
    const top = upTo(row.role)[0], by = kind === "used" ? agent.users : agent.offerees;
    for (const p of pieces(text)) if (isScalar(p) && agent.scalars.get(p.name)) by.set(top, Math.max(by.get(top) || 0, p.amount / agent.scalars.get(p.name)));
  }
  if (client) addAll(client[kind], text, isScalar);
  if (framework) addAll(framework[kind], text, isScalar);
  addAll(c[kind], text, isScalar);
  for (const role of upTo(row.role)) {
    const node = c.nodes.get(role);
    if (!node) continue;
    addAll(node[kind], text, isScalar);
    addAll(node.consumed, text, p => isScalar(p) && p.role === "*");
  }
}
// The dominant share: the greatest part, over the scalars, of the cluster's total that is held. Likewise of what is used, and what is offered, alone.
function shareOf(c, node) {
  node.share = 0; node.of = ""; node.usedPart = 0; node.offeredPart = 0;
  for (const [name, total] of c.total) {
    if (!total) continue;
    const used = (node.used.get(name) || 0) / total, offered = (node.offered.get(name) || 0) / total;
    if (used + offered > node.share) { node.share = used + offered; node.of = name; }
    node.usedPart = Math.max(node.usedPart, used);
    node.offeredPart = Math.max(node.offeredPart, offered);
  }
  node.weighted = node.share / node.weight;
}
// How much of an agent is used, and how much is offered: each is the greatest part over its scalars.
function fullnessOf(a) {
  a.usedPart = a.offeredPart = 0;
  for (const [name, total] of a.scalars) {
    if (!total) continue;
    a.usedPart = Math.max(a.usedPart, (a.used.get(name) || 0) / total);
    a.offeredPart = Math.max(a.offeredPart, (a.offered.get(name) || 0) / total);
  }
}
function linked(c) {
  for (const node of c.nodes.values()) if (c.nodes.has(node.parent)) c.nodes.get(node.parent).children.push(node);
  c.roots = [...c.nodes.values()].filter(node => !node.framework && !node.parent).sort((a, b) => byName(a.name, b.name));
  c.roots.forEach((node, k) => { node.hue = k % 8; });
  c.hues = new Map(c.roots.map(node => [node.path, node.hue]));
  return c;
}
// What a report has, where a gateway cannot read its state: shares as the allocator writes them, nothing offered apart.
export function clusterOfReport(report) {
  const c = clusterOf([]), fraction = text => { const [a, b] = text.split("/").map(Number); return a / b; };
  c.whole = false;
  addAll(c.total, report.total, isScalar);
  for (const n of report.nodes) {
    const client = /^(.*)\/\.\/([^/]+)$/.exec(n.path);
    if (!client && n.path.endsWith("/.")) continue;
    const role = client ? client[1] : n.path, name = client && client[2];
    const framework = client && (c.frameworkOf.get(name) || {name, clients: [], tasks: [], offers: [], holds: false, asleep: false, used: new Map(), offered: new Map(), count: 0});
    const node = client ? newNode(c.nodes, n.path, name, role, framework) : roleNode(c.nodes, role);
    Object.assign(node, {count: n.count, share: fraction(n.share), weighted: fraction(n.weighted), of: "", offeredPart: 0});
    node.usedPart = node.share;
    node.weight = node.weighted ? Math.round(1000 * node.share / node.weighted) / 1000 : 1;
    addAll(node.used, n.held, isScalar);
    if (!client) continue;
    if (!c.frameworkOf.has(name)) { c.frameworkOf.set(name, framework); c.frameworks.push(framework); }
    framework.clients.push({role, count: n.count, suppressed: false});
    framework.holds ||= !!n.held;
    addAll(c.used, n.held, isScalar);
  }
  for (const node of c.nodes.values()) node.children = [];
  return linked(c);
}
// Frameworks that hold nothing although they want offers.
export const waiting = c => c.frameworks.filter(f => !f.asleep && !(f.holds || f.tasks.length || f.offers.length));

// The rows after some edits: each is a new row, or [from, count] for rows that stay.
export const edited = (rows, edits) => edits.flatMap(edit => Array.isArray(edit) ? rows.slice(edit[0], edit[0] + edit[1]) : [edit]);
