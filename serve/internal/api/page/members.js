// The gateways and the members of etcd, as they report themselves. Outside the proof.
import {$, bar, make, say} from "./dom.js";
import {view} from "./state.js";
import {List} from "./table.js";
import {ago, cut, moment, natural, percent, plain, plural, some, visible} from "./text.js";

const size = bytes => {
  const units = ["B", "KiB", "MiB", "GiB", "TiB"];
  let k = 0;
  for (; bytes >= 1024 && k < units.length - 1; k++) bytes /= 1024;
  return `${plain(Math.round(10 * bytes) / 10)} ${units[k]}`;
};
function mark(td, kind, text) {
  const e = td.firstChild || td.appendChild(make("span"));
  e.className = "state " + kind;
  say(e, text);
}
function drawGateway(td, g) {
  if (!g.live) mark(td, "bad", "silent, for " + ago(g.silent_ms));
  else if (g.clock_fault || !g.ready) mark(td, "warn", cut(visible(g.clock_fault || g.fault || "not ready"), 160));
  else mark(td, "ok", "ready");
}
const gateways = new List({
  name: "gateway", names: "gateways", caption: "Gateways", keyOf: g => g.name, sort: ["name", false], empty: "This gateway does not report the other gateways.", textOf: g => g.name, isSmall: true,
  columns: [
    {key: "name", label: "Gateway", sort: g => natural(g.name), text: g => visible(g.name) + (g.name === view.status?.name ? " (this one)" : "")},
    {key: "state", label: "State", sort: g => `${g.live} ${g.ready}`, update: drawGateway},
    {key: "version", label: "Version", sort: g => g.version, text: g => visible(g.version)},
    {key: "messages", label: "Messages", as: "n", sort: g => g.messages, first: true, text: g => plain(g.messages)},
    {key: "lag", label: "Lag", as: "n", sort: g => g.lag, first: true, text: g => plain(g.lag)},
    {key: "clock", label: "Clock ahead", as: "n", sort: g => g.clock_offset_ms, first: true, text: g => `${plain(g.clock_offset_ms)} ms`},
    {key: "started", label: "Started", sort: g => g.started, first: true, text: g => moment(g.started)},
  ],
});
const etcd = new List({
  name: "member", names: "members of etcd", caption: "Members of etcd", keyOf: m => m.id || m.name, sort: ["name", false], empty: "This gateway does not report the members of etcd.", textOf: m => m.name, isSmall: true,
  columns: [
    {key: "name", label: "Member of etcd", sort: m => natural(m.name), text: m => visible(m.name || m.id)},
    {key: "state", label: "State", sort: m => `${m.reachable} ${m.leader}`,
      update: (td, m) => m.problems?.length ? mark(td, "bad", visible(m.problems.join(", "))) : m.reachable ? mark(td, "ok", m.leader ? "leader" : m.learner ? "learner" : "follower") : mark(td, "bad", "not reachable")},
    {key: "version", label: "Version", sort: m => m.version, text: m => visible(m.version)},
    {key: "lag", label: "Lag", as: "n", sort: m => m.lag, first: true, text: m => m.reachable ? plain(m.lag) : "–"},
    {key: "store", label: "Store", as: "n part", sort: m => m.size, first: true, make: td => { td.append(make("span"), make("span", "bar")); },
      update: (td, m) => { say(td.children[0], m.quota ? `${size(m.size)} of ${size(m.quota)}, ${percent(m.size / m.quota)}` : "–"); bar(td.children[1], m.quota ? m.size / m.quota : 0, 0); }},
  ],
});
const known = () => view.status?.members || {gateways: [], etcd: []};
export function drawMembers() {
  gateways.show(known().gateways || []);
  etcd.show(known().etcd || []);
}
// What needs attention, worst first.
export function memberNotes() {
  const all = known(), notes = [], names = list => some(list.map(m => m.name || m.id)), note = (list, one, many, text) => {
    if (list.length) notes.push({bad: true, text: `${plural(list.length, one, many)} ${text}: ${names(list)}. `, to: "#members", label: "Show"});
  };
  const g = all.gateways || [], m = all.etcd || [];
  note(g.filter(x => !x.live), "gateway is", "gateways are", "silent");
  note(g.filter(x => x.live && x.lag > 1000), "gateway lags", "gateways lag", "behind");
  note(m.filter(x => !x.reachable), "member of etcd is", "members of etcd are", "not reachable");
  note(m.filter(x => x.quota && x.size > .8 * x.quota), "store of etcd is", "stores of etcd are", "nearly full");
  return notes;
}
export function startMembers() {
  $("gateways-list").append(gateways.root);
  $("etcd-list").append(etcd.root);
}
