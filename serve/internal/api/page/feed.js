// The latest events in words, and how many come. Outside the proof.
import {refusals} from "./actions.js";
import {$, brush, colour, keyed, make, say} from "./dom.js";
import {view} from "./state.js";
import {bundle, cut, pieces, plain, plural, some, span, visible} from "./text.js";

const tasksOf = e => Array.isArray(e.tasks) ? e.tasks : [{task: e.task, use: e.use}];
const words = {
  __proto__: null,
  add_agent: e => `Agent ${e.agent} registered with ${bundle(e.total)}`,
  set_agent: e => `Agent ${e.agent} now has ${bundle(e.total)}`,
  remove_agent: e => `Agent ${e.agent} left`,
  activate_agent: e => `Agent ${e.agent} is active`,
  deactivate_agent: e => `Agent ${e.agent} is inactive`,
  add_framework: e => `Framework ${e.framework} registered in ${e.roles.join(", ")}`,
  set_framework: e => `Framework ${e.framework} is now in ${e.roles.join(", ")}`,
  remove_framework: e => `Framework ${e.framework} left`,
  set_weight: e => `The weight of ${e.role} is ${e.weight}`,
  set_limit: e => pieces(e.limit).length ? `The limit of ${e.role} is ${bundle(e.limit)}` : `${e.role} has no limit`,
  reserve: e => `${bundle(e.resources)} on ${e.agent} reserved for ${e.role}`,
  unreserve: e => `${bundle(e.resources)} on ${e.agent} no longer reserved for ${e.role}`,
  cycle: (e, {offers}) => offers?.length ? `Cycle: ${plural(offers.length, "offer")}, to ${some([...new Set(offers.map(o => o.framework))], 4)}` : "Cycle: nothing to offer",
  accept: e => `${e.framework} accepted offer ${e.offer}: ${tasksOf(e).map(t => `task ${t.task} uses ${bundle(t.use)}`).join("; ")}`,
  decline: e => `${e.framework} declined offer ${e.offer}, for ${span(e.refuse_ms ?? 5000)}`,
  rescind: e => `Offer ${e.offer} rescinded`,
  finish: e => `Task ${e.task} of ${e.framework} finished`,
  suppress: e => `${e.framework} suppressed offers in ${e.role}`,
  revive: e => `${e.framework} revived offers in ${e.role}`,
  report: () => "Report",
};
const asked = e => [e.event, e.agent, e.framework, e.role, e.offer && "offer " + e.offer, e.task && "task " + e.task].filter(w => w).join(" ");
// An entry of the list of events: its words, and the name of its refusal. A line that is no event is shown as it is.
export function told(line, reply) {
  let event, answer = {}, text;
  try { answer = JSON.parse(reply); } catch { /* not an answer: shown as it is */ }
  try { event = JSON.parse(line); text = words[event.event](event, answer); } catch { text = "Line: " + line; }
  if (answer.refused && event && words[event.event]) text = "Refused: " + asked(event);
  return {text: cut(visible(text), 400), refused: answer.refused ? answer.name : ""};
}
export function drawFeed() {
  view.feedDue = false;
  if (view.paused) return;
  const only = $("only").value.trim(), refusedOnly = $("refused").checked, shown = [];
  for (let k = view.entries.length - 1; k >= 0 && shown.length < 80; k--) {
    const e = view.entries[k];
    e.told ||= told(e.line, e.reply);
    if (refusedOnly && !e.told.refused || only && !(e.line.includes(only) || e.reply.includes(only))) continue;
    const last = shown[shown.length - 1];
    if (last && e.told.text === "Cycle: nothing to offer" && last.told.text === e.told.text) last.times++; else shown.push({...e, times: 1});
  }
  const raw = $("raw").checked;
  keyed($("feed"), shown, e => e.key, e => make("li", "", make("time", "", e.moment), make("span")), (li, e) => {
    say(li.children[1], e.told.text + (e.told.refused ? ` (${visible(e.told.refused)}: ${refusals[e.told.refused] || "refused"})` : "") + (e.times > 1 ? `, ${e.times} times` : ""));
    li.children[1].className = e.told.refused ? "no" : "";
    const code = li.querySelector("code");
    if (raw && !code) li.append(make("code", "", cut(visible(e.line), 2000) + "\n" + cut(visible(e.reply), 2000)));
    if (!raw && code) code.remove();
  });
  if (!shown.length) keyed($("feed"), ["none"], n => n, () => make("li", "dim", "Nothing yet."));
}
export function took(line, reply) {
  const now = Date.now(), second = secondOf(now), name = reply.startsWith('{"name":"') ? reply.slice(9, reply.indexOf('"', 9)) : "";
  second.events++;
  if (name) second.refused.set(name, (second.refused.get(name) || 0) + 1);
  remember(line, reply, new Date(now).toLocaleTimeString("en-GB"));
  view.dirty = true;
}
// Of a flood only the latest are kept.
export function remember(line, reply, moment) {
  view.entries.push({key: ++view.count, line, reply, moment});
  if (view.entries.length > 3000) view.entries.splice(0, view.entries.length - 1500);
  if (!view.feedDue) { view.feedDue = true; setTimeout(drawFeed, 250); }
}
function secondOf(now) {
  const at = Math.floor(now / 1000);
  let last = view.seconds[view.seconds.length - 1];
  if (!last || last.at !== at) { view.seconds.push(last = {at, events: 0, refused: new Map()}); if (view.seconds.length > 130) view.seconds.shift(); }
  return last;
}
export function drawRate() {
  const canvas = $("rate"), width = canvas.clientWidth, height = 34, now = Math.floor(Date.now() / 1000), counts = new Array(120).fill(0);
  view.refusals = new Map();
  for (const s of view.seconds) {
    if (now - s.at >= 1 && now - s.at <= 120) counts[120 - (now - s.at)] = s.events;
    if (now - s.at < 60) for (const [name, n] of s.refused) view.refusals.set(name, (view.refusals.get(name) || 0) + n);
  }
  const most = Math.max(1, ...counts), last = counts.slice(-5).reduce((a, b) => a + b, 0) / 5;
  say($("rate-text"), `${last < 10 ? plain(Math.round(last * 10) / 10) : plain(Math.round(last))} events a second, at most ${plain(most)}`);
  if (!width) return;
  const g = brush(canvas, width, height);
  g.fillStyle = colour("--used");
  counts.forEach((n, k) => {
    const high = Math.max(1.5, (height - 2) * n / most);
    if (n) g.fillRect(k * width / 120, height - high, Math.max(1, width / 120 - 1), high);
  });
}
export function startFeed() {
  $("only").oninput = $("refused").onchange = $("raw").onchange = drawFeed;
  $("pause").onclick = () => {
    view.paused = !view.paused;
    $("pause").setAttribute("aria-pressed", view.paused);
    say($("pause"), view.paused ? "Resume" : "Pause");
    drawFeed();
  };
}
