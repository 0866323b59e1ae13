// Why a framework gets nothing: the allocator's answer in words. Outside the proof.
import {good} from "./gateway.js";
import {make} from "./dom.js";
import {view} from "./state.js";
import {bundle, cut, moment, plural, some, visible} from "./text.js";

const whys = {
  __proto__: null,
  Suppressed: () => "it wants no offers: it is suppressed.",
  HeldBack: s => `it declined, or left a rest: its filter holds until ${moment(s.until)}` + (s.until > s.first ? `, the first until ${moment(s.first)}` : ""),
  OverLimit: s => `the limit of ${visible([...s.roles].join(", "))} leaves too little`,
  BelowThreshold: () => "what is left is not worth an offer (0.01 cpus or 32 mem)",
  NothingLeft: () => "other clients come before it, and are offered everything that is free",
  ReservedForOthers: () => "everything that is free is reserved for others",
  NothingFree: () => "Nothing is free",
  Inactive: () => "The agent is inactive",
};
function summaryOf(name, lines, rows, agentsSeen) {
  for (const line of lines) {
    if (!line.includes('"client"') || line.includes("/./" + name + '"')) {
      let e;
      try { e = JSON.parse(line); } catch { continue; }
      const key = (e.client || "") + " " + (e.why || (e.grant ? "grant" : "left"));
      const s = rows.get(key) || {client: e.client, why: e.why, grants: [], agents: [], first: Infinity, until: 0, roles: new Set()};
      if (e.grant && s.grants.length < 3) s.grants.push(`${visible(e.agent)} (${bundle(e.grant)})`);
      if (e.agent) { s.agents.push(e.agent); agentsSeen.add(e.agent); }
      if (e.until) { s.first = Math.min(s.first, e.until); s.until = Math.max(s.until, e.until); }
      if (e.role) s.roles.add(e.role);
      rows.set(key, s);
    } else { const at = /"agent":"([^"]*)"/.exec(line); if (at) agentsSeen.add(at[1]); }
  }
}
export async function explain(name, list) {
  const one = (text, as = "") => make("li", as, text), id = ++view.asked;
  list.replaceChildren(one("Asking …", "dim"));
  const rows = new Map(), seen = new Set();
  try {
    const answer = await good("/drf/v1/explain"), reader = answer.body.pipeThrough(new TextDecoderStream()).getReader();
    for (let left = ""; ;) {
      const {value, done} = await reader.read();
      const lines = (left + (value || "")).split("\n");
      left = done ? "" : lines.pop();
      summaryOf(name, lines, rows, seen);
      if (done) break;
    }
  } catch (error) { if (id === view.asked) list.replaceChildren(one("No answer: " + cut(visible(error.message), 300), "dim")); return; }
  if (id !== view.asked) return;
  list.replaceChildren(...answersOf(name, [...rows.values()], seen).map(a => one(a.text, a.yes ? "yes" : "")));
}
function answersOf(name, rows, seen) {
  const mine = rows.filter(s => s.client), others = rows.filter(s => !s.client && s.why);
  if (view.cluster && !view.cluster.frameworkOf.has(name)) return [{text: `There is no framework ${visible(name)}.`}];
  const on = s => ` On ${plural(s.agents.length, "agent")}: ${some(s.agents, 5)}.`;
  const answers = mine.map(s => {
    const who = s.client.slice(0, s.client.lastIndexOf("/./")), head = visible(who) + ": ";
    const grants = s.grants.join(", ") + (s.agents.length > 3 ? ", …" : "");
    if (s.grants.length) return {yes: true, text: head + `the next cycle offers it something on ${plural(s.agents.length, "agent")}: ${grants}.`};
    return {text: head + (whys[s.why] ? whys[s.why](s) : visible(s.why)) + (s.agents.length ? "." + on(s) : "")};
  }).sort((a, b) => !!b.yes - !!a.yes);
  const tried = new Set([...mine, ...others].flatMap(s => s.agents)), passed = [...seen].filter(a => !tried.has(a));
  if (passed.length && !mine.some(s => s.why === "Suppressed")) {
    answers.push({text: `Other clients come before it, and leave too little for an offer. On ${plural(passed.length, "agent")}: ${some(passed, 5)}.`});
  }
  for (const s of others) answers.push({text: whys[s.why] ? whys[s.why](s) + "." + on(s) : visible(s.why)});
  return answers.length ? answers : [{text: "There is no agent with anything free."}];
}
