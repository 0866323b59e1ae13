// The gateway: calls, the stream of replies, and a fresh state at most once a second. Outside the proof.
import {$, say} from "./dom.js";
import {remember, took} from "./feed.js";
import {clusterOf, clusterOfReport, edited} from "./model.js";
import {view} from "./state.js";
import {cut, dateAndZone, moment, plain, plural, visible} from "./text.js";

let visit = null;
const pause = ms => new Promise(done => setTimeout(done, ms));

// Sends a call. An answer that says that the token is not known, or may not read, ends the visit.
export async function call(path, options = {}) {
  const mine = visit, headers = {...options.headers, Authorization: "Bearer " + mine.token};
  const answer = await fetch(path, {...options, headers, signal: mine.stop.signal, cache: "no-store"});
  const isDenied = answer.status === 401 || answer.status === 403 && !options.method;
  if (isDenied && mine === visit) {
    const why = answer.status === 401 ? "The gateway does not know this token." : cut(visible(await answer.text()), 200) || "This token may not read.";
    leave(why);
    throw new Error(why);
  }
  return answer;
}
export async function good(path) {
  const answer = await call(path);
  if (!answer.ok) throw new Error(cut((await answer.text()).trim() || String(answer.status), 200));
  return answer;
}
const json = async path => (await good(path)).json();

async function refresh() {
  const mine = visit, status = await json("/drf/v1/status");
  view.status = status;
  drawStatus(status);
  if (!view.me) view.me = await identity();
  if (!status.ready) return;
  const isNew = await refreshDetails(mine);
  if (!isNew && mine.message === status.messages && view.cluster) return;
  if (!mine.stateless) {
    if (mine.message === status.messages) { view.cluster = clusterOf(mine.rows, mine.details); return; }
    const answer = await call("/drf/v1/state?since=" + (mine.rows ? mine.message : 0));
    if (answer.ok) {
      const state = await answer.json();
      mine.rows = state.rows || edited(mine.rows, state.edits);
      view.cluster = clusterOf(mine.rows, mine.details);
      mine.message = state.message;
      return;
    }
    const why = (await answer.text()).trim();
    if (answer.status !== 501) throw new Error(why);
    mine.stateless = true;
    view.lacks = "Only shares are shown. Agents, limits and offers are not available: " + cut(visible(why), 200);
  }
  view.cluster = clusterOfReport(await json("/drf/v1/report"));
  mine.message = status.messages;
}
// A gateway that does not say whose token it is gets no actions.
async function identity() {
  const answer = await call("/drf/v1/me");
  return answer.ok ? answer.json() : {name: "", rights: []};
}
// Reports whether what the service knows beside the allocator has changed.
async function refreshDetails(mine) {
  const answer = await call("/drf/v1/details?since=" + (mine.version || ""));
  if (!answer.ok) return false;
  const {version, rows, edits} = await answer.json(), isNew = version !== mine.version;
  mine.details = rows || edited(mine.details, edits);
  mine.version = version;
  return isNew;
}
async function follow(mine, drawn) {
  while (mine === visit) {
    const began = performance.now();
    view.dirty = false;
    try {
      await refresh();
      mine.failed = 0;
      drawLost("");
    } catch (error) {
      if (mine !== visit) return;
      if (!mine.failed++) mine.since = new Date().toLocaleTimeString("en-GB", {timeZoneName: "short"});
      drawHealth("bad", "No answer");
      drawLost(`The gateway has not answered since ${mine.since}. The page shows the last known state, and tries again by itself. (${cut(visible(error.message), 160)})`);
    }
    if (mine !== visit) return;
    drawn();
    const spent = performance.now() - began;
    await pause(Math.max(1000, 4 * spent));
    if (!view.dirty && !mine.failed) await pause(1000);
    while (document.hidden && mine === visit) await pause(1000);
  }
}
// Follows the stream of replies, after the end of the journal. Where the connection was lost, both are asked for again.
async function listen(mine) {
  for (let wait = 500; mine === visit; wait = Math.min(10000, 2 * wait)) {
    try {
      const answer = await good("/drf/v1/replies");
      mine.recalled = await recall();
      const reader = answer.body.pipeThrough(new TextDecoderStream()).getReader();
      for (let left = ""; ;) {
        const {value, done} = await reader.read();
        if (done || mine !== visit) break;
        const blocks = (left + value).split("\n\n");
        left = blocks.pop();
        for (const block of blocks) heard(block);
        wait = 500;
      }
    } catch { /* asked again below */ }
    for (let waited = 0, failed = mine.failed; waited < wait && mine === visit && mine.failed >= failed; waited += 500) await pause(500);
  }
}
// Lines of the journal are events and replies in turn. Which of them the first whole line is, the forms of replies show.
async function recall() {
  const {journal, messages} = await json("/drf/v1/status"), from = Math.max(journal.from, journal.end - 40000);
  const bytes = await (await good("/drf/v1/journal?from=" + from)).arrayBuffer();
  const lines = new TextDecoder().decode(bytes.slice(0, journal.end - from)).split("\n").slice(from > journal.from ? 1 : 0, -1);
  const isReply = line => /^\{"(ok|offers|nodes|name)":/.test(line), first = lines.every((line, k) => k % 2 === 0 || isReply(line)) ? 0 : 1;
  let at = 0;
  view.entries = [];
  for (let k = first; k + 1 < lines.length; k += 2) {
    const stamp = /"at":(\d{1,15})\D/.exec(lines[k]);
    at = stamp ? Math.max(at, Number(stamp[1])) : at;
    remember(lines[k], lines[k + 1], at ? moment(at) : "");
  }
  return messages;
}
function heard(block) {
  const data = block.split("\n").filter(l => l.startsWith("data: ")).map(l => l.slice(6)).join("\n");
  if (!data) return;
  const entry = JSON.parse(data);
  if (entry.message > visit?.recalled) took(entry.line, JSON.stringify(entry.reply));
}
function drawStatus(s) {
  const restarts = s.allocator?.restarts || 0;
  const fault = s.fault && s.fault !== "replaying" ? ` (${cut(visible(s.fault), 300)})` : "";
  view.problem = !s.ready ? "This gateway is replaying: it passes earlier messages to its allocator, and accepts no events yet." + fault
    : s.clock_fault ? "This gateway accepts no events: " + cut(visible(s.clock_fault), 300) + "." : "";
  view.warning = s.clock_warning ? "Check the clock: " + cut(visible(s.clock_warning), 300) + "." : "";
  view.restarts = restarts ? `The allocator was restarted ${plural(restarts, "time")} since this gateway started.` : "";
  drawHealth(!s.ready ? "warn" : s.clock_fault ? "bad" : "ok", !s.ready ? "Replaying" : s.clock_fault ? "Takes no events" : "Live");
  const [date, time] = s.at ? dateAndZone(s.at) : ["", ""];
  say($("date"), date);
  say($("time"), time);
  say($("facts"), [s.name ? "gateway " + visible(s.name) : "", `message ${plain(s.messages)}`].filter(w => w).join(", "));
}
function drawHealth(as, text) {
  $("health").className = "pill " + as;
  say($("health"), text);
}
function drawLost(text) {
  $("lost").hidden = !text;
  document.body.classList.toggle("stale", !!text);
  // The text is announced when the connection is lost, and not again with each try.
  if (!text || !$("lost").textContent) say($("lost"), text);
}
// Nothing that was shown stays: the page is loaded again.
export function leave(why) {
  visit.stop.abort();
  visit = null;
  sessionStorage.clear();
  if (why) sessionStorage.setItem("why", why);
  location.reload();
}
export function enter(token, drawn) {
  sessionStorage.setItem("token", token);
  visit = {token, stop: new AbortController(), message: -1, details: [], version: "", stateless: false, failed: 0, recalled: 0};
  drawHealth("warn", "Connecting");
  follow(visit, drawn);
  listen(visit);
}
// Returns the token that a one-time code stands for.
export async function redeem(code) {
  const answer = await fetch("/drf/v1/login", {method: "POST", body: code, cache: "no-store"});
  if (!answer.ok) throw new Error(cut((await answer.text()).trim(), 200));
  return (await answer.json()).token;
}
