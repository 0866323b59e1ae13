// Who sent what, and when. Outside the proof.
import {$, make, say} from "./dom.js";
import {told} from "./feed.js";
import {call} from "./gateway.js";
import {cut, plain, plural, stamp, visible} from "./text.js";

const fields = ["event", "agent", "framework", "role", "task", "name"];
const kinds = ["set_limit", "set_weight", "reserve", "unreserve", "add_agent", "set_agent", "activate_agent", "deactivate_agent", "remove_agent", "add_framework", "set_framework",
  "remove_framework", "accept", "decline", "rescind", "finish", "suppress", "revive", "cycle"];
let asked = 0;

// The lines that were asked for in words, or how many events of each kind there are.
function whatOf(r) {
  if (r.matches?.length) return r.matches.slice(0, 5).map(m => { const t = told(m.text, JSON.stringify(m.reply)); return t.text + (t.refused ? ` (${t.refused})` : ""); })
    .concat(r.matches.length > 5 ? [`and ${plain(r.matches.length - 5)} more`] : []);
  return [Object.entries(r.events).map(([kind, n]) => `${plain(n)} ${kind}`).join(", ") + (r.refused ? `, ${plain(r.refused)} refused` : "") || visible(r.call || "")];
}
function rowOf(r) {
  const tr = make("tr"), when = make("th", "", stamp(r.at)), what = make("td");
  when.scope = "row";
  for (const text of whatOf(r)) what.append(make("div", "", text));
  const who = make("td", "", visible(r.name || (r.cause ? `the gateways (${r.cause})` : "not known")));
  tr.append(when, who, make("td", "", visible(r.address || "")), what, make("td", "n", plain(r.message)));
  tr.setAttribute("role", "row");
  [...tr.cells].forEach((cell, k) => { cell.setAttribute("role", k ? "cell" : "rowheader"); if (k) cell.dataset.label = ["", "By", "From", "What", "Message"][k]; });
  return tr;
}
async function search(before) {
  const id = ++asked, query = new URLSearchParams(), body = $("audit-table").tBodies[0];
  for (const name of fields) if ($("audit-" + name).value.trim()) query.set(name, $("audit-" + name).value.trim());
  if ($("audit-refused").checked) query.set("answer", "refused");
  query.set("limit", "50");
  if (before) query.set("before", before); else body.replaceChildren();
  say($("audit-state"), "Searching …");
  $("audit-more").hidden = true;
  let page;
  try {
    const answer = await call("/drf/v1/audit?" + query);
    if (id !== asked) return;
    if (!answer.ok) { say($("audit-state"), "No answer: " + cut(visible((await answer.text()).trim()), 200)); return; }
    page = await answer.json();
  } catch { if (id === asked) say($("audit-state"), "The gateway does not answer. Search again."); return; }
  body.append(...page.records.map(rowOf));
  const count = body.rows.length;
  $("audit-table").hidden = !count;
  say($("audit-state"), count ? `${plural(count, "message")}, the newest first` : "Nothing was found.");
  $("audit-more").hidden = !page.next;
  $("audit-more").onclick = () => search(page.next);
}
// Shows the page; a query in the address fills the form in.
export function openAudit(text) {
  if (!text && asked) return;
  const query = new URLSearchParams(text);
  if (text) {
    for (const name of fields) $("audit-" + name).value = query.get(name) || "";
    $("audit-refused").checked = query.get("answer") === "refused";
  }
  search(0);
}
export function startAudit() {
  for (const kind of kinds) { const o = make("option", "", kind); o.value = kind; $("audit-event").append(o); }
  $("audit-form").onsubmit = e => { e.preventDefault(); search(0); };
}
