// Starts the page, signs in, and shows the part that the address names. Outside the proof.
import {startActions} from "./actions.js";
import {openAudit, startAudit} from "./audit.js";
import {drawAgent, drawFramework, focusDetail, startDetails} from "./details.js";
import {$, keyed, make, say} from "./dom.js";
import {drawFeed, drawRate, startFeed} from "./feed.js";
import {enter, leave, redeem} from "./gateway.js";
import {agents, frameworks, offers, tasks} from "./lists.js";
import {drawMap, startMap} from "./map.js";
import {drawMembers, startMembers} from "./members.js";
import {drawMeters, drawNotes, drawNumbers, drawTree, startOverview} from "./overview.js";
import {view} from "./state.js";
import {visible} from "./text.js";

const lists = {agents, frameworks, tasks, offers};
const titles = {overview: "Overview", agents: "Agents", frameworks: "Frameworks", tasks: "Tasks", offers: "Offers", members: "Members", audit: "Audit"};

function drawPage() {
  const c = view.cluster;
  drawRate();
  drawNotes();
  if (view.me) say($("who"), visible(view.me.name));
  if (view.page === "members") drawMembers();
  if (!c) return;
  drawNumbers(c);
  const fullest = Math.max(0, ...[...c.total].map(([name, all]) => all ? (c.used.get(name) || 0) / all : 0));
  document.title = `${titles[view.page]} · ${Math.round(100 * fullest)}% used · Durzhanok`;
  if (view.page === "overview") {
    drawMeters(c);
    drawTree();
    const names = [...new Set(c.agents.flatMap(a => [...a.total.keys()]))].sort();
    keyed($("measure"), ["", ...names], n => n, n => { const o = make("option", "", n || "what is held most"); o.value = n; return o; });
    drawMap();
    return;
  }
  const list = lists[view.page];
  if (!list) return;
  list.isChosen = row => row.name !== undefined && row.name === view.chosen;
  list.show(c[view.page]);
  drawAgent();
  drawFramework();
}
// The address says what is shown: #agents, or #agents/n7, or #agents?silent, or #audit?agent=n7.
function route(isFirst) {
  const [, page = "", filter = "", name = ""] = /^#(\w*)(?:\?([^/]*))?(?:\/(.*))?$/.exec(location.hash) || [];
  const old = view.page, chosen = view.chosen;
  view.page = titles[page] ? page : "overview";
  try { view.chosen = decodeURIComponent(name); } catch { view.chosen = name; }
  for (const each of Object.keys(titles)) {
    $(each).hidden = each !== view.page;
    const tab = $("to-" + each);
    if (each === view.page) tab.setAttribute("aria-current", "page"); else tab.removeAttribute("aria-current");
  }
  if (filter && lists[view.page]?.select) lists[view.page].select.value = lists[view.page].filter = filter;
  if (view.page === "audit") openAudit(filter);
  document.body.classList.toggle("has-detail", !!view.chosen);
  drawPage();
  if (isFirst) return;
  if (view.chosen && view.chosen !== chosen && (view.page === "agents" || view.page === "frameworks")) focusDetail(view.page);
  else if (view.page !== old) { $(view.page + "-title").focus({preventScroll: true}); scrollTo(0, 0); }
}
function welcome(why) {
  $("login").hidden = false;
  $("denied").hidden = !why;
  say($("denied"), why);
  $("token").focus();
}
function signIn(token) {
  $("login").hidden = true;
  $("page").hidden = false;
  drawFeed();
  enter(token, drawPage);
  route(true);
  $("brand").focus();
}
function start() {
  for (const [name, list] of Object.entries(lists)) $(name + "-list").append(list.root);
  startDetails();
  startActions();
  startFeed();
  startOverview();
  startMap();
  startMembers();
  startAudit();
  $("sign-in").onsubmit = e => { e.preventDefault(); if ($("token").value.trim()) signIn($("token").value.trim()); };
  $("skip").onclick = e => { e.preventDefault(); $("content").focus(); };
  $("leave").onclick = () => leave("");
  addEventListener("hashchange", () => route(false));
  new ResizeObserver(() => { if (view.page === "overview") { drawMap(); drawRate(); } }).observe($("page"));
  matchMedia("(prefers-color-scheme: dark)").onchange = () => { drawMap(); drawRate(); };
}
// A one-time code is used at once, and leaves the address before anything else.
async function begin() {
  start();
  const once = /^#once=([0-9a-f]+)$/.exec(location.hash);
  if (once) history.replaceState(null, "", location.pathname);
  const why = sessionStorage.getItem("why") || "", kept = sessionStorage.getItem("token");
  sessionStorage.removeItem("why");
  if (once) {
    try { signIn(await redeem(once[1])); } catch (error) { welcome("The link did not work: " + visible(error.message)); }
    return;
  }
  if (kept) signIn(kept); else welcome(why);
}
begin();
