// Actions: what is sent, the dialog that shows it first, and what the answer means. Outside the proof.
import {call} from "./gateway.js";
import {$, button, make, say} from "./dom.js";
import {view} from "./state.js";
import {bundle, cut, plain, plural, visible} from "./text.js";

// What each refusal means, as docs/REFERENCE.md has it.
export const refusals = {
  __proto__: null,
  HistoryFull: "the number of accepted events has reached its capacity",
  BadMoment: "the timestamp is above 2^62",
  UnknownAgent: "no agent has this name",
  KnownAgent: "an agent has this name already",
  UnknownFramework: "no framework has this name",
  KnownFramework: "a framework has this name already",
  UnknownOffer: "no outstanding offer has this number",
  NotYours: "the offer was made to another framework",
  UnknownTask: "the framework has no task with this name",
  KnownTask: "the framework has a task with this name already, or two tasks of the accept have the same name",
  NotInRole: "the framework is not registered in this role",
  DefaultRole: "the event sets a limit or makes a reservation for *",
  Empty: "the framework has no roles, a task uses nothing, or there is nothing to reserve or unreserve",
  NotUnreserved: "the resources to reserve or unreserve name a reservation",
  NotCovered: "the tasks use more than the offer has; the resources to reserve or unreserve are not all free; or the new total does not cover the resources held on the agent",
  OverLimit: "the reservation would take the role, or a role above it, over its limit",
  BadWeight: "the weight is not from 0.001 to 1000",
  TooLarge: "the agent would have more of a scalar than the capacity",
  TooMany: "a table would exceed its capacity",
  RoleInUse: "the framework holds an offer or a task in a role that it would leave",
  NotJson: "the line is not JSON",
  BadShape: "the event is unknown, a key is missing or unknown, or a value has another type",
  BadText: "a text is not the name, role, resources, limit or weight that its key requires",
  LineTooLong: "more than 65,536 bytes before the line feed",
};
const field = (name, label, value, help) => ({name, label, value, help});
const line = event => () => [event];
const free = "free resources, such as cpus:2;mem:1024";

export const actions = {
  drain: a => ({title: `Drain ${a.name}`, verb: "Drain", done: `${a.name} is drained`, lines: line({event: "deactivate_agent", agent: a.name}),
    text: `${a.name} gets no more offers. ${a.offers.length ? `Its ${plural(a.offers.length, "outstanding offer")} ${a.offers.length === 1 ? "ends" : "end"}. ` : ""}`
      + (a.tasks.length ? `Its ${plural(a.tasks.length, "task")} ${a.tasks.length === 1 ? "keeps" : "keep"} running.` : "It runs no task.")}),
  activate: a => ({title: `Activate ${a.name}`, verb: "Activate", done: `${a.name} is active`, lines: line({event: "activate_agent", agent: a.name}), text: `${a.name} gets offers again.`}),
  removeAgent: a => ({title: `Remove ${a.name}`, verb: "Remove", isGrave: true, done: `${a.name} is removed`, lines: line({event: "remove_agent", agent: a.name}),
    text: `${a.name} leaves, with its ${plural(a.tasks.length, "task")}, ${plural(a.offers.length, "offer")} and reservations. This cannot be undone.`}),
  reserve: a => ({title: `Reserve on ${a.name}`, verb: "Reserve", done: `reserved on ${a.name}`, text: "Free unreserved resources of this agent become reserved for the role and the roles below it.",
    fields: [field("role", "Role", "", "such as eng or eng/web"), field("resources", "Resources", "", free)],
    lines: v => [{event: "reserve", agent: a.name, role: v.role, resources: v.resources}]}),
  unreserve: (a, role, resources) => ({title: `Unreserve on ${a.name}`, verb: "Unreserve", done: `unreserved on ${a.name}`, text: "Free resources that are reserved for exactly this role become unreserved.",
    fields: [field("role", "Role", role, "the role of the reservation"), field("resources", "Resources", resources, free)],
    lines: v => [{event: "unreserve", agent: a.name, role: v.role, resources: v.resources}]}),
  policy: node => ({title: `Weight and limit of ${node.path}`, verb: "Set", done: `set for ${node.path}`,
    text: "The role's share is divided by its weight. The limit is the most that the role and the roles below it may consume; without a text there is no limit.",
    fields: [field("weight", "Weight", String(node.weight), "from 0.001 to 1000"), ...(node.path === "*" ? [] : [field("limit", "Limit", node.limitText, "scalars, such as cpus:40;mem:65536")])],
    lines: v => [...(v.weight !== String(node.weight) ? [{event: "set_weight", role: node.path, weight: v.weight}] : []),
      ...(v.limit !== undefined && v.limit !== node.limitText ? [{event: "set_limit", role: node.path, limit: v.limit}] : [])]}),
  removeFramework: f => ({title: `Remove ${f.link?.name || f.name}`, verb: "Remove", isGrave: true, done: `${f.link?.name || f.name} is removed`, lines: line({event: "remove_framework", framework: f.name}),
    text: `The framework leaves, with its ${plural(f.tasks.length, "task")} and ${plural(f.offers.length, "offer")}. This cannot be undone.`}),
  rescind: o => ({title: `Rescind offer ${plain(o.offer)}`, verb: "Rescind", done: `offer ${plain(o.offer)} is rescinded`, lines: line({event: "rescind", offer: o.offer}),
    text: `The offer of ${bundle(o.resources)} on ${visible(o.agent)} to ${visible(o.framework)} ends. Its resources are free again.`}),
  kill: t => ({title: `Kill task ${t.task}`, verb: "Kill", isGrave: true, done: `task ${t.task} is being killed`, path: "/drf/v1/kill-task", lines: line({framework: t.id, task: t.task}),
    text: "The agent ends the task: SIGTERM, and after three seconds SIGKILL. Its framework gets the status."}),
};

// A key of a batch: when the answer is lost, the batch is sent again with it, and applied once.
const newKey = () => "page-" + [...crypto.getRandomValues(new Uint8Array(16))].map(b => b.toString(16).padStart(2, "0")).join("");
let open = null;

// Opens the dialog for an action.
export function confirm(action) {
  open = {...action, key: newKey(), inputs: new Map(), sent: ""};
  say($("ask-title"), visible(action.title));
  say($("ask-text"), action.text);
  $("ask-fields").replaceChildren(...(action.fields || []).flatMap(f => fieldOf(f)));
  $("ask-go").className = action.isGrave ? "grave" : "main";
  say($("ask-go"), action.verb);
  say($("ask-head"), action.path ? `What is sent to ${action.path}` : "Event lines that are sent");
  answer("", "");
  $("ask-go").disabled = false;
  drawLines();
  $("ask").showModal();
  (open.inputs.values().next().value || $("ask-cancel")).focus();
}
function fieldOf(f) {
  const input = make("input"), label = make("label", "", f.label), help = make("small", "dim", f.help);
  input.id = "ask-" + f.name;
  label.htmlFor = input.id;
  help.id = input.id + "-help";
  input.setAttribute("aria-describedby", help.id);
  Object.assign(input, {value: f.value, autocomplete: "off", spellcheck: false});
  input.oninput = drawLines;
  open.inputs.set(f.name, input);
  return [label, input, help];
}
function lines() {
  const values = Object.fromEntries([...open.inputs].map(([name, input]) => [name, input.value.trim()]));
  return open.lines(values).map(event => JSON.stringify(event));
}
function drawLines() {
  const text = lines().join("\n");
  say($("ask-lines"), text || "nothing is changed yet");
  $("ask-go").disabled = !text;
  if (open.sent && open.sent !== text) { open.key = newKey(); open.sent = ""; answer("", ""); say($("ask-go"), open.verb); }
}
function answer(kind, text) {
  $("ask-answer").className = kind;
  $("ask-answer").hidden = !text;
  say($("ask-answer"), text);
}
async function send() {
  const mine = open, body = lines().join("\n");
  mine.sent = body;
  $("ask-go").disabled = true;
  answer("dim", "Sending …");
  const result = await sendOnce(mine, body);
  if (mine !== open || !$("ask").open) { if (result.isDone) announce(result.text); return; }
  $("ask-go").disabled = false;
  if (result.isDone) { $("ask").close(); announce(result.text); view.dirty = true; return; }
  if (result.isOver) mine.key = newKey();
  answer("bad", result.text);
  if (!result.isOver) say($("ask-go"), "Send again");
}
// isDone: it was applied. isOver: what is sent next is another batch.
async function sendOnce(mine, body) {
  let response, text;
  try {
    response = await call(mine.path || "/drf/v1/events", {method: "POST", body, headers: {"Content-Type": mine.path ? "application/json" : "application/x-ndjson", "Idempotency-Key": mine.key}});
    text = await response.text();
  } catch {
    return {text: "The gateway did not answer, so it is not known whether this was applied. If you send it again, it is applied at most once."};
  }
  if (mine.path && response.ok) return {isDone: true, text: sentence(mine.done)};
  if (!response.ok) return httpAnswer(response, text);
  const refused = text.trim().split("\n").map((reply, k) => ({...JSON.parse(reply), line: k + 1})).filter(reply => reply.refused);
  if (!refused.length) return {isDone: true, text: sentence(mine.done)};
  return {isOver: true, text: refused.map(r => `The allocator refused line ${r.line} (${visible(r.name)}): ${refusals[r.name] || "the reason is not known here"}.`).join(" ")};
}
function httpAnswer(response, text) {
  const why = cut(visible(text.trim()), 300), applied = response.headers.get("Drf-Applied");
  if (response.status === 403) return {isOver: true, text: `Your token does not allow this: ${why}.`};
  if (applied === "unknown" || response.status === 504) return {text: `It is not known whether this was applied: ${why}. If you send it again, it is applied at most once.`};
  return {isOver: applied !== "yes", text: `The gateway refused it: ${why}.`};
}
const sentence = text => visible(text[0].toUpperCase() + text.slice(1)) + ".";
let clearing;
export function announce(text) {
  say($("toast"), text);
  $("toast").hidden = false;
  clearTimeout(clearing);
  clearing = setTimeout(() => { $("toast").hidden = true; say($("toast"), ""); }, 8000);
}
export function actionButton(text, label, action, as = "") {
  return button(text, as, () => confirm(action()), label);
}
export function startActions() {
  $("ask-form").onsubmit = e => { e.preventDefault(); send(); };
  $("ask-cancel").onclick = () => $("ask").close();
  $("ask").onclose = () => { open = null; };
}
