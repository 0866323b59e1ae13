// Numbers, times, names and resources as text. Outside the proof.
const number = new Intl.NumberFormat("en", {maximumFractionDigits: 3});
const compact = new Intl.NumberFormat("en", {notation: "compact", maximumSignificantDigits: 4});
export const plain = n => number.format(n);
export const short = n => n < 1e6 ? plain(n) : compact.format(n);
export const percent = x => (100 * x).toFixed(x > 9.995 ? 0 : 1) + "%";
export const plural = (n, one, many = one + "s") => plain(n) + " " + (n === 1 ? one : many);
export const cut = (text, most) => text.length > most ? text.slice(0, most) + "…" : text;
export const some = (list, most = 6) => list.slice(0, most).map(visible).join(", ") + (list.length > most ? ` and ${plain(list.length - most)} more` : "");

// Makes characters visible that would hide something: controls, marks of direction and the like.
export const visible = text => String(text).replace(/[\p{C}\u2028\u2029]/gu, c => "\\u{" + c.codePointAt(0).toString(16) + "}");

const isDate = ms => ms >= 1e11 && ms <= 8e15;
// A time of today as 12:03:04, another one with its date.
export function moment(ms) {
  if (!isDate(ms)) return plain(ms) + " ms";
  const at = new Date(ms);
  return at.toDateString() === new Date().toDateString() ? at.toLocaleTimeString("en-GB") : at.toLocaleString("en-GB");
}
const dated = new Intl.DateTimeFormat("en-GB", {weekday: "short", day: "numeric", month: "short", year: "numeric"});
const clock = new Intl.DateTimeFormat("en-GB", {hour: "2-digit", minute: "2-digit", second: "2-digit", timeZoneName: "short"});
// The date, and the time with its zone.
export const dateAndZone = ms => isDate(ms) ? [dated.format(ms), clock.format(ms)] : ["", plain(ms) + " ms"];
const stamped = new Intl.DateTimeFormat("en-GB", {day: "numeric", month: "short", year: "numeric", hour: "2-digit", minute: "2-digit", second: "2-digit", timeZoneName: "short"});
// A date, a time and its zone.
export const stamp = ms => isDate(ms) ? stamped.format(ms) : plain(ms) + " ms";
export function span(ms) {
  const rounded = unit => plain(Math.round(10 * ms / unit) / 10);
  return ms < 1000 ? plain(ms) + " ms" : ms < 120000 ? rounded(1000) + " s" : ms < 7200000 ? rounded(60000) + " min" : rounded(3600000) + " h";
}
export function ago(ms) {
  const s = Math.max(0, Math.round(ms / 1000));
  return s < 120 ? `${s} s` : s < 7200 ? `${Math.floor(s / 60)} min` : s < 172800 ? `${Math.floor(s / 3600)} h` : `${Math.floor(s / 86400)} days`;
}

// A key by which names sort as people expect: n2 before n10.
const keys = new Map();
export function natural(name) {
  let key = keys.get(name);
  if (key === undefined) {
    key = name.toLowerCase().replace(/\d+/g, d => d.padStart(12, "0"));
    if (keys.size > 100000) keys.clear();
    keys.set(name, key);
  }
  return key;
}
export const byName = (a, b) => natural(a) < natural(b) ? -1 : natural(a) > natural(b) ? 1 : 0;

// ---- resource texts, as `cpus:4;mem(eng):512;ports:[1-9,20];disk:{a,b}`
const known = new Map();
export function pieces(text) {
  let list = known.get(text);
  if (list) return list;
  list = text.split(";").filter(p => p).map(piece => {
    const colon = piece.indexOf(":"), head = piece.slice(0, colon), value = piece.slice(colon + 1), open = head.indexOf("(");
    const kind = value[0] === "[" ? "range" : value[0] === "{" ? "set" : "scalar";
    const parts = kind === "scalar" ? [] : value.slice(1, -1).split(",").filter(p => p);
    const size = r => { const [a, b = a] = r.split("-").map(Number); return b - a + 1; };
    const amount = kind === "scalar" ? Number(value) : kind === "set" ? parts.length : parts.reduce((n, r) => n + size(r), 0);
    return {name: open < 0 ? head : head.slice(0, open), role: open < 0 ? "*" : head.slice(open + 1, -1), kind, amount, value};
  });
  if (known.size > 50000) known.clear();
  known.set(text, list);
  return list;
}
export const add = (sums, name, amount) => sums.set(name, (sums.get(name) || 0) + amount);
export function addAll(sums, text, which = () => true) {
  for (const p of pieces(text)) if (which(p)) add(sums, p.name, p.amount);
}
export const isScalar = p => p.kind === "scalar";
export const bundle = text => visible(text).split(";").filter(p => p).map(p => p.replace(":", " ")).join(", ") || "nothing";
export const rank = name => ["cpus", "mem", "gpus", "disk", name].indexOf(name);
export const byRank = (a, b) => rank(a) - rank(b) || (a < b ? -1 : 1);
