// What the page shows, shared by its parts. Outside the proof.
export const view = {
  cluster: null, status: null, me: null, problem: "", lacks: "", warning: "", restarts: "", folds: new Map(), agent: "", asked: 0, page: "overview", chosen: "",
  entries: [], count: 0, seconds: [], refusals: new Map(), paused: false, feedDue: false, dirty: false, gone: 0,
};
// Whether the caller has a right, for a name where the right has one. The gateway decides; the page only hides what would be refused.
export function may(right, name = "") {
  return (view.me?.rights || []).some(r => {
    const colon = r.indexOf(":"), kind = colon < 0 ? r : r.slice(0, colon), of = colon < 0 ? "" : r.slice(colon + 1);
    if (r === "admin" || r === right && !name) return true;
    return colon > 0 && kind === right && name && (of === name || kind === "agent" && of.endsWith("*") && name.startsWith(of.slice(0, -1)));
  });
}
export const mayOperate = () => may("operate");
export const mayAgent = name => may("operate") || may("agent", name);
export const mayFramework = name => may("operate") || may("framework", name);
