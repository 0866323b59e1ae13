// A list of any length: searched, sorted, and shown page by page. Outside the proof.
import {button, keyed, make, say} from "./dom.js";
import {plain} from "./text.js";

let ids = 0;
// Columns have a label, a key to sort by, and what fills a cell; `first` puts the greatest on top at the first press.
export class List {
  constructor({name, names, columns, keyOf, textOf, caption, filters = [], sort, empty, size = 50, isSmall = false}) {
    Object.assign(this, {name, names, columns, keyOf, textOf, filters, empty, size, query: "", filter: "", page: 0, rows: []});
    [this.by, this.down] = sort;
    this.id = "list" + ++ids;
    this.root = make("div", "list");
    this.table = make("table");
    this.table.setAttribute("role", "table");
    this.table.append(make("caption", "sr", caption));
    this.body = make("tbody");
    this.body.setAttribute("role", "rowgroup");
    this.table.append(this.head(), this.body);
    this.nothing = make("p", "dim none");
    this.told = make("p", "sr");
    this.told.setAttribute("role", "status");
    const box = make("div", "wide", this.table);
    this.root.append(...(isSmall ? [] : [this.tools()]), box, this.nothing, this.pager(), this.told);
  }
  tools() {
    const bar = make("div", "tools"), search = this.search = make("input");
    search.type = "search";
    search.id = this.id + "-search";
    search.autocomplete = "off";
    search.spellcheck = false;
    search.placeholder = "Search";
    const label = make("label", "sr", `Search ${this.names}`);
    label.htmlFor = search.id;
    search.oninput = () => { this.query = search.value; this.page = 0; this.draw(); this.tellSoon(); };
    bar.append(label, search);
    if (this.filters.length) {
      const select = this.select = make("select");
      select.id = this.id + "-filter";
      for (const [value, text] of [["", `all ${this.names}`], ...this.filters.map(f => [f.name, f.name])]) { const o = make("option", "", text); o.value = value; select.append(o); }
      const label = make("label", "", "Show ", select);
      select.onchange = () => { this.filter = select.value; this.page = 0; this.draw(); this.tellSoon(); };
      bar.append(label);
    }
    this.count = make("span", "count dim");
    bar.append(this.count);
    return bar;
  }
  head() {
    const row = make("tr");
    row.setAttribute("role", "row");
    for (const c of this.columns) {
      const th = c.th = make("th", c.as || "");
      th.scope = "col";
      th.setAttribute("role", "columnheader");
      if (c.sort) th.append(button(c.label, "sort", () => this.sortBy(c))); else th.append(c.isHidden ? make("span", "sr", c.label) : c.label);
      row.append(th);
    }
    const head = make("thead", "", row);
    head.setAttribute("role", "rowgroup");
    return head;
  }
  pager() {
    this.before = button("Previous", "", () => { this.page--; this.draw(); this.tellSoon(); });
    this.after = button("Next", "", () => { this.page++; this.draw(); this.tellSoon(); });
    this.range = make("span", "dim");
    this.turns = make("nav", "pager", this.before, this.range, this.after);
    this.turns.setAttribute("aria-label", `Pages of ${this.names}`);
    return this.turns;
  }
  sortBy(c) {
    [this.by, this.down] = this.by === c.key ? [c.key, !this.down] : [c.key, !!c.first];
    this.page = 0;
    this.draw();
    this.tellSoon();
  }
  show(rows) { this.rows = rows; this.draw(); }
  found() {
    const words = this.query.toLowerCase().split(/\s+/).filter(w => w), filter = this.filters.find(f => f.name === this.filter);
    let rows = filter ? this.rows.filter(filter.has) : this.rows;
    if (words.length) rows = rows.filter(r => { const text = this.textOf(r).toLowerCase(); return words.every(w => text.includes(w)); });
    const column = this.columns.find(c => c.key === this.by), sign = this.down ? -1 : 1;
    const keys = new Map(rows.map(r => [r, column.sort(r)]));
    return [...rows].sort((a, b) => { const x = keys.get(a), y = keys.get(b); return x < y ? -sign : x > y ? sign : 0; });
  }
  draw() {
    const found = this.found(), pages = Math.max(1, Math.ceil(found.length / this.size));
    this.page = Math.max(0, Math.min(this.page, pages - 1));
    const from = this.page * this.size, shown = found.slice(from, from + this.size);
    for (const c of this.columns) if (c.sort) c.th.setAttribute("aria-sort", c.key !== this.by ? "none" : this.down ? "descending" : "ascending");
    for (const c of this.columns) if (c.isOptional) c.th.hidden = c.isAbsent = !this.rows.some(r => c.sort(r));
    keyed(this.body, shown, this.keyOf, row => this.newRow(row), (e, row) => {
      this.columns.forEach((c, k) => { if (c.update) c.update(e.cells[k], row); else say(e.cells[k], c.text(row)); if (c.isOptional) e.cells[k].hidden = c.isAbsent; });
      e.classList.toggle("chosen", !!this.isChosen?.(row));
    });
    this.table.hidden = !found.length;
    this.nothing.hidden = found.length > 0;
    say(this.nothing, this.rows.length ? `No ${this.name} matches.` : this.empty);
    const all = found.length === this.rows.length ? plain(found.length) : `${plain(found.length)} of ${plain(this.rows.length)}`;
    if (this.count) say(this.count, found.length ? all : "");
    this.turns.hidden = pages === 1;
    say(this.range, `${plain(from + 1)}–${plain(from + shown.length)} of ${plain(found.length)}`);
    this.before.disabled = this.page === 0;
    this.after.disabled = this.page === pages - 1;
    this.summary = found.length ? `${all} ${this.names}` + (pages > 1 ? `, page ${this.page + 1} of ${pages}` : "") : this.nothing.textContent;
  }
  newRow(row) {
    const e = make("tr");
    e.setAttribute("role", "row");
    this.columns.forEach((c, k) => {
      const td = make(k ? "td" : "th", c.as || "");
      td.setAttribute("role", k ? "cell" : "rowheader");
      if (!k) td.scope = "row";
      if (k && !c.isHidden) td.dataset.label = c.label;
      c.make?.(td, row);
      e.append(td);
    });
    return e;
  }
  // Screen readers hear of what the reader did, not of each change of the cluster.
  tellSoon() {
    clearTimeout(this.due);
    this.due = setTimeout(() => say(this.told, this.summary), 400);
  }
}
