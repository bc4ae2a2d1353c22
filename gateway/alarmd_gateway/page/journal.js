// The journal by pages, the newest first page on its own way down; and as CSV.

import { $, el, setText } from "./dom.js";
import { get } from "./http.js";
import { VirtualList } from "./rows.js";
import { DONE, STATES, TRAPS, duration, longTime } from "./words.js";

const PAGE = 200; // rows

function textOf(row) {
  if (row.kind === "alarm") return `${STATES[row.from]} → ${STATES[row.to]}`;
  if (row.kind === "fault") return `stopped at ${row.file ? `${row.file} line ${row.line}` : `statement ${row.statement}`} (${TRAPS[row.fault] ?? row.fault})`;
  if (row.kind === "reload") {
    const by = [row.user, row.reason].filter(Boolean).join(": ");
    return `another plant is served: ${row.kept} alarms go on, ${row.new} begin anew${by ? ` · ${by}` : ""}`;
  }
  const time = row.milliseconds === null || row.milliseconds === undefined ? "" : ` for ${duration(row.milliseconds)}`;
  const by = [row.user, row.reason].filter(Boolean).join(": ");
  const what = row.reply === "OK" ? DONE[row.command] : `${row.command} refused (${row.reply})`;
  return `console ${row.console}: ${what}${time}${by ? ` · ${by}` : ""}`;
}

const subjectOf = (row) => row.tag ?? row.path ?? row.target ?? "";
const KINDS = { alarm: "alarm", fault: "FAULT", order: "order", reload: "plant" };

export class JournalScreen {
  constructor(store) {
    this.store = store;
    this.first = null; // of the page; null: the newest
    this.next = null;
    this.asked = 0;
    this.list = new VirtualList({
      label: "Journal",
      columns: [["Row", "number"], ["Time (UTC)", "time"], ["Kind", "kind"], ["Of", "tag"], ["What", "what"]],
      empty: "No row.",
      key: (row) => row.number,
      make: () => ["number", "time", "kind", "tag", "what"].map((name) => el("div", { class: name })),
      fill: ([number, time, kind, tag, what], row, element) => {
        setText(number, String(row.number));
        setText(time, longTime(row.time).slice(0, -4));
        setText(kind, KINDS[row.kind] ?? row.kind);
        setText(tag, subjectOf(row));
        setText(what, textOf(row));
        element.dataset.kind = row.kind;
      },
    });
    this.list.height = 32;
    const button = (id, text, act) => el("button", { type: "button", id, onclick: act }, text);
    this.from = el("input", { type: "number", min: 1, id: "journal-from", "aria-label": "Row to begin with" });
    this.from.addEventListener("keydown", (event) => event.key === "Enter" && this.open(Math.min(1e12, Math.max(1, Math.floor(Number(this.from.value)) || 1))));
    this.where = el("span", { class: "where", role: "status" });
    this.csv = el("a", { id: "journal-csv", class: "button", href: "/api/journal.csv?spreadsheet=1", download: "journal.csv" }, "CSV");
    this.bar = el(
      "div",
      { class: "bar", role: "toolbar", "aria-label": "Pages of the journal" },
      button("journal-oldest", "Oldest", () => this.open(1)),
      (this.earlier = button("journal-earlier", "Earlier", () => this.open(Math.max(1, this.begin - PAGE)))),
      (this.later = button("journal-later", "Later", () => this.open(this.next))),
      button("journal-newest", "Newest", () => this.open(null)),
      el("label", {}, "From row ", this.from),
      this.where,
      this.csv,
    );
    this.more = el("p", { class: "more" }, "Alarms, faults, orders and changes of the plant in the order in which they came. Times are the moments of scans.");
    $("journal").append(this.bar, el("div", { class: "holder" }, this.list.grid), this.more);
  }

  get begin() {
    return this.first ?? Math.max(1, this.store.rows - PAGE + 1);
  }

  // Another page, from its beginning.
  open(first) {
    this.first = first;
    this.jump = true;
    this.load();
  }

  // Whether the page is another one by now: the newest one, one that isn't full, and any where a new record has begun.
  get grows() {
    const [rows, shown] = [this.store.rows, this.shownLength];
    return rows < shown || (rows !== shown && (this.first === null || this.next === null));
  }

  show() {
    if (this.grows) this.load();
  }

  async load() {
    if (this.loading) {
      this.again = true;
      return;
    }
    this.loading = true;
    const [newest, jump, length] = [this.first === null, this.jump, this.store.rows];
    this.jump = false;
    try {
      const begin = this.begin;
      const found = await get(`/api/journal?from=${begin}&count=${PAGE}`);
      this.shownLength = length;
      this.next = found.next;
      this.list.show(newest ? found.rows.reverse() : found.rows);
      if (jump) this.list.body.scrollTop = 0;
      this.later.disabled = found.next === null;
      this.earlier.disabled = begin <= 1;
      const numbers = found.rows.map((row) => row.number);
      const range = numbers.length ? `rows ${Math.min(...numbers)} to ${Math.max(...numbers)} of ${found.length}` : `no rows of ${found.length}`;
      if (newest && found.length && !numbers.length) setText(this.where, `rows ${begin} to ${found.length} of ${found.length}: none is of your areas`);
      else setText(this.where, newest ? `${range}, the newest first` : range);
    } catch (fault) {
      setText(this.where, fault.message);
    }
    // not more often than twice a second, however fast rows come
    setTimeout(() => {
      this.loading = false;
      if (this.again || (this.grows && !$("journal").hidden)) {
        this.again = false;
        this.load();
      }
    }, 500);
  }

  key() {
    return false;
  }

  focus() {
    this.list.focus();
  }
}
