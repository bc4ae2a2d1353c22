// The figures of the alarm system, beside what ISA-18.2 recommends.

import { $, el, setText } from "./dom.js";
import { get } from "./http.js";
import { duration, longTime, percent, STATES } from "./words.js";

const PERIODS = [[8, "8 hours"], [24, "24 hours"], [168, "7 days"], [720, "30 days"], [0, "The whole record"]];

function table(title, head, rows, note = "") {
  const cells = (row, name) => row.map((cell) => (cell instanceof Node ? el(name, {}, cell) : el(name, {}, String(cell ?? ""))));
  const body = rows.length ? rows.map((row) => el("tr", { class: row.over ? "over" : "" }, ...cells(row, "td"))) : [el("tr", {}, el("td", { colspan: head.length }, "none"))];
  return el(
    "section",
    { class: "figure" },
    el("h2", {}, title),
    el("table", {}, el("thead", {}, el("tr", {}, ...head.map((text) => el("th", { scope: "col" }, text)))), el("tbody", {}, ...body)),
    note ? el("p", {}, note) : "",
  );
}

// A row that is marked where a figure is over what is recommended.
function row(over, ...cells) {
  return Object.assign(cells, { over });
}

const over = (value, most, text) => (value > most ? `▲ ${text}` : text);
const consoleName = (number) => (number ? `Console ${number}` : "All");

function rates(report) {
  const head = ["", "Alarms", "Per 10 min", "Per day", "Largest in 10 min", "At (UTC)", "Time in flood"];
  const wanted = ["recommended", "", report.recommended.per_ten_minutes, report.recommended.per_day, report.recommended.largest, "", report.recommended.flood];
  const rows = report.rates.map((one) =>
    row(
      one.per_ten_minutes > 2 || one.per_day > 300 || one.largest > 10 || one.flood >= 0.01,
      consoleName(one.console),
      one.count,
      over(one.per_ten_minutes, 2, one.per_ten_minutes.toFixed(2)),
      over(one.per_day, 300, one.per_day.toFixed(1)),
      over(one.largest, 10, String(one.largest)),
      longTime(one.largest_at_time).slice(0, -4),
      one.flood >= 0.01 ? `▲ ${percent(one.flood)}` : percent(one.flood),
    ),
  );
  return table("Annunciated alarms", head, [...rows, row(false, ...wanted)], "An alarm counts when it becomes unacknowledged. Flood: more than 10 in the last 10 minutes.");
}

function priorities(report) {
  const rows = report.priorities.map((one) => row(false, `${one.priority} (${one.name})`, one.count, percent(one.share), one.recommended));
  return table("By priority", ["Priority", "Alarms", "Share", "Recommended"], rows, "Low is 4 here, highest is 1.");
}

function frequent(report) {
  const rows = report.frequent.map((one) => row(one.share > 0.05, one.tag, one.count, over(one.share, 0.05, percent(one.share))));
  const [count, share] = ["count", "share"].map((name) => report.frequent.reduce((sum, one) => sum + one[name], 0));
  if (rows.length > 1) rows.push(row(share > 0.05, "all of these", count, over(share, 0.05, percent(share)))); // the recommendation is for these
  return table("Ten most frequent", ["Tag", "Alarms", "Share"], rows, `Recommended: ${report.recommended.frequent}.`);
}

function chattering(report) {
  const rows = report.chattering.map((one) => row(true, one.tag, `▲ ${one.largest}`, longTime(one.at_time).slice(0, -4)));
  return table("Chattering (3 or more in a minute)", ["Tag", "Most in a minute", "At (UTC)"], rows, `Recommended: ${report.recommended.chattering}.`);
}

function stale(report) {
  const rows = report.stale.map((one) => row(report.stale.length >= 5, one.tag, STATES[one.code], longTime(one.since_time).slice(0, -4)));
  return table("Stale (standing for more than 24 hours)", ["Tag", "State", "Since (UTC)"], rows, `Recommended: ${report.recommended.stale}.`);
}

function waits(report) {
  const one = report.acknowledgements;
  const time = (given) => (given === null ? "" : duration(given));
  return table("Time to acknowledgement", ["Figure", "Value"], [
    row(false, "acknowledged", one.count),
    row(false, "median", time(one.median)),
    row(false, "mean", time(one.mean)),
    row(false, "longest", time(one.largest)),
    row(false, "put aside unacknowledged", one.aside),
    row(false, "waiting now", one.waiting),
    row(false, "longest wait now", time(one.longest)),
  ]);
}

function shelved(report) {
  const rows = report.shelved.map((one) => row(false, one.tag, longTime(one.since_time).slice(0, -4), longTime(one.until_time).slice(0, -4), one.console ?? ""));
  return table("Shelved now", ["Tag", "Since (UTC)", "Until", "Console"], rows);
}

function days(report) {
  const rows = report.days.map((day) => row(day.counts.some((count) => count > 300), day.day, ...day.counts.map((count) => over(count, 300, String(count)))));
  return table("Alarms of each day", ["Day (UTC)", ...report.rates.map((one) => consoleName(one.console))], rows);
}

export class FiguresScreen {
  constructor() {
    this.period = el("select", { id: "period", "aria-label": "Time", onchange: () => this.load() }, ...PERIODS.map(([hours, text]) => el("option", { value: hours, selected: hours === 24 }, text)));
    this.where = el("span", { class: "where", role: "status" });
    this.csv = el("a", { class: "button", id: "figures-csv", download: "figures.csv", href: "/api/report.csv?spreadsheet=1&hours=24" }, "CSV");
    const again = el("button", { type: "button", id: "figures-again", onclick: () => this.load() }, "Work out anew");
    this.body = el("div", { class: "figures-body", tabIndex: 0, role: "region", "aria-label": "Figures" });
    $("figures").append(el("div", { class: "bar", role: "toolbar", "aria-label": "Figures" }, el("label", {}, "Time ", this.period), again, this.where, this.csv), this.body);
  }

  show() {
    if (!this.loaded) this.load();
  }

  opened() {
    this.load();
  }

  async load() {
    if (this.loading) return;
    this.loading = this.loaded = true;
    const hours = this.period.value;
    this.csv.href = `/api/report.csv?spreadsheet=1&hours=${hours}`;
    setText(this.where, "working it out …");
    try {
      const report = await get(`/api/report?hours=${hours}`, 180000);
      this.body.replaceChildren(rates(report), priorities(report), waits(report), frequent(report), chattering(report), stale(report), shelved(report), days(report));
      setText(this.where, `${longTime(report.begin_time)} to ${longTime(report.end_time)}`);
    } catch (fault) {
      setText(this.where, fault.message);
    }
    this.loading = false;
    if (this.period.value !== hours) this.load();
  }

  key() {
    return false;
  }

  focus() {
    this.body.focus();
  }
}
