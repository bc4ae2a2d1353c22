// The plant itself: programs, and the values of inputs and outputs.

import { $, el, setText } from "./dom.js";
import { restart, stoppedPlace } from "./banner.js";
import { Disturb } from "./disturb.js";
import { VirtualList } from "./rows.js";
import { shortTime, value } from "./words.js";

function values(label, columns) {
  return new VirtualList({
    label,
    columns,
    empty: "None.",
    key: (one) => one.name,
    make: () => ["name", "kind", "value"].map((name) => el("div", { class: name })),
    fill: ([name, kind, given], one, row) => {
      setText(name, one.name);
      setText(kind, one.kind);
      setText(given, one.text);
      row.classList.toggle("stale", one.stale);
      row.dataset.name = one.name;
    },
  });
}

export class PlantScreen {
  constructor(store) {
    this.store = store;
    const columns = (what) => [[what, "name"], ["Kind", "kind"], ["Value", "value"]];
    this.inputs = values("Inputs", columns("Input"));
    this.outputs = values("Outputs", columns("Output"));
    this.programs = new VirtualList({
      label: "Programs",
      columns: [["Program", "name"], ["Source", "source"], ["State", "state"], ["", "action"]],
      empty: "None.",
      key: (one) => one.name,
      make: () => {
        const button = el("button", { type: "button" }, "Restart …");
        return [...["name", "source", "state"].map((name) => el("div", { class: name })), el("div", { class: "action" }, button)];
      },
      fill: ([name, source, state, action], one, row) => {
        setText(name, one.name);
        setText(source, `${one.file}:${one.line}`);
        setText(state, one.stopped ? `STOPPED ${shortTime(one.stopped.time, store.now)} at ${stoppedPlace(one.stopped)}` : "runs");
        row.classList.toggle("stopped", Boolean(one.stopped));
        const button = action.firstChild;
        button.hidden = !one.stopped;
        button.disabled = !store.live;
        button.onclick = () => restart(store, one.stopped);
      },
    });
    const part = (title, list, name) => el("div", { class: `part ${name}` }, el("h2", {}, title), list.grid);
    this.more = el("p", { class: "more" });
    this.disturb = new Disturb();
    $("plant").append(
      el("div", { class: "parts" }, part("Programs", this.programs, "programs"), part("Inputs", this.inputs, "inputs"), part("Outputs", this.outputs, "outputs")),
      this.disturb.part,
      this.more,
    );
  }

  show() {
    const { store } = this;
    const stale = new Set([...store.troubles.values()].filter((one) => one.kind === "stale").map((one) => one.subject));
    const told = (given, name) => (name in given ? value(given[name]) : "");
    const rows = (list, given) =>
      list.map(({ name, kind }) => ({
        name,
        kind: kind === "TIME" ? "TIME, ms" : kind,
        stale: stale.has(name),
        text: `${told(given, name)}${stale.has(name) ? "  stale" : ""}`,
      }));
    this.inputs.show(rows(store.inputs, store.values.inputs));
    this.outputs.show(rows(store.outputs, store.values.outputs));
    this.programs.show(store.programs.map((one) => ({ ...one, stopped: store.stopped.get(one.name) })));
    setText(this.more, store.eventsLeft === null ? "" : `${store.eventsLeft.toLocaleString("en")} of 1,000,000 events are left in this record.`);
  }

  opened() {
    this.disturb.load();
  }

  key() {
    return false;
  }

  focus() {
    this.programs.focus();
  }
}
