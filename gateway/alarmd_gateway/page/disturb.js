// What a person may disturb in a simulation: a part of the plant's screen, there only while a plant is simulated.

import { el } from "./dom.js";
import { get, post } from "./http.js";
import { tell } from "./orders.js";

export class Disturb {
  constructor() {
    this.rows = el("div", { class: "disturbances" });
    this.part = el("div", { class: "part disturb", hidden: true }, el("h2", {}, "Disturb the simulation"), this.rows);
  }

  async load() {
    try {
      this.fill((await get("/api/disturbances")).disturbances);
    } catch { /* the banner tells that nothing is live */ }
  }

  async set(name, value) {
    try {
      this.fill((await post("/api/disturbances", { name, value })).disturbances);
      tell(`${name} is ${String(value).toUpperCase()} from the next scan on.`);
    } catch (fault) {
      tell(`${name}: ${fault.message}`, true);
    }
  }

  fill(list) {
    this.part.hidden = list.length === 0;
    const focused = document.activeElement?.dataset?.disturbance;
    this.rows.replaceChildren(...list.map((one) => this.row(one)));
    if (focused) this.rows.querySelector(`[data-disturbance="${CSS.escape(focused)}"]`)?.focus();
  }

  row({ name, kind, value }) {
    if (kind === "BOOL") {
      const button = el("button", { type: "button", "aria-pressed": String(value), "data-disturbance": name }, `${name}: ${value ? "TRUE" : "FALSE"}`);
      button.onclick = () => this.set(name, !value);
      return button;
    }
    const field = el("input", { type: "number", step: "1", value: String(value), "data-disturbance": name });
    field.onchange = () => this.set(name, field.value);
    return el("label", {}, `${name} `, field);
  }
}
