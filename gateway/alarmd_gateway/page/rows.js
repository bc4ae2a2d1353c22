// A list of many rows of which only those that are seen are drawn.

import { el } from "./dom.js";

const MORE = 3; // rows that are drawn above and below those that are seen

let lists = 0;

export class VirtualList {
  // `columns`: texts of the head, with a class each; `key(item)`; `make()` gives the cells of a new row; `fill(cells, item, row)` fills them;
  // `told(item)`: a text of it that is to be read anew when it is another one
  constructor({ label, columns, key, make, fill, chosen, empty, told }) {
    this.name = `list${++lists}`;
    this.key = key;
    this.make = make;
    this.fill = fill;
    this.chosen = chosen ?? (() => {});
    this.told = told ?? (() => "");
    this.items = [];
    this.drawn = new Map(); // row elements by key
    this.selected = null; // a key
    this.numbers = 0;
    this.height = 40;
    this.head = el("div", { class: "row head", role: "row" }, ...columns.map(([text, name]) => el("div", { class: name, role: "columnheader" }, text)));
    this.spacer = el("div", { class: "spacer", role: "presentation" });
    this.nothing = el("p", { class: "nothing" }, empty ?? "Nothing");
    this.body = el("div", { class: "rows", tabIndex: 0, role: "rowgroup", "aria-label": label, onscroll: () => this.draw() }, this.spacer, this.nothing);
    this.grid = el("div", { class: "grid", role: "grid", "aria-label": label, "aria-readonly": "true" }, el("div", { role: "rowgroup" }, this.head), this.body);
    this.body.addEventListener("keydown", (event) => this.onKey(event));
    const other = () => {
      this.draw();
      this.chosen(this.current()); // others are seen by now
    };
    new ResizeObserver(other).observe(this.body);
    window.addEventListener("scroll", other);
    for (const kind of ["scroll", "resize"]) visualViewport.addEventListener(kind, other);
  }

  show(items) {
    const top = this.body.scrollTop;
    const read = top > 0 ? this.read() : [];
    this.items = items;
    this.places = null;
    this.spacer.style.height = `${items.length * this.height}px`;
    this.grid.setAttribute("aria-rowcount", items.length + 1);
    this.nothing.hidden = items.length > 0;
    // who has scrolled down keeps what was read in its place: by the first row that tells what it did, since one that doesn't may stand elsewhere now
    const anchor = read.find((row) => this.place(row.key) >= 0 && this.told(this.item(row.key)) === row.told);
    if (anchor) this.body.scrollTop = top + (this.place(anchor.key) - anchor.place) * this.height;
    this.draw();
  }

  // The rows that are wholly seen, from above, with what they tell.
  read() {
    const sight = this.sight();
    return [...this.drawn.entries()]
      .map(([key, { place, told }]) => ({ key, place, told }))
      .filter((row) => this.whole(row, sight))
      .sort((a, b) => a.place - b.place);
  }

  // From where until where the list is on the screen, in px from its first row: less than its box where the page is scrolled, or made larger
  // by two fingers. In a tab that isn't shown nothing is.
  sight() {
    if (document.hidden) return { top: 0, end: -Infinity };
    const { scrollTop, clientHeight } = this.body;
    const at = this.body.getBoundingClientRect().top + this.body.clientTop;
    const { offsetTop, height } = visualViewport;
    return { top: scrollTop + Math.max(0, offsetTop - at), end: scrollTop + Math.min(clientHeight, offsetTop + height - at) };
  }

  place(key) {
    if (this.places === null || this.places === undefined) {
      this.places = new Map(this.items.map((item, place) => [this.key(item), place]));
    }
    return this.places.get(key) ?? -1;
  }

  item(key) {
    return this.items[this.place(key)];
  }

  draw() {
    const seen = this.body.clientHeight;
    if (!seen) {
      for (const row of this.drawn.values()) row.since = null;
      return;
    }
    const bar = this.body.offsetWidth - this.body.clientWidth;
    this.head.style.paddingRight = `${bar + 12}px`; // beside the rows' scroll bar
    const first = Math.max(0, Math.floor(this.body.scrollTop / this.height) - MORE);
    const last = Math.min(this.items.length, Math.ceil((this.body.scrollTop + seen) / this.height) + MORE);
    const kept = new Set();
    const sight = this.sight();
    for (let place = first; place < last; place += 1) {
      const item = this.items[place];
      const key = this.key(item);
      kept.add(key);
      const row = this.drawn.get(key) ?? this.add(key);
      row.element.style.transform = `translateY(${place * this.height}px)`;
      row.element.setAttribute("aria-rowindex", place + 2);
      row.place = place;
      this.look(row, this.told(item), sight);
      this.fill(row.cells, item, row.element);
      this.mark(row, key);
    }
    for (const [key, row] of this.drawn) {
      if (kept.has(key)) continue;
      row.element.remove();
      this.drawn.delete(key);
    }
    const active = this.drawn.get(this.selected);
    if (active) this.body.setAttribute("aria-activedescendant", active.element.id);
    else this.body.removeAttribute("aria-activedescendant");
  }

  add(key) {
    const cells = this.make();
    const element = el("div", { class: "row", role: "row", id: `${this.name}-${++this.numbers}`, onclick: () => this.select(key) }, ...cells);
    for (const cell of cells) cell.setAttribute("role", "gridcell");
    const row = { element, cells, since: null, told: null };
    this.drawn.set(key, row);
    this.body.append(element);
    return row;
  }

  // Whether a row is wholly seen.
  whole(row, { top, end }) {
    return row.place * this.height >= top - 1 && (row.place + 1) * this.height <= end + 1;
  }

  // Since when a row tells what it does, wholly seen: `since`, null where it isn't.
  look(row, told, sight) {
    if (!this.whole(row, sight)) row.since = null;
    else if (row.since === null || row.told !== told) row.since = performance.now();
    row.told = told;
  }

  mark(row, key) {
    row.element.classList.toggle("selected", key === this.selected);
    row.element.setAttribute("aria-selected", key === this.selected);
  }

  select(key) {
    this.selected = key;
    for (const [drawn, row] of this.drawn) this.mark(row, drawn);
    const active = this.drawn.get(key);
    if (active) this.body.setAttribute("aria-activedescendant", active.element.id);
    this.chosen(this.item(key));
  }

  current() {
    return this.selected === null ? undefined : this.item(this.selected);
  }

  // The items whose rows are wholly seen, and have been so for at least so many ms, with what they tell. One that has changed since it was
  // drawn isn't seen as it is.
  seen(age = 0) {
    const now = performance.now();
    const sight = this.sight();
    return [...this.drawn.values()]
      .filter((row) => this.whole(row, sight) && row.since !== null && now - row.since >= age)
      .sort((a, b) => a.place - b.place)
      .map((row) => [row, this.items[row.place]])
      .filter(([row, item]) => item !== undefined && this.told(item) === row.told)
      .map(([, item]) => item);
  }

  onKey(event) {
    if (event.ctrlKey || event.altKey || event.metaKey) return;
    const page = Math.max(1, Math.floor(this.body.clientHeight / this.height) - 1);
    const steps = { ArrowDown: 1, ArrowUp: -1, PageDown: page, PageUp: -page, Home: -Infinity, End: Infinity };
    const step = steps[event.key];
    if (step === undefined || !this.items.length) return;
    event.preventDefault();
    const from = this.selected === null ? -1 : this.place(this.selected);
    const begin = from < 0 ? (step > 0 ? -1 : 0) : from;
    this.goTo(Math.min(this.items.length - 1, Math.max(0, begin + step)));
  }

  goTo(place) {
    const top = place * this.height;
    if (top < this.body.scrollTop) this.body.scrollTop = top;
    else if (top + this.height > this.body.scrollTop + this.body.clientHeight) this.body.scrollTop = top + this.height - this.body.clientHeight;
    this.selected = this.key(this.items[place]);
    this.draw();
    this.chosen(this.items[place]);
  }

  focus() {
    this.body.focus();
  }
}
