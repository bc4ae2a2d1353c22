// The three screens of alarms: those that stand, those that are put aside, and all.

import { $, el, setText, sign } from "./dom.js";
import { askRemoval, askShelving } from "./dialogs.js";
import { acknowledgeAll, isAway, order, seenOf, tell } from "./orders.js";
import { VirtualList } from "./rows.js";
import { ASIDE, STATES, STANDING, TAKES, WAITING, duration, longTime, shortTime } from "./words.js";

const READ = 400; // ms that a row has to be wholly seen as it is before it is acknowledged with the others

// Of each order its key, its name, and the dialog that asks for what it has beside its alarm; that gives null where it is cancelled.
const ACTIONS = {
  ack: ["A", "Acknowledge"],
  shelve: ["S", "Shelve …", askShelving],
  unshelve: ["U", "Unshelve"],
  reset: ["R", "Reset"],
  remove: ["O", "Out of service …", askRemoval],
  return: ["T", "Return"],
};

function takes(verb, alarm) {
  return alarm !== undefined && TAKES[verb].has(alarm.code) && (verb !== "shelve" || alarm.longest > 0);
}

function makeCells() {
  return ["signs", "state", "since", "tag", "text", "area"].map((name) => el("div", { class: name }));
}

function fillCells(store) {
  return (cells, alarm, row) => {
    const [signCell, state, since, tag, text, area] = cells;
    const drawn = `${alarm.priority} ${alarm.code}`;
    if (signCell.dataset.drawn !== drawn) {
      signCell.dataset.drawn = drawn;
      signCell.replaceChildren(sign(alarm.priority, alarm.code), el("span", { class: "unseen" }, `priority ${alarm.priority}`));
    }
    row.classList.toggle("waits", WAITING.has(alarm.code));
    row.classList.toggle("away", isAway(alarm.tag));
    row.dataset.tag = alarm.tag;
    row.dataset.code = alarm.code;
    setText(state, STATES[alarm.code]);
    setText(since, shortTime(alarm.sinceTime, store.now));
    setText(tag, alarm.tag);
    setText(text, alarm.text);
    setText(area, alarm.area);
  };
}

const COLUMNS = [["", "signs"], ["State", "state"], ["Since (UTC)", "since"], ["Tag", "tag"], ["Text", "text"], ["Area", "area"]];

// A screen with a list of alarms, the orders for the selected one, and a line that tells more of it.
export class AlarmScreen {
  constructor(store, id, { verbs, choose, order: sort, label, empty, columns, make, fill, extra }) {
    this.store = store;
    this.panel = $(id);
    this.verbs = verbs;
    this.choose = choose;
    this.sort = sort;
    this.extra = extra;
    this.list = new VirtualList({
      label,
      empty,
      columns: columns ?? COLUMNS,
      key: (alarm) => alarm.tag,
      make: make ?? makeCells,
      fill: fill?.(store) ?? fillCells(store),
      chosen: () => this.refresh(),
      told: (alarm) => `${alarm.code} ${alarm.since}`,
    });
    this.buttons = new Map();
    const bar = el("div", { class: "bar", role: "toolbar", "aria-label": "Orders" });
    for (const verb of verbs) {
      const [key, name] = ACTIONS[verb];
      const button = el("button", { type: "button", "data-order": verb, onclick: () => this.act(verb) }, el("kbd", {}, key), ` ${name}`);
      this.buttons.set(verb, button);
      bar.append(button);
      if (verb === "ack") {
        this.all = el("button", { type: "button", "data-order": "ack-seen", onclick: () => this.ackSeen() }, el("kbd", {}, "V"), " ", (this.allText = el("span")));
        bar.append(this.all);
      }
    }
    this.bar = bar;
    this.above = el("div", { class: "above", role: "status", hidden: true });
    this.subject = el("b");
    this.details = el("span");
    this.more = el("p", { class: "more two" }, this.subject, el("br"), this.details);
    this.list.body.addEventListener("scroll", () => this.refresh());
    this.panel.append(bar, el("div", { class: "holder" }, this.list.grid, this.above), this.more);
    extra?.(this);
  }

  show() {
    this.list.show(this.sort(this.store.select(this.choose)));
    this.refresh();
  }

  refresh() {
    const alarm = this.list.current();
    this.read = alarm ? seenOf(alarm) : {}; // up to when it is read where it is acknowledged: as it is told of here, whatever comes behind that
    for (const [verb, button] of this.buttons) button.disabled = !this.store.live || !takes(verb, alarm);
    setText(this.subject, alarm ? `${alarm.tag}  ${alarm.text}` : "");
    setText(this.details, alarm ? this.tellOf(alarm) : "No alarm is selected: arrow keys, or a click.");
    if (this.all) {
      const seen = this.list.seen().filter((one) => WAITING.has(one.code)).length;
      setText(this.allText, seen ? `Acknowledge those on screen (${seen})` : "Acknowledge those on screen");
      this.all.disabled = !this.store.live || !seen;
      this.showAbove();
    }
  }

  // Says how many unacknowledged ones stand above what is seen.
  showAbove() {
    const hidden = Math.floor((this.list.sight().top + 2) / this.list.height);
    const waiting = this.list.items.slice(0, hidden).filter((alarm) => WAITING.has(alarm.code)).length;
    this.above.hidden = waiting === 0;
    setText(this.above, waiting ? `▲ ${waiting} unacknowledged above` : "");
  }

  tellOf(alarm) {
    const parts = [`${STATES[alarm.code]}${alarm.sinceTime ? ` since ${longTime(alarm.sinceTime)}` : ""}`, `priority ${alarm.priority}`, `area ${alarm.area}`];
    if (alarm.until) parts.push(`shelved until ${longTime(alarm.until)}`);
    if (alarm.user) parts.push(`by ${alarm.user}`);
    if (alarm.reason) parts.push(`because: ${alarm.reason}`);
    if (!ASIDE.has(alarm.code)) parts.push(alarm.longest ? `may be shelved for ${duration(alarm.longest)}` : "may not be shelved");
    if (alarm.delay) parts.push(`comes after ${duration(alarm.delay)}`);
    return parts.join(" · ");
  }

  async act(verb) {
    const alarm = this.list.current();
    if (!this.store.live || !this.verbs.includes(verb)) return;
    if (!alarm) tell("No alarm is selected.", true);
    else if (!takes(verb, alarm)) tell(`${alarm.tag} is ${STATES[alarm.code].toLowerCase()}: ${verb === "shelve" && !alarm.longest ? "it may not be shelved" : "the order isn't for that"}.`, true);
    else await this.give(verb, alarm);
    if (document.activeElement === document.body || document.activeElement?.disabled) this.list.focus();
  }

  async give(verb, alarm) {
    const asks = ACTIONS[verb][2];
    const given = asks ? await asks(alarm) : verb === "ack" ? this.read : {};
    if (given) await order(this.store, verb, alarm.tag, given);
  }

  async ackSeen() {
    if (!this.store.live || !this.all) return;
    const alarms = this.list.seen(READ).filter((alarm) => WAITING.has(alarm.code));
    if (alarms.length) await acknowledgeAll(this.store, alarms);
    if (document.activeElement === document.body || document.activeElement?.disabled) this.list.focus();
  }

  key(key) {
    if (key === "v" && this.all) {
      this.ackSeen();
      return true;
    }
    const verb = this.verbs.find((one) => ACTIONS[one][0].toLowerCase() === key);
    if (verb) this.act(verb);
    return verb !== undefined;
  }

  focus() {
    this.list.focus();
  }
}

export function summaryScreen(store) {
  const screen = new AlarmScreen(store, "alarms", {
    verbs: ["ack", "shelve", "reset", "remove"],
    choose: (alarm) => STANDING.has(alarm.code),
    order: () => store.summary(),
    label: "Alarms that stand",
    empty: "No alarm stands.",
  });
  return screen;
}

const asideCells = () => ["signs", "state", "since", "tag", "text", "until", "why"].map((name) => el("div", { class: name }));

function fillAside(store) {
  const common = fillCells(store);
  return (cells, alarm, row) => {
    const [signCell, state, since, tag, text, until, why] = cells;
    common([signCell, state, since, tag, text, { textContent: alarm.area }], alarm, row);
    setText(until, alarm.until ? shortTime(alarm.until, store.now) : "");
    setText(why, [alarm.user, alarm.reason].filter(Boolean).join(": "));
  };
}

const ASIDE_COLUMNS = [["", "signs"], ["State", "state"], ["Since (UTC)", "since"], ["Tag", "tag"], ["Text", "text"], ["Until", "until"], ["By whom, why", "why"]];

export function asideScreen(store) {
  let code = "";
  return new AlarmScreen(store, "aside", {
    verbs: ["unshelve", "shelve", "return", "remove"],
    choose: (alarm) => (code ? alarm.code === code : ASIDE.has(alarm.code)),
    order: (alarms) => alarms.sort((a, b) => order_of(a) - order_of(b) || a.priority - b.priority || a.order - b.order),
    label: "Alarms that are put aside",
    empty: "None.",
    columns: ASIDE_COLUMNS,
    make: asideCells,
    fill: fillAside,
    extra: (screen) => {
      const choice = el("div", { class: "choice", role: "group", "aria-label": "Which are shown" });
      const kinds = [["", "All"], ["SHELVED", "Shelved"], ["SUPPR", "Suppressed"], ["OOS", "Out of service"]];
      const buttons = kinds.map(([kind, name]) => {
        const text = el("span");
        const button = el("button", { type: "button", "data-code": kind, onclick: () => { code = kind; screen.show(); } }, text);
        choice.append(button);
        return [kind, name, button, text];
      });
      screen.bar.prepend(choice);
      const before = screen.refresh.bind(screen);
      screen.refresh = () => {
        before();
        const found = store.select((alarm) => ASIDE.has(alarm.code));
        for (const [kind, name, button, text] of buttons) {
          setText(text, `${name} ${found.filter((alarm) => !kind || alarm.code === kind).length}`);
          button.setAttribute("aria-pressed", code === kind);
        }
      };
    },
  });
}

const order_of = (alarm) => ["SHELVED", "OOS", "SUPPR"].indexOf(alarm.code);

// A text to be searched in, or for: a letter with its mark may be one character or two.
const plain = (text) => text.normalize("NFC").toLowerCase();

export function allScreen(store) {
  let words = [];
  return new AlarmScreen(store, "all", {
    verbs: ["ack", "shelve", "unshelve", "reset", "remove", "return"],
    choose: (alarm) => words.every((word) => plain(`${alarm.tag} ${alarm.text} ${alarm.area} ${STATES[alarm.code]}`).includes(word)),
    order: (alarms) => alarms,
    label: "All alarms",
    empty: "No alarm has these words.",
    extra: (screen) => {
      const input = el("input", { type: "search", id: "search", placeholder: "Search ( / )", "aria-label": "Search in tag, text, area and state", maxLength: 100, oninput: () => {
        words = plain(input.value).split(/\s+/).filter(Boolean);
        screen.show();
      } });
      input.addEventListener("keydown", (event) => {
        if (event.key === "Enter" || event.key === "ArrowDown") {
          event.preventDefault();
          screen.list.focus();
        }
      });
      screen.search = input;
      screen.bar.prepend(input);
      screen.all?.remove();
      screen.all = null;
    },
  });
}
