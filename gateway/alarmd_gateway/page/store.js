// What the page knows of the plant: the table that doesn't change, and what stands.

import { STANDING, WAITING } from "./words.js";

export class Store {
  constructor() {
    this.listeners = [];
    this.alarms = new Map(); // by tag
    this.areas = [];
    this.consoles = [];
    this.programs = [];
    this.inputs = [];
    this.outputs = [];
    this.stopped = new Map(); // by the program's name
    this.values = { inputs: {}, outputs: {} };
    this.troubles = new Map();
    this.questions = new Map();
    this.rows = 0; // of the journal
    this.eventsLeft = null;
    this.now = null; // the civil time of the last scan
    this.connected = false; // whether changes come
    this.live = false; // and scans are taken
    this.area = ""; // the filter; all areas where it is empty
    this.dirty = false;
  }

  listen(listener) {
    this.listeners.push(listener);
  }

  // All listeners are told once, however much has changed until the next frame.
  changed() {
    if (this.dirty) return;
    this.dirty = true;
    const tell = () => {
      if (!this.dirty) return;
      this.dirty = false;
      for (const listener of this.listeners) listener();
    };
    requestAnimationFrame(tell);
    setTimeout(tell, 250); // where no frame comes, as in a page that isn't seen
  }

  takeTable(table) {
    this.areas = table.areas;
    this.consoles = table.consoles;
    this.programs = table.programs;
    this.inputs = table.inputs;
    this.outputs = table.outputs;
    this.alarms = new Map(
      table.alarms.map(([tag, area, priority, text, longest, delay], order) => [
        tag,
        { tag, area, priority, text, longest, delay, order, code: "NORM", since: null, sinceTime: null },
      ]),
    );
    this.changed();
  }

  takeSnapshot(snapshot) {
    for (const alarm of this.alarms.values()) {
      if (alarm.code !== "NORM") Object.assign(alarm, { code: "NORM", since: null, sinceTime: null, until: null, user: null, reason: null });
    }
    for (const alarm of snapshot.alarms) this.takeAlarm(alarm);
    this.stopped = new Map(snapshot.stopped.map((one) => [one.program, one]));
    this.values = { inputs: { ...snapshot.inputs }, outputs: { ...snapshot.outputs } };
    this.troubles = new Map(snapshot.troubles.map((one) => [`${one.kind} ${one.subject}`, one]));
    this.questions = new Map(snapshot.questions.map((one) => [one.number, one]));
    this.rows = snapshot.journal;
    this.eventsLeft = snapshot.events_left;
    this.now = snapshot.time;
    this.changed();
  }

  takeAlarm(given) {
    const alarm = this.alarms.get(given.tag);
    if (!alarm) return;
    alarm.code = given.code;
    alarm.since = given.since;
    alarm.sinceTime = given.since_time;
    alarm.until = given.shelved_until_time;
    alarm.user = given.user;
    alarm.reason = given.reason;
  }

  takeChanges(changes) {
    for (const change of changes) this.take(change);
    this.changed();
  }

  take({ kind, time, data }) {
    switch (kind) {
      case "alarm": this.takeAlarm(data); break;
      case "output": this.values.outputs[data.name] = data.value; break;
      case "input": this.values.inputs[data.name] = data.value; break;
      case "stopped": this.stopped.set(data.program, data); break;
      case "restarted": this.stopped.delete(data.program); break;
      case "rows": this.rows = data.length; this.eventsLeft = data.events_left; break;
      case "scan": this.now = time; this.eventsLeft = data.events_left; break;
      case "trouble": this.takeTrouble(data); break;
      case "question": this.questions.set(data.number, data); break;
      case "answered": this.questions.delete(data.number); break;
    }
  }

  takeTrouble(trouble) {
    const key = `${trouble.kind} ${trouble.subject}`;
    if (trouble.stands) this.troubles.set(key, trouble);
    else this.troubles.delete(key);
  }

  // The alarms of the chosen area for which a test holds.
  select(test) {
    const found = [];
    for (const alarm of this.alarms.values()) {
      if ((!this.area || alarm.area === this.area) && test(alarm)) found.push(alarm);
    }
    return found;
  }

  // The summary: unacknowledged first, then by priority, then the newest.
  summary() {
    return this.select((alarm) => STANDING.has(alarm.code)).sort(
      (a, b) =>
        WAITING.has(b.code) - WAITING.has(a.code) || a.priority - b.priority || b.since - a.since || a.order - b.order,
    );
  }

  // How many stand and how many of them wait, by priority, in all areas; and how many wait that the filter hides.
  counts() {
    const counts = { standing: [0, 0, 0, 0, 0], waiting: [0, 0, 0, 0, 0], hidden: 0 };
    for (const alarm of this.alarms.values()) {
      if (!STANDING.has(alarm.code)) continue;
      counts.standing[alarm.priority] += 1;
      if (!WAITING.has(alarm.code)) continue;
      counts.waiting[alarm.priority] += 1;
      if (this.area && alarm.area !== this.area) counts.hidden += 1;
    }
    return counts;
  }
}
