// Orders to the server: what is under way isn't ordered again, and what came of it is told.

import { $, setText } from "./dom.js";
import { post } from "./http.js";
import { DONE } from "./words.js";

// Orders that are under way, by target, until the answer is there and the change that it makes too.
const away = new Map();
const SETTLES = 1000; // ms after an answer, in which its change comes

const UNKNOWN = "it isn't known whether the order was taken: the journal tells"; // as the gateway has it
const sure = (why) => !why.includes(UNKNOWN);

// Why an order wasn't taken. Where the gateway itself hasn't told, but a proxy perhaps, or has a fault, it may be taken all the same.
function reason(fault) {
  const told = fault.data?.error && fault.status !== 500;
  return told ? fault.message : `${fault.message}, so ${UNKNOWN}`;
}

// A text that no other order has. Where the page comes by plain HTTP, as behind a proxy, a browser has no randomUUID.
const newMark = () => crypto.getRandomValues(new Uint32Array(4)).join("-");

export const isAway = (target) => away.has(target);

function end(target) {
  const order = away.get(target);
  if (!away.delete(target)) return;
  order.done();
  document.dispatchEvent(new Event("away"));
}

// An alarm has changed: an order for it that was answered is done.
export function settled(target) {
  const order = away.get(target);
  if (!order) return;
  order.changed = true;
  if (order.answered) end(target);
}

const TOLD = 20000; // ms for which a message stays

let until = 0;

export function tell(words, bad = false) {
  const message = $("message");
  message.classList.toggle("bad", bad);
  setText(message, words);
  clearTimeout(until);
  if (words) until = setTimeout(() => tell(""), TOLD);
}

// Gives an order, and says what came of it: null where it was taken, else why it wasn't. Another order for the same target goes first.
// Nothing is ordered by what isn't live any more, as it may be by the time that a dialog is answered.
async function give(store, verb, target, more) {
  while (away.has(target)) {
    if (away.get(target).verb === verb) return "this order is under way";
    await away.get(target).ended;
  }
  if (!store.live) return "nothing on this page is live";
  const order = { verb, answered: false, changed: verb === "restart" };
  order.ended = new Promise((resolve) => { order.done = resolve; });
  away.set(target, order);
  document.dispatchEvent(new Event("away"));
  let why;
  try {
    // by its mark the gateway knows an order that the browser sends again by itself, as where its connection has ended
    const reply = await post("/api/order", { order: verb, target, mark: newMark(), ...more });
    why = reply.taken ? null : reply.why;
  } catch (fault) {
    why = reason(fault);
  }
  order.answered = true;
  if (order.changed || why !== null) end(target);
  else setTimeout(() => away.get(target) === order && end(target), SETTLES);
  return why;
}

export async function order(store, verb, target, more = {}) {
  const why = await give(store, verb, target, more);
  if (why === null) tell(`${target}: ${DONE[verb]}`);
  else tell(sure(why) ? `${target}: not ${DONE[verb]}, ${why}` : `${target}: ${why}`, true);
  return why === null;
}

// Up to when an alarm is read that is acknowledged now: where it comes again until the order is taken, that isn't acknowledged.
export const seenOf = (alarm) => (alarm.since === null ? {} : { seen: alarm.since });

// Acknowledges several alarms, one after another. It may take a while: one that has come again by then isn't what was read.
export async function acknowledgeAll(store, alarms) {
  const faults = [];
  const read = alarms.map((alarm) => ({ tag: alarm.tag, since: alarm.since, seen: seenOf(alarm) }));
  for (const { tag, since, seen } of read) {
    const now = store.alarms.get(tag);
    const again = now?.code === "UNACK" && now.since !== since;
    const why = again ? "it has come again since it was read" : await give(store, "ack", tag, seen);
    if (why !== null) faults.push(`${tag}: ${why}`);
  }
  const done = read.length - faults.length;
  const not = faults.every(sure) ? "not" : "perhaps not";
  tell(`${done} ${DONE.ack}${faults.length ? `, ${faults.length} ${not}: ${faults[0]}` : ""}`, faults.length > 0);
}
