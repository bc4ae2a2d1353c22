// What stands above all alarms: that the connection is lost, the troubles of the server, its questions.

import { $, el, setText } from "./dom.js";
import { askYes } from "./dialogs.js";
import { post } from "./http.js";
import { order, tell } from "./orders.js";
import { longTime, shortTime, TRAPS } from "./words.js";

const MOST = 3; // troubles that are shown before somebody asks for all
const DEAD = new Set(["server", "silence", "refused", "log"]); // with one of these nothing that is shown is live

// Whether no scan is taken, so that nothing that is shown is live. With a full history none is.
export const isDead = (store) =>
  store.eventsLeft === 0 ||
  [...store.troubles.values()].some((trouble) => DEAD.has(trouble.kind)) ||
  [...store.questions.values()].some((question) => question.subject === "clock");

// How the button that has the focus is found again, where one has it.
function focusIn(box) {
  const button = document.activeElement;
  if (!box.contains(button)) return "";
  if (button.dataset.restart) return `[data-restart="${CSS.escape(button.dataset.restart)}"]`;
  if (button.dataset.question) return `[data-question="${button.dataset.question}"]`;
  return ".all-troubles";
}

export class Banner {
  constructor(store) {
    this.store = store;
    this.whole = false;
    this.drawn = "";
  }

  show() {
    const troubles = [...this.store.troubles.values()].filter((trouble) => trouble.kind !== "question");
    const stopped = [...this.store.stopped.values()];
    const questions = [...this.store.questions.values()];
    const told = new Set(troubles.filter((one) => one.kind === "stopped").map((one) => one.subject.toLowerCase()));
    const day = this.store.now?.slice(0, 10); // by which times are told
    const drawn = JSON.stringify([troubles, stopped, questions, this.whole, this.store.live, this.store.connected, day]);
    if (drawn === this.drawn) return;
    this.drawn = drawn;
    const lines = [
      ...troubles.map((trouble) => this.troubleLine(trouble)),
      ...stopped.filter((one) => !told.has(one.program.toLowerCase())).map((one) => this.stoppedLine(one)),
      ...questions.map((question) => this.questionLine(question)),
    ].sort((a, b) => rank(a.dataset.kind) - rank(b.dataset.kind));
    const shown = this.whole ? lines : lines.slice(0, MOST);
    if (lines.length > MOST) {
      const words = this.whole ? "Fewer" : `${lines.length - MOST} more …`;
      shown.at(-1).append(el("button", { type: "button", class: "all-troubles", onclick: () => { this.whole = !this.whole; this.show(); } }, words));
    }
    const focused = focusIn($("troubles"));
    $("troubles").replaceChildren(...shown);
    if (focused) $("troubles").querySelector(focused)?.focus();
    $("troubles").hidden = lines.length === 0;
  }

  line(kind, since, text, ...buttons) {
    const mark = el("span", { class: "mark", "aria-hidden": "true" }, "!");
    const time = since ? el("span", { class: "since" }, shortTime(since, this.store.now)) : "";
    return el("div", { class: "trouble", "data-kind": kind }, mark, el("strong", {}, KINDS[kind] ?? "Server"), time, el("span", { class: "what" }, text), ...buttons);
  }

  troubleLine(trouble) {
    if (trouble.kind !== "stopped") return this.line(trouble.kind, trouble.since, trouble.text);
    const stopped = [...this.store.stopped.values()].find((one) => one.program.toLowerCase() === trouble.subject.toLowerCase());
    return stopped ? this.stoppedLine(stopped) : this.line("stopped", trouble.since, trouble.text);
  }

  stoppedLine(stopped) {
    const button = el("button", { type: "button", "data-restart": stopped.program, disabled: !this.store.live, onclick: () => restart(this.store, stopped) }, "Restart …");
    return this.line("stopped", stopped.time, stoppedText(stopped), button);
  }

  questionLine(question) {
    const button = el("button", { type: "button", "data-question": question.number, disabled: !this.store.connected, onclick: () => answer(question) }, "Answer …");
    return this.line("question", question.since, question.text, button);
  }
}

// What a trouble is called; the first ones stand above the others.
const KINDS = {
  server: "Server",
  silence: "Silence",
  log: "Log",
  question: "Question",
  stopped: "Program stopped",
  refused: "Scan refused",
  source: "Source lost",
  clock: "Clock",
  record: "Record",
  history: "History",
  page: "Page",
  stale: "Stale sample",
};
const rank = (kind) => Object.keys(KINDS).indexOf(kind);

// Where a program has stopped: file and line, why, and in which instance.
export function stoppedPlace(stopped) {
  const place = stopped.file ? `${stopped.file} line ${stopped.line}` : `statement ${stopped.statement}`;
  const path = stopped.path === stopped.program ? "" : `, in ${stopped.path}`;
  return `${place} (${TRAPS[stopped.kind] ?? stopped.kind}${path})`;
}

const stoppedText = (stopped) => `${stopped.program} at ${stoppedPlace(stopped)}: its alarms stay as they are`;

export async function restart(store, stopped) {
  const lines = [stoppedText(stopped), "It runs again from the next scan on. Where the cause is still there, it stops again."];
  if (await askYes(`Restart ${stopped.program}?`, lines, "Restart")) await order(store, "restart", stopped.program);
}

const NO = { clock: "No: end the gateway", record: "No: ask again later" };

async function answer(question) {
  const lines = [question.text, ...question.details, `Asked at ${longTime(question.since)}.`];
  const given = await askYes("The gateway asks", lines, "Yes", NO[question.subject] ?? "No");
  if (given === null) return;
  try {
    await post("/api/answer", { number: question.number, yes: given === "yes" });
    tell("Answered.");
  } catch (fault) {
    tell(`Not answered: ${fault.message}`, true);
  }
}

// Says that the connection is lost, or that it is there. Before the first snapshot nothing is live either: the list is empty then.
export function showLink(store, lostAt) {
  const lost = $("lost");
  const link = $("link");
  lost.hidden = lostAt === null;
  if (lostAt !== null) {
    setText(lost, `CONNECTION LOST since ${lostAt.toISOString().slice(11, 19)} UTC. Nothing on this page is live. Trying again …`);
    setText(link, "✕ not live");
  } else if (!store.connected) setText(link, "✕ not live yet");
  else if (isDead(store)) setText(link, "✕ no scans");
  else setText(link, "● live");
  document.body.classList.toggle("lost", !store.live);
  document.body.classList.toggle("cut", lostAt !== null);
}
