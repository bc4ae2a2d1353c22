// The page: logging in, the screens, the keys, and what is told above and below them.

import { $, el, setText, sign } from "./dom.js";
import { allScreen, asideScreen, summaryScreen } from "./alarms.js";
import { Banner, isDead, showLink } from "./banner.js";
import { anyOpen, showKeys } from "./dialogs.js";
import { FiguresScreen } from "./figures.js";
import { get, post, setToken } from "./http.js";
import { JournalScreen } from "./journal.js";
import { Live } from "./live.js";
import { settled, tell } from "./orders.js";
import { PlantScreen } from "./plant.js";
import { Store } from "./store.js";
import { longTime } from "./words.js";

const NAMES = ["alarms", "aside", "all", "plant", "journal", "figures"];
const KEYS = [
  ["1 – 6", "screens"],
  ["↑ ↓ PgUp PgDn Home End", "choose an alarm"],
  ["A", "acknowledge the chosen alarm"],
  ["V", "acknowledge those on the screen"],
  ["S", "shelve, with a time and a reason"],
  ["U", "unshelve"],
  ["R", "reset a latched alarm"],
  ["O", "take out of service"],
  ["T", "return to service"],
  ["F", "choose an area"],
  ["/", "search in all alarms"],
  ["B", "to the troubles of the server"],
  ["Tab", "to the next field or button"],
  ["Esc", "close a dialog, back to the list"],
];

// The table of a plant that isn't known yet.
const NOTHING = { areas: [], consoles: [], programs: [], inputs: [], outputs: [], alarms: [] };

const store = new Store();
const banner = new Banner(store);
const screens = {};
let shown = "alarms";
let live = null;
let lostAt = null;

async function start() {
  let who;
  try {
    who = await get("/api/session");
  } catch (fault) {
    if (fault.status === 401) {
      setText($("login-title"), fault.data?.plant ?? "Alarms");
      return askLogin();
    }
    document.body.className = "plain";
    $("lost").hidden = false;
    setText($("lost"), `The page can't begin: ${fault.message}. Trying again …`);
    setTimeout(start, 2000);
    return undefined;
  }
  $("lost").hidden = true;
  const own = await kept(who);
  if (own) return begin(own);
  document.body.className = "plain";
  $("lost").hidden = false;
  setText($("lost"), `The page can't begin: ${NO_COOKIES}.`); // nor does it try again: each try would begin another session
  return undefined;
}

const NO_COOKIES = "this browser takes no cookies here, and a session is one";

// The session whose cookie the browser has kept, null where it keeps none. It doesn't tell that by itself: navigator.cookieEnabled may be true all the same.
async function kept(who) {
  let known = who;
  for (let tries = 0; tries < 3; tries += 1) {
    try {
      const again = await get("/api/session");
      if (again.token === known.token) return again;
      known = again; // another tab may have begun one at the same time
    } catch (fault) {
      return fault.status === 401 ? null : known; // the connection says what else there is
    }
  }
  return null;
}

function askLogin(words = "") {
  live?.stop();
  live = null;
  document.body.className = "plain";
  for (const id of ["top", "tabs", "screens", "bottom", "troubles", "lost"]) $(id).hidden = true;
  $("login").hidden = false;
  setText($("login-message"), words);
  $("login-name").focus();
  $("login-name").select();
  document.title = "Alarms";
}

$("login").onsubmit = async (event) => {
  event.preventDefault();
  setText($("login-message"), "");
  const [name, password] = [$("login-name"), $("login-password")];
  try {
    const who = await post("/api/login", { name: name.value, password: password.value });
    password.value = "";
    const own = await kept(who);
    if (own) begin(own);
    else setText($("login-message"), NO_COOKIES);
  } catch (fault) {
    setText($("login-message"), fault.message);
    password.value = "";
    password.focus();
  }
};

$("log-out").onclick = async () => {
  try {
    await post("/api/logout", {});
  } catch (fault) {
    if (fault.status !== 401) return tell(`Not logged out: ${fault.message}.`, true); // with 401 the session has ended already
  }
  return askLogin("Logged out.");
};

function begin(who) {
  takeWho(who);
  document.body.className = "";
  $("login").hidden = true;
  $("log-out").hidden = !who.users;
  store.takeTable(NOTHING);
  if (!screens.alarms) makeScreens();
  for (const id of ["top", "tabs", "screens", "bottom"]) $(id).hidden = false;
  showScreen(shown);
  live?.stop();
  live = new Live({
    table: takeTable,
    snapshot: (data) => store.takeSnapshot(data),
    changes: (list) => {
      store.takeChanges(list);
      for (const change of list) if (change.kind === "alarm") settled(change.data.tag);
    },
    alive: () => setLost(null),
    lost: (since) => setLost(lostAt ?? since),
    ready,
    plant: () => get("/api/plant").catch(() => null),
  });
}

// Whether the gateway answers. A session that has ended asks for the password.
async function ready() {
  try {
    takeWho(await get("/api/session"));
    return true;
  } catch (fault) {
    if (fault.status === 401) askLogin("The session has ended.");
    return false;
  }
}

function takeWho(who) {
  setToken(who.token);
  setText($("user-name"), who.user ?? ""); // another one, where somebody has logged in by another page of this browser
  setText($("plant-name"), who.plant);
}

function takeTable(table) {
  setText($("plant-name"), table.name);
  store.takeTable(table);
  const kept = store.areas.includes(store.area) ? store.area : "";
  $("area").replaceChildren(el("option", { value: "" }, "All areas"), ...store.areas.map((area) => el("option", { value: area }, area)));
  $("area").value = store.area = kept;
}

function setLost(since) {
  if (since && !lostAt) document.querySelector("dialog[open]")?.close(); // it would hide that nothing is live
  lostAt = since;
  draw();
}

function makeScreens() {
  Object.assign(screens, {
    alarms: summaryScreen(store),
    aside: asideScreen(store),
    all: allScreen(store),
    plant: new PlantScreen(store),
    journal: new JournalScreen(store),
    figures: new FiguresScreen(store),
  });
  for (const name of NAMES) $(`tab-${name}`).onclick = () => showScreen(name);
  $("tabs").addEventListener("keydown", (event) => {
    const step = { ArrowRight: 1, ArrowLeft: -1 }[event.key];
    if (!step || event.target.getAttribute("role") !== "tab") return;
    const next = NAMES[(NAMES.indexOf(shown) + step + NAMES.length) % NAMES.length];
    showScreen(next);
    $(`tab-${next}`).focus();
  });
  $("area").onchange = () => {
    store.area = $("area").value;
    store.changed();
  };
  $("help-button").onclick = () => showKeys(KEYS);
  store.listen(draw);
  document.addEventListener("away", () => store.changed());
  document.addEventListener("visibilitychange", () => store.changed());
}

function showScreen(name) {
  shown = name;
  for (const one of NAMES) {
    $(one).hidden = one !== name;
    $(`tab-${one}`).setAttribute("aria-selected", one === name);
    $(`tab-${one}`).tabIndex = one === name ? 0 : -1;
  }
  draw();
  screens[name].opened?.();
  screens[name].focus();
}

function draw() {
  if ($("screens").hidden) return; // nobody is logged in
  store.connected = lostAt === null && live !== null && live.alive;
  const alive = store.connected && !isDead(store);
  if (alive !== store.live) {
    store.live = alive;
    for (const screen of Object.values(screens)) screen.refresh?.();
  }
  showLink(store, lostAt);
  banner.show();
  drawCounts();
  setText($("scan-time"), store.now ? longTime(store.now) : "no scan yet");
  screens[shown].show();
}

function drawCounts() {
  const counts = store.counts();
  const drawn = JSON.stringify(counts);
  const waiting = counts.waiting.reduce((sum, one) => sum + one, 0);
  document.title = `${store.live ? "" : "✕ not live: "}${waiting ? `(${waiting}) ` : ""}${$("plant-name").textContent}`;
  const box = $("counts");
  if (box.dataset.drawn === drawn) return;
  box.dataset.drawn = drawn;
  const parts = [1, 2, 3, 4].map((priority) => {
    const [few, all] = [counts.waiting[priority], counts.standing[priority]];
    const words = `${few} of ${all} of priority ${priority} unacknowledged`;
    return el("span", { class: `count${few ? " waits" : all ? " stands" : ""}`, title: words, "aria-label": words, role: "img" }, sign(priority, few ? "UNACK" : all ? "ACKED" : "NORM"), el("b", {}, String(few)), `/${all}`);
  });
  box.replaceChildren(...parts, counts.hidden ? el("span", { class: "hidden-count" }, `${counts.hidden} unacknowledged in other areas`) : "");
}

// What a key stands for: with letters that aren't Latin, what stands in its place on a Latin keyboard.
function keyOf(event) {
  const latin = /^[\x20-\x7e]+$/.test(event.key) || event.getModifierState("AltGraph") || event.isComposing;
  return (!latin && /^Key([A-Z])$/.exec(event.code)?.[1] || event.key).toLowerCase();
}

document.addEventListener("keydown", (event) => {
  if (event.repeat && event.key === "Enter" && event.target.matches?.("button")) event.preventDefault(); // else it is pressed each time
  if (event.ctrlKey || event.altKey || event.metaKey || anyOpen() || $("screens").hidden) return;
  const field = event.target.matches?.("input, select, textarea");
  if (event.key === "Escape") {
    screens[shown].focus();
    return;
  }
  if (field || event.repeat) return; // a key that is held, or stuck, would acknowledge whatever comes
  const key = keyOf(event);
  const screen = NAMES["123456".indexOf(key)];
  if (screen && key) showScreen(screen);
  else if (key === "f") $("area").focus();
  else if (key === "?") showKeys(KEYS);
  else if (key === "b") $("troubles").querySelector("button")?.focus();
  else if (key === "/") {
    showScreen("all");
    screens.all.search.focus();
  } else if (!screens[shown].key(key)) return;
  event.preventDefault();
});

// All signs that flash do so together, slowly; where movement isn't wanted, none does.
const still = matchMedia("(prefers-reduced-motion: reduce)");
setInterval(() => {
  const off = !still.matches && store.live && Math.floor(Date.now() / 600) % 2 === 1;
  document.body.classList.toggle("off", off);
}, 100);

window.addEventListener("unhandledrejection", (event) => tell(`A fault of the page: ${event.reason?.message ?? event.reason}`, true));
start();
