// What codes, orders and times are called on the page.

export const STATES = {
  NORM: "Normal",
  UNACK: "Unacknowledged",
  ACKED: "Acknowledged",
  RTNUN: "Returned, unacknowledged",
  LATUN: "Latched, unacknowledged",
  LATAK: "Latched, to be reset",
  SHELVED: "Shelved",
  SUPPR: "Suppressed",
  OOS: "Out of service",
};
export const WAITING = new Set(["UNACK", "RTNUN", "LATUN"]);
export const STANDING = new Set(["UNACK", "ACKED", "RTNUN", "LATUN", "LATAK"]);
export const ASIDE = new Set(["SHELVED", "SUPPR", "OOS"]);
export const PRIORITIES = { 1: "highest", 2: "high", 3: "medium", 4: "low" };

// Which codes take an order, as the server's rules have it.
export const TAKES = {
  ack: WAITING,
  reset: new Set(["LATAK"]),
  shelve: new Set(["NORM", "UNACK", "ACKED", "RTNUN", "LATUN", "LATAK", "SHELVED"]),
  unshelve: new Set(["SHELVED"]),
  remove: new Set(["NORM", "UNACK", "ACKED", "RTNUN", "LATUN", "LATAK", "SHELVED", "SUPPR"]),
  return: new Set(["OOS"]),
};
export const DONE = {
  ack: "acknowledged",
  reset: "reset",
  shelve: "shelved",
  unshelve: "unshelved",
  remove: "out of service",
  return: "in service",
  restart: "restarted",
};
export const TRAPS = { DIVZERO: "division by zero", INDEX: "index out of bounds", OVERFLOW: "overflow" };

const YEAR = 365 * 86400000; // ms

// A civil time as short as it can be beside another one: the time of day, where that is another day the date and minutes, and the date
// alone where it is a year or more away.
export function shortTime(time, now) {
  if (!time) return "";
  if (now?.slice(0, 10) === time.slice(0, 10)) return time.slice(11, 19);
  if (now && Math.abs(Date.parse(now) - Date.parse(time)) < YEAR) return `${time.slice(5, 10)} ${time.slice(11, 16)}`;
  return time.slice(0, 10);
}

export function longTime(time) {
  return time ? `${time.slice(0, 10)} ${time.slice(11, 19)} UTC` : "";
}

// A duration in ms: the two largest units.
export function duration(ms) {
  if (ms === null || ms === undefined) return "";
  if (ms < 1000) return `${Math.round(ms)} ms`;
  const seconds = Math.round(ms / 1000);
  const parts = [["d", 86400], ["h", 3600], ["min", 60], ["s", 1]];
  const first = parts.findIndex(([, size]) => seconds >= size);
  const [name, size] = parts[first];
  const whole = Math.floor(seconds / size);
  const rest = seconds - whole * size;
  if (!rest || first === parts.length - 1) return `${whole} ${name}`;
  const [next, smaller] = parts[first + 1];
  const more = Math.floor(rest / smaller);
  return more ? `${whole} ${name} ${more} ${next}` : `${whole} ${name}`;
}

export function percent(share) {
  return `${(100 * share).toFixed(share && share < 0.01 ? 2 : 1)} %`;
}

export function value(given) {
  return given === true ? "TRUE" : given === false ? "FALSE" : String(given);
}
