// Requests to the gateway. Each that changes something brings the session's token.

let token = "";

export class Refused extends Error {
  constructor(status, words, data = null) {
    super(words);
    this.status = status;
    this.data = data;
  }
}

export function setToken(given) {
  token = given;
}

async function ask(path, options, patience = 20000) {
  let response;
  try {
    response = await fetch(path, { credentials: "same-origin", signal: AbortSignal.timeout(patience), ...options });
  } catch {
    throw new Refused(0, "the gateway doesn't answer");
  }
  let data = null;
  try {
    data = await response.json();
  } catch {
    throw new Refused(response.status, `the answer couldn't be read (${response.status})`);
  }
  if (!response.ok) throw new Refused(response.status, data?.error ?? `refused (${response.status})`, data);
  return data;
}

// `patience` is in ms.
export const get = (path, patience) => ask(path, {}, patience);

export const post = (path, body) =>
  ask(path, {
    method: "POST",
    headers: { "Content-Type": "application/json", "X-Alarmd-Token": token },
    body: JSON.stringify(body),
  });
