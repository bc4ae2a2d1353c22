// The dialogs: shelving, out of service, a question with yes and no, the keys.

import { $, el, setText } from "./dom.js";
import { duration } from "./words.js";

const PRESETS = [10, 30, 60, 240, 480, 1440]; // minutes

// Shows a dialog and waits: the value of the button by which its form was sent, null where it was cancelled.
function ask(dialog, first, check = () => "") {
  const form = dialog.querySelector("form");
  const fault = dialog.querySelector(".fault");
  if (fault) setText(fault, "");
  return new Promise((resolve) => {
    let given = null;
    form.onsubmit = (event) => {
      const wrong = check();
      if (wrong) {
        event.preventDefault();
        setText(fault, wrong);
        return;
      }
      given = event.submitter?.value ?? "yes";
    };
    const cancel = dialog.querySelector(".cancel");
    if (cancel) cancel.onclick = () => dialog.close();
    dialog.onclose = () => resolve(given);
    dialog.showModal();
    first.focus();
    first.select?.();
  });
}

const subjectOf = (alarm) => `${alarm.tag}  ${alarm.text}`;

export async function askShelving(alarm) {
  const [dialog, minutes, reason] = [$("shelve"), $("shelve-minutes"), $("shelve-reason")];
  const most = alarm.longest / 60000;
  setText(dialog.querySelector(".subject"), `${subjectOf(alarm)} (at most ${duration(alarm.longest)})`);
  minutes.max = most;
  minutes.value = Math.min(10, most);
  reason.value = "";
  const presets = PRESETS.filter((preset) => preset < most);
  $("shelve-presets").replaceChildren(
    ...[...presets, most].map((preset) =>
      el("button", { type: "button", onclick: () => { minutes.value = preset; reason.focus(); } }, duration(preset * 60000)),
    ),
  );
  const check = () => {
    const asked = Number(minutes.value);
    if (!(asked > 0) || asked > most) return `The time is more than 0 and at most ${most} minutes.`;
    return reason.value.trim() ? "" : "A reason is wanted.";
  };
  if (!(await ask(dialog, minutes, check))) return null;
  return { milliseconds: Math.max(1, Math.round(Number(minutes.value) * 60000)), reason: reason.value.trim() };
}

export async function askRemoval(alarm) {
  const [dialog, reason] = [$("remove"), $("remove-reason")];
  setText(dialog.querySelector(".subject"), subjectOf(alarm));
  reason.value = "";
  const check = () => (reason.value.trim() ? "" : "A reason is wanted.");
  return (await ask(dialog, reason, check)) ? { reason: reason.value.trim() } : null;
}

// A question with lines: "yes", null where it is cancelled, and "no" where the answer can be no.
export async function askYes(title, lines, yes, no = null) {
  const dialog = $("confirm");
  setText($("confirm-title"), title);
  dialog.querySelector(".subject").replaceChildren(...lines.map((line) => el("p", {}, line)));
  setText($("confirm-yes"), yes);
  setText($("confirm-no"), no ?? "");
  $("confirm-no").hidden = no === null;
  return ask(dialog, $("confirm-cancel"));
}

export function showKeys(keys) {
  $("help-keys").replaceChildren(...keys.flatMap(([key, what]) => [el("dt", {}, el("kbd", {}, key)), el("dd", {}, what)]));
  const dialog = $("help");
  return ask(dialog, dialog.querySelector("button"));
}

export const anyOpen = () => document.querySelector("dialog[open]") !== null;
