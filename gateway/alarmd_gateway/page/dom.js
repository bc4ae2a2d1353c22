// Elements, made without innerHTML: whatever a plant's files or users have written stays a text.

export const $ = (id) => document.getElementById(id);

// An element with properties (aria-*, role, data-* and class become attributes) and children (texts or elements).
export function el(name, properties = {}, ...children) {
  const made = document.createElement(name);
  for (const [key, given] of Object.entries(properties)) {
    if (given === undefined || given === null) continue;
    if (key.startsWith("on")) made.addEventListener(key.slice(2), given);
    else if (key === "class" || key === "role" || key.includes("-") || key === "for" || key === "colspan") made.setAttribute(key, given);
    else made[key] = given;
  }
  made.append(...children);
  return made;
}

// Sets a text where it is another one, so that nothing is drawn anew in vain.
export function setText(element, text) {
  if (element.textContent !== text) element.textContent = text;
}

const SHAPES = {
  1: ["rect", { x: 3, y: 3, width: 26, height: 26 }, 22.5],
  2: ["polygon", { points: "16,1 31,29 1,29" }, 25.5],
  3: ["polygon", { points: "1,4 31,4 16,31" }, 18.5],
  4: ["circle", { cx: 16, cy: 16, r: 14 }, 22],
};

// The sign of an alarm: its shape and number tell the priority, and whether it is filled the condition.
export function sign(priority, code) {
  const space = "http://www.w3.org/2000/svg";
  const svg = document.createElementNS(space, "svg");
  svg.setAttribute("viewBox", "0 0 32 32");
  svg.setAttribute("class", `sign p${priority} ${code.toLowerCase()}`);
  svg.setAttribute("aria-hidden", "true");
  const [shape, attributes, base] = SHAPES[priority] ?? SHAPES[4];
  const drawn = document.createElementNS(space, shape);
  for (const [key, given] of Object.entries(attributes)) drawn.setAttribute(key, given);
  const number = document.createElementNS(space, "text");
  number.setAttribute("x", 16);
  number.setAttribute("y", base);
  number.textContent = priority;
  svg.append(drawn, number);
  return svg;
}
