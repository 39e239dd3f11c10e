// Puts what is told of the sound into the page.

import { TALL, WIDTH, outline } from "./wave.js";

/** @typedef {import("./hearing.js").Hearing} Hearing */
/** @typedef {import("./hearing.js").Channel} Channel */

const FLOOR = -60; // dB, where the bars of levels begin
const MOST_GAPS = 500;
const SVG = "http://www.w3.org/2000/svg";

/** @param {Hearing} hearing */
export function showSound(hearing) {
  by("sound-says").textContent = hearing.says;
  by("sound-seconds").textContent = hearing.seconds;
  showWaves(hearing);
  const { choices, channels } = hearing;
  by("sound-choices").hidden = !choices.length;
  by("sound-choice").replaceChildren(...choices.map(({ name }, value) => made("option", { value }, name)));
  by("level-rows").replaceChildren(...channels.map(levelRow));
  by("sound-status").replaceChildren(...(hearing.status.length ? hearing.status.map(statusTable) : [made("p", {}, NO_BLOCK)]));
}

const LOST = "a packet of samples was lost";
const NO_BLOCK = "No whole block of 192 samples was received, so the channel status is not known.";

/** @param {string} path @param {string} kind of its class or its name @param {string} [says] @returns {SVGElement} */
function pathOf(path, kind, says = "") {
  const found = document.createElementNS(SVG, "path");
  found.setAttribute("d", path);
  if (kind === "playing") found.id = kind;
  else found.setAttribute("class", kind);
  if (says) found.append(Object.assign(document.createElementNS(SVG, "title"), { textContent: says }));
  return found;
}

/** @param {Hearing} hearing */
function showWaves({ channels, samples, told, label }) {
  const high = TALL * channels.length;
  by("sound-figure").style.setProperty("--tracks", String(channels.length));
  by("sound-names").replaceChildren(...channels.map((one) => made("li", {}, one.name)));
  by("wave").setAttribute("viewBox", `0 0 ${WIDTH} ${high}`);
  by("wave").setAttribute("aria-label", label);
  by("wave").replaceChildren(
    pathOf(channels.map((_, at) => `M0 ${TALL * at + TALL / 2}H${WIDTH}`).join(""), "zero"),
    ...channels.map((one, at) => pathOf(outline(one.values, TALL * at + TALL / 2), at % 2 ? "right" : "left")),
    ...told.gaps.slice(0, MOST_GAPS).map((gap) => pathOf(`M${gap * WIDTH / samples.count} 0V${high}`, "gap", LOST)),
    pathOf(`M0 0V${high}`, "playing"),
  );
}

/** @param {number | null} level @returns {string} in words */
function levelInWords(level) {
  return level === null ? "silent" : `${level.toFixed(1)} dB`.replace("-", level > -0.05 ? "" : "−");
}

/** @param {Channel} channel @returns {HTMLElement} */
function levelRow({ number, words, peak, mean }) {
  const bar = made("span", { className: "level", "aria-hidden": "true" });
  for (const level of [peak, mean]) {
    const part = made("i");
    part.style.width = `${level === null ? 0 : Math.max(0, Math.round(100 * (1 - level / FLOOR)))}%`;
    bar.append(part);
  }
  const cells = [peak, mean].map((level) => made("td", { className: "number" }, levelInWords(level)));
  return made("tr", {}, made("th", { scope: "row" }, String(number)), made("td", {}, words), ...cells, made("td", {}, bar));
}

/** @param {Hearing["status"][number]} status @returns {HTMLElement} */
function statusTable({ of, times, sides, rows }) {
  const heads = sides.map((side) => made("th", { scope: "col" }, side));
  const cells = (/** @type {string[]} */ says) => says.map((one) => made("td", {}, one));
  const lines = rows.map(([name, ...says]) => made("tr", {}, made("th", { scope: "row" }, name), ...cells(says)));
  const head = made("thead", {}, made("tr", {}, made("td"), ...heads));
  const table = made("table", { className: "matrix" }, head, made("tbody", {}, ...lines));
  const scroll = made("div", { className: "scroll", tabIndex: 0, role: "region", "aria-label": `Channel status${of}` }, table);
  return made("article", {}, made("h3", {}, `Channel status${of}, ${times} block${times > 1 ? "s" : ""} of 192 samples`), scroll);
}
