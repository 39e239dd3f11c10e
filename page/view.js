// Puts what sections.js says into the page.

import { megabytes, thousands } from "./bytes.js";
import { showSound } from "./listening.js";
import { adviceOf, contentFaultsOf, countsOf, listingInWords, matrixOf, notesOf } from "./sections.js";
import { verdictOf } from "./verdict.js";

/** @typedef {import("./gathered.js").Gathered} Gathered */
/** @typedef {import("./sections.js").State} State */

const TITLES = [
  ["advice", "What to look at"], ["pictures", "Pictures"], ["timeline", "Timeline"], ["faults", "Faults"], ["packets", "Packets"],
  ["sound", "Sound"], ["listing", "Listing"],
];

/** @param {string} id @param {boolean} isShown */
function show(id, isShown) {
  by(id).hidden = !isShown;
}

/** Fills an element anew where what it shows is another thing, so that what has the focus keeps it.
 *  @template Shown @param {string} id @param {Shown[]} shown @param {(one: Shown) => Node} make */
function fill(id, shown, make) {
  const key = JSON.stringify(shown);
  if (by(id).dataset.shown === key) return;
  by(id).dataset.shown = key;
  by(id).replaceChildren(...shown.map(make));
}

/** @param {Gathered} gathered @param {State} state */
export function showHead(gathered, state) {
  const { word, sign, kind, says } = verdictOf(gathered, state);
  by("head").className = kind;
  by("what").textContent = `${state.isDvi ? "DVI" : "HDMI"} link report`;
  by("name").textContent = gathered.name;
  by("sign").textContent = sign;
  by("word").textContent = word;
  by("says").textContent = says;
  document.title = `${word}: ${gathered.name}`;
}

/** @param {Gathered} gathered @param {State} state */
export function showSections(gathered, state) {
  showCounts(gathered, state);
  const notes = gathered.data.columns ? notesOf(gathered, state) : [];
  fill("notes", notes, (note) => made("p", { className: "note" }, note));
  fill("advice-list", adviceOf(state, gathered), (line) => made("li", {}, line));
  show("advice", by("advice-list").children.length > 0);
  showParts(gathered, state);
  showFaults(gathered);
  showPackets(gathered);
  show("sound", gathered.hearing !== null);
  if (gathered.hearing) showSound(gathered.hearing);
  by("listing-says").textContent = listingInWords(gathered, state);
  const here = TITLES.filter(([id]) => !by(id).hidden);
  by("sections").hidden = !here.length;
  fill("sections", here, ([id, title]) => made("a", { href: `#${id}` }, title));
}

/** @param {Gathered} gathered @param {State} state */
function showCounts(gathered, state) {
  fill("counts", countsOf(gathered, state), ([title, value, note]) => {
    const number = made("b", { id: `count-${title}` }, value);
    number.style.setProperty("--size", String(value.length));
    return made("div", {}, made("dt", {}, title), made("dd", {}, number, ...(note ? [" ", made("span", {}, note)] : [])));
  });
}

/** @param {Gathered} gathered @param {State} state */
function showParts({ data }, { isDvi }) {
  for (const id of ["pictures", "timeline", "faults", "listing"]) show(id, data.columns > 0);
  show("packets", data.columns > 0 && !isDvi);
  show("viewer", data.frames.length > 0);
  show("no-pictures", !data.frames.length);
  show("some-packets", data.packets.at.length > 0);
  show("no-packets", !data.packets.at.length);
}

/** @param {Gathered} gathered */
function showFaults(gathered) {
  show("some-faults", gathered.faults > 0);
  show("no-faults", !gathered.faults);
  fill("matrix", matrixOf(gathered), ({ kind, says, counts }) => made(
    "tr", {}, made("th", { scope: "row" }, made("code", {}, kind)),
    ...counts.map(([lane, times]) => made("td", { className: "number" }, times ? faultButton(kind, lane, times) : "–")),
    made("td", {}, says),
  ));
  const contents = contentFaultsOf(gathered);
  show("some-contents", contents.length > 0);
  fill("contents", contents, ([kind, times, says]) => made(
    "tr", {}, made("th", { scope: "row" }, made("code", {}, kind)), made("td", { className: "number" }, thousands(times)),
    made("td", {}, says),
  ));
}

/** @param {string} kind @param {number} lane @param {number} times @returns {HTMLElement} what shows these faults */
function faultButton(kind, lane, times) {
  const button = made("button", { type: "button", className: "count", "aria-label": `${times} ${kind}: show` }, thousands(times));
  Object.assign(button.dataset, { kind, lane });
  return button;
}

/** @param {Gathered} gathered */
function showPackets(gathered) {
  fill("infos", gathered.mostInfos, ({ name, rows, line, times }) => made(
    "article", {}, made("h3", {}, name),
    made("p", { className: "help" }, `${times} time${times > 1 ? "s" : ""}, first in `, made("a", { href: `#L${line}` }, `line ${line}`)),
    made("dl", { className: "rows" }, ...rows.map(infoRow)),
  ));
}

/** @param {import("./infoframes.js").Row} row @returns {HTMLElement} */
function infoRow({ name, value, number }) {
  return made("div", {}, made("dt", {}, name), made("dd", {}, value, ...(number ? [" ", made("small", {}, number)] : [])));
}

/** @param {number} at bytes that were read @param {number} size of all */
export function showProgress(at, size) {
  const share = size ? at / size : 1;
  by("progress").value = share;
  by("read-of").textContent = `${megabytes(at)} of ${megabytes(size)} MB read`;
}

/** @param {string} text what is wrong; "" where nothing is */
export function showTrouble(text) {
  by("trouble").textContent = text;
  show("trouble", text !== "");
}

/** @param {ImageData} image @returns {string} a URL of its own */
export function urlOf(image) {
  const canvas = document.createElement("canvas");
  [canvas.width, canvas.height] = [image.width, image.height];
  /** @type {CanvasRenderingContext2D} */ (canvas.getContext("2d")).putImageData(image, 0, 0);
  return canvas.toDataURL();
}
