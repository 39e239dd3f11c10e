// The page of a live link: what `tools/page --raw` sends of it, five times a second. It keeps the last minute, and nothing before.

/** @typedef {[number, number, number, number, number[]]} Step its number, columns, whole frames, whether the lanes are aligned, and its
 *  faults by row
 *  @typedef {{word: string, sign: string, kind: string, says: string, seconds: number, each: number, ended: boolean, lines: [string, string][],
 *  faults: [string, string, number, number][], packets: [string, string][], levels: [string, string, number][], last: string[], picture:
 *  number, steps: Step[], lanes: string[], most: number}} Message */

import { thousands } from "./bytes.js";

const NAMES = ["columns", "lane 0", "lane 1", "lane 2", "packets", "structure", "slips"];
const [HIGH, TOP, LEFT, SLIP_ROW] = [28, 6, 76, 6];
const LOST = "tools/page does not answer any more: this page shows what came last. Start the tool again with the same --port, and the page goes on.";

/** @type {Step[]} */
const steps = [];
let most = 300;
let picture = 0; // the number of the one that is shown
let isLoading = false; // another one
/** @type {Message | null} */
let held = null; // the last message that is not shown, while the view is held

/** Fills an element anew if what it shows is another thing.
 *  @template Shown @param {string} id @param {Shown[]} shown @param {(one: Shown) => Node} make */
function fill(id, shown, make) {
  const key = JSON.stringify(shown);
  if (by(id).dataset.shown === key) return;
  by(id).dataset.shown = key;
  by(id).replaceChildren(...shown.map(make));
}

/** @param {[string, string]} row @returns {HTMLElement} */
function pairOf([name, value]) {
  return made("div", {}, made("dt", {}, name), made("dd", {}, value));
}

/** @param {Message} message */
function show(message) {
  by("head").className = message.kind;
  by("name").textContent = message.ended ? "The link has ended" : `Followed for ${Math.floor(message.seconds)} s`;
  by("sign").textContent = message.sign;
  by("word").textContent = message.word;
  by("says").textContent = message.says;
  document.title = `${message.word}: a live link`;
  fill("lines", message.lines, pairOf);
  showFaults(message);
  fill("packets", message.packets, pairOf);
  by("sound").hidden = !message.levels.length;
  fill("levels", message.levels, ([name, words, percent]) => {
    const bar = made("i");
    bar.style.width = `${percent}%`;
    return made("div", {}, made("dt", {}, name), made("dd", {}, words, made("span", { className: "level", "aria-hidden": "true" }, bar)));
  });
  drawSteps();
  if (message.picture !== picture && !isLoading) load(message.picture);
}

/** @param {Message} message */
function showFaults({ faults, last }) {
  by("no-faults").hidden = faults.length > 0;
  by("some-faults").hidden = !faults.length;
  fill("faults", faults, ([kind, lane, recent, times]) => made(
    "tr", {}, made("th", { scope: "row" }, made("code", {}, kind)), made("td", {}, lane),
    made("td", { className: recent ? "number bad" : "number" }, thousands(recent)), made("td", { className: "number" }, thousands(times)),
  ));
  fill("last", last, (line) => made("li", {}, line));
}

/** Loads the picture that has a number. One that comes meanwhile is loaded with the next message.
 *  @param {number} number */
async function load(number) {
  isLoading = true;
  try {
    const answer = await fetch(`picture.png?${number}`);
    if (!answer.ok) return;
    const image = await createImageBitmap(await answer.blob());
    const canvas = by("picture");
    [canvas.width, canvas.height] = [image.width, image.height];
    penOf(canvas).drawImage(image, 0, 0);
    image.close();
    picture = number;
  } finally {
    isLoading = false;
  }
}

/** @param {Step} step @param {number} row @returns {number} */
function valueOf([, columns, , , faults], row) {
  return row ? faults[row - 1] : columns;
}

/** The last minute: a bar a step, as high as its share of the greatest of its row; of faults as the logarithm has it. */
function drawSteps() {
  const canvas = by("time");
  const dense = window.devicePixelRatio || 1;
  const [width, height] = [canvas.clientWidth, 2 * TOP + HIGH * NAMES.length];
  if (canvas.width !== width * dense) canvas.width = width * dense;
  if (canvas.height !== height * dense) canvas.height = height * dense;
  const pen = penOf(canvas);
  pen.setTransform(dense, 0, 0, dense, 0, 0);
  pen.clearRect(0, 0, width, height);
  const wide = (width - LEFT) / most;
  const [video, fault, slip, soft, unaligned] = ["video", "fault", "slip", "soft", "unaligned"].map(colour);
  pen.font = "12px system-ui, sans-serif";
  pen.textAlign = "right";
  NAMES.forEach((name, row) => {
    const bottom = TOP + HIGH * (row + 1) - 3;
    pen.fillStyle = soft;
    pen.fillText(name, LEFT - 8, bottom - 6);
    const greatest = steps.reduce((so, step) => Math.max(so, valueOf(step, row)), 1);
    steps.forEach((step, place) => {
      const value = valueOf(step, row);
      const share = row ? Math.log1p(value) / Math.log1p(greatest) : value / greatest;
      if (!value && (row || step[3])) return;
      pen.fillStyle = row === SLIP_ROW ? slip : row ? fault : step[3] ? video : unaligned;
      const high = Math.max(2, (HIGH - 6) * share);
      pen.fillRect(LEFT + (most - steps.length + place) * wide, bottom - high, Math.max(1, wide - 0.3), high);
    });
  });
}

/** @param {Message} message */
function take(message) {
  by("trouble").hidden = true;
  most = message.most;
  if (steps.length && message.steps[0][0] !== steps[steps.length - 1][0] + 1) steps.length = 0; // another tool has begun
  for (const step of message.steps) steps.push(step);
  steps.splice(0, Math.max(0, steps.length - most));
  held = by("hold").checked ? message : null;
  if (!held) show(message);
  document.documentElement.dataset.ready = "yes";
}

function start() {
  const source = new EventSource("events");
  source.onmessage = ({ data }) => take(JSON.parse(data));
  source.onerror = () => {
    by("trouble").textContent = LOST;
    by("trouble").hidden = false;
  };
  by("hold").onchange = () => {
    if (held && !by("hold").checked) show(held);
  };
}

start();
