"use strict";

/** @typedef {"picture" | "marks" | "loupe" | "time"} Canvas
 *  @typedef {"show-fields" | "show-marks" | "files" | "dvi" | "hold"} Input
 *  @typedef {"frame-back" | "frame-on" | "pixel-back" | "pixel-on" | "listing-save"} Button */
/** The element with an id.
 *  @template {string} Id @typedef {Id extends Canvas ? HTMLCanvasElement : Id extends Input ? HTMLInputElement : Id extends Button ?
 *  HTMLButtonElement : Id extends "audio" ? HTMLAudioElement : Id extends "sound-choice" ? HTMLSelectElement : Id extends "wave" ?
 *  SVGSVGElement : Id extends "progress" ? HTMLProgressElement : Id extends "report-sections" ? HTMLTemplateElement : HTMLElement}
 *  ElementBy */
/** @typedef {{kind: string[], lane: number[], at: number[], epoch: number[], column: number[], line: number[], more: number[][], frame:
 *  number[], x: number[], y: number[], rgb: string[], characters?: string[]}} Faults a list a column: the kind, the lane (-1 of none), the
 *  column of the capture, the alignment and the column counted in it, the line of the listing, its numbers, and where it is in a frame */
/** @typedef {{kind: number[], at: number[], columns: number[], line: number[], value: number[]}} Periods */
/** @typedef {{names: string[], at: number[], words: number[], faults: string[][], verdicts: string[][], symbols: number[], line: number[]}}
 *  Packets */
/** @typedef {{picture: number, width: number, height: number, whole: boolean, number: number, faults: Record<string, number>, says: string,
 *  line: number, lines: number[], from: number, to: number, kind: string}} Shot a frame or a field */
/** @typedef {{at: number, columns: number, faults: number[]}} Burst faults that are near one another */
/** @typedef {{kind: string, lanes: Record<number, number>, from: number, to: number}} Rest faults of a kind that are counted and not listed */
/** @typedef {{fault: number[], at: number[]}} Ordered faults in the order of their columns, and these */
/** @typedef {{frames: number[], isField: boolean}} Shown what is shown as one picture */
/** @typedef {{length: number, at: (number: number) => string | undefined, [Symbol.iterator]: () => Iterator<string>}} Lines of a listing,
 *  counted from 0 */
/** @typedef {{name: string, columns: number, epochs: number[], places: number[], hidden: number[], alignments: number[], doubts: number[][],
 *  periods: Periods, faults: Faults, bursts: Burst[], rest?: Rest[], kinds: Record<string, [string, string]>, limits: string[], frames:
 *  Shot[], shown: Shown[], thumbs: string[], packets: Packets, packetNames: Record<number, string>, words: string[], blocks: string[],
 *  lines: Lines, sound: {choices: {name: string, gains: number[][]}[], order: number[]} | null}} Data what a page shows of a capture, as
 *  vabgrot.tools.report writes it */

/** @type {<Id extends string>(id: Id) => ElementBy<Id>} */
const by = (id) => /** @type {any} */ (document.getElementById(id));
/** @param {string} text in base 64 @returns {Uint8Array} */
const bytesOf = (text) => Uint8Array.from(atob(text), (one) => one.charCodeAt(0));
/** @param {number} value @param {number} least @param {number} most @returns {number} */
const clamp = (value, least, most) => Math.min(Math.max(value, least), most);
/** @param {string} name @returns {string} a colour of the style */
const colour = (name) => getComputedStyle(document.documentElement).getPropertyValue(`--${name}`).trim();
const LANES = ["lane 0 (blue)", "lane 1 (green)", "lane 2 (red)"];
const PERIODS = ["control", "video", "island", "island", "island", "unknown", "unaligned"];
/** @type {Data} */
let data;
/** @type {(() => unknown)[]} */
const growing = []; // what shows each section anew when data has grown
let shown = new AbortController(); // ends what listens to the whole page for the data that is shown

/** An element with these properties or attributes.
 *  @template {keyof HTMLElementTagNameMap} Name @param {Name} name @param {Record<string, any>} words @param {(Node | string)[]} children
 *  @returns {HTMLElementTagNameMap[Name]} */
function made(name, words = {}, ...children) {
  const element = /** @type {any} */ (document.createElement(name));
  for (const [key, value] of Object.entries(words)) {
    if (key in element && key !== "list") element[key] = value;
    else element.setAttribute(key, value);
  }
  element.append(...children);
  return element;
}

/** @param {HTMLCanvasElement} canvas @returns {CanvasRenderingContext2D} */
function penOf(canvas) {
  return /** @type {CanvasRenderingContext2D} */ (canvas.getContext("2d", { willReadFrequently: canvas.id === "picture" }));
}

/** @param {number} number a whole number @returns {string} with a comma between thousands; Intl takes five times as long, and texts of
 *  all faults are looked through */
function count(number) {
  if (number < 1000) return String(number);
  const rest = number % 1000;
  return `${count((number - rest) / 1000)},${rest < 10 ? "00" : rest < 100 ? "0" : ""}${rest}`;
}

const SLICE = 60; // milliseconds of work after which a page lets others run

/** Lets what waits for the page run first, such as a key that was pressed.
 *  @returns {Promise<void>} */
function breath() {
  return new Promise((then) => { setTimeout(then); });
}

/** Works through numbers from 0 on, and pauses each time it has worked for long.
 *  @param {number} stop @param {(number: number) => void} work @param {() => boolean} isWanted whether to go on after a pause @returns
 *  {Promise<boolean>} whether it came to the end */
async function inSlices(stop, work, isWanted) {
  let began = performance.now();
  for (let number = 0; number < stop; number++) {
    work(number);
    if (number % 256 || performance.now() - began < SLICE) continue;
    await breath();
    if (!isWanted()) return false;
    began = performance.now();
  }
  return true;
}

/** @param {BlobPart} part @param {string} type @param {string} name of the file into which the browser saves it */
function save(part, type, name) {
  const url = URL.createObjectURL(new Blob([part], { type }));
  made("a", { href: url, download: name }).click();
  setTimeout(() => URL.revokeObjectURL(url), 60_000);
}

/** @param {number} line @returns {HTMLElement} */
function lineLink(line) {
  return made("a", { href: `#L${line}` }, `line ${line}`);
}

/** The greatest place in a sorted list whose value is at most the one that is looked for; -1 where there is none.
 *  @param {number[]} list @param {number} value @returns {number} */
function placeOf(list, value) {
  let low = 0;
  let high = list.length;
  while (low < high) {
    const middle = (low + high) >> 1;
    if (list[middle] <= value) low = middle + 1;
    else high = middle;
  }
  return low - 1;
}

/** @param {number} at @returns {number} */
function epochOf(at) {
  return Math.max(0, placeOf(data.epochs, at));
}

/** Whether columns before this one could not be counted.
 *  @param {number} at @returns {boolean} */
function isAbout(at) {
  const place = placeOf(data.doubts[0], at);
  return place >= 0 && at < data.doubts[1][place];
}

/** A column in words; that of a fault is exact, since its line names it.
 *  @param {number} at @returns {string} */
function columnText(at, isExact = false) {
  const epoch = epochOf(at);
  const late = at - data.epochs[epoch];
  if (data.hidden[epoch]) return `place ${count(data.places[epoch] + 10 * late)}, not aligned`;
  const column = `${!isExact && isAbout(at) ? "about " : ""}column ${count(late)}`;
  return data.epochs.length > 1 ? `${column} of alignment ${data.alignments[epoch] || "none"}` : column;
}

/* ---- the pictures ---- */

/* A picture is a frame, or two fields of one, woven: `fields` are their numbers among data.frames, of two the upper first. */
/** @typedef {{fields: number[], name: string, label: string, width: number, height: number, whole: boolean, isExact: boolean}} Picture */
const unseen = () => ({
  picture: -1, x: 0, y: 0, isDrawn: false, isChosen: false, pictures: /** @type {Picture[]} */ ([]),
  pictureOf: /** @type {number[]} */ ([]), // of each frame
  sides: /** @type {string[]} */ ([]), // of each field, upper or lower
  marks: /** @type {number[][]} */ ([]), // the damaged rows of each picture, by the numbers of their faults
  places: /** @type {number[]} */ ([]), // those of which the pixel is known, in order
  changed: /** @type {(() => void)[]} */ ([]), // what shows names of frames anew
  loaded: /** @type {Map<number, Promise<ImageBitmap>>} */ (new Map()),
});
const viewer = unseen();

/** What gives a picture by its number: as a file, or as its pixels.
 *  @type {(number: number) => ImageBitmapSource} */
let pictureOf = () => new ImageData(1, 1);

/** @param {number} number of a picture @returns {Promise<ImageBitmap>} */
async function bitmap(number) {
  if (!viewer.loaded.has(number)) {
    viewer.loaded.set(number, createImageBitmap(await pictureOf(number)));
    if (viewer.loaded.size > 6) viewer.loaded.delete([...viewer.loaded.keys()][0]);
  }
  return /** @type {Promise<ImageBitmap>} */ (viewer.loaded.get(number));
}

function isInterlaced() {
  return data.shown.some((one) => one.frames.length > 1);
}

/** What is shown as one picture: as the frames were woven, or each frame and field by itself.
 *  @param {boolean} isWoven */
function startShown(isWoven) {
  let whole = 0;
  for (const { frames } of data.shown) if (frames.length > 1) [viewer.sides[frames[0]], viewer.sides[frames[1]]] = ["upper", "lower"];
  const shown = isWoven ? data.shown : data.frames.map((_, number) => ({ frames: [number], isField: isInterlaced() }));
  viewer.pictures = shown.map(({ frames, isField }) => {
    const first = data.frames[frames[0]];
    const number = isWoven ? whole : first.number;
    whole += Number(first.whole);
    const name = !isField ? `Frame ${number}` : isWoven ? `Frame ${number}, one field` : `Field ${number}`;
    return {
      fields: frames, name: first.whole ? name : "Part of a frame", label: first.whole ? String(number) : "part",
      width: first.width, height: first.height * frames.length, whole: first.whole,
      isExact: frames.every((one) => data.frames[one].kind === "png"),
    };
  });
  viewer.pictures.forEach((picture, number) => picture.fields.forEach((field) => { viewer.pictureOf[field] = number; }));
  viewer.marks = viewer.pictures.map(() => []);
  data.faults.kind.forEach((kind, mark) => {
    const field = data.faults.frame[mark];
    if (kind === "code" && field >= 0) viewer.marks[viewer.pictureOf[field]].push(mark);
  });
  viewer.places = viewer.marks.flatMap((marks) => {
    const seen = marks.filter((mark) => data.faults.x[mark] >= 0).map((mark) => ({ mark, row: rowOf(mark), x: data.faults.x[mark] }));
    return seen.sort((one, other) => one.row - other.row || one.x - other.x).map(({ mark }) => mark);
  });
}

/* Whether fields are shown woven, as long as nobody asks for them apart. */
function areWoven() {
  return !by("show-fields")?.checked;
}

/** The row of a mark in the picture that it is in: a field's rows are every second one of a woven frame.
 *  @param {number} mark @returns {number} */
function rowOf(mark) {
  const { fields } = viewer.pictures[viewer.pictureOf[data.faults.frame[mark]]];
  return data.faults.y[mark] * fields.length + fields.indexOf(data.faults.frame[mark]);
}

/** Which field of its frame one of data.frames is; "" where that is not known, or it is none.
 *  @param {number} frame @returns {string} */
function sideOf(frame) {
  return viewer.sides[frame] || "";
}

/** @param {number} frame @returns {string} */
function frameName(frame) {
  const side = sideOf(frame);
  return `${viewer.pictures[viewer.pictureOf[frame]].name}${side && `, ${side} field`}`;
}

/** @param {number} frame @returns {string} */
function frameLabel(frame) {
  const { label } = viewer.pictures[viewer.pictureOf[frame]];
  return sideOf(frame) ? `${label} ${sideOf(frame)}` : label;
}

/** @param {Picture} picture @returns {string} */
function pictureFaults(picture) {
  const counts = new Map();
  for (const field of picture.fields) {
    for (const [kind, times] of Object.entries(data.frames[field].faults)) counts.set(kind, (counts.get(kind) || 0) + times);
  }
  return [...counts].map(([kind, times]) => `${count(times)} ${kind}`).join(", ");
}

/** Draws a picture of such files: of two fields the rows of the upper one are rows 0, 2, 4 and so on.
 *  @param {Picture} picture @param {ImageBitmap[]} images */
function drawPicture(picture, images) {
  const canvas = by("picture");
  canvas.width = picture.width;
  canvas.height = picture.height;
  const pen = penOf(canvas);
  pen.imageSmoothingEnabled = false;
  const high = picture.height / images.length;
  if (images.length === 1) {
    pen.drawImage(images[0], 0, 0, picture.width, high);
    return;
  }
  const woven = pen.createImageData(picture.width, picture.height);
  const wide = 4 * picture.width;
  images.forEach((image, side) => {
    pen.drawImage(image, 0, 0, picture.width, high);
    const field = pen.getImageData(0, 0, picture.width, high).data;
    for (let row = 0; row < high; row++) woven.data.set(field.subarray(row * wide, (row + 1) * wide), (2 * row + side) * wide);
  });
  pen.putImageData(woven, 0, 0);
}

/** @param {Picture} picture */
function sayPicture(picture) {
  const faults = pictureFaults(picture);
  by("picture").setAttribute("aria-label", `${picture.name}, ${picture.width} by ${picture.height} pixels, ${faults || "no faults"}`);
  by("frame-says").replaceChildren(
    made("b", {}, picture.name), ` ${picture.width} × ${picture.height}: `,
    faults ? made("span", { className: "bad" }, faults) : "no faults",
  );
  for (const field of picture.fields) {
    const { says, line } = data.frames[field];
    by("frame-says").append(made("br"), sideOf(field) && `${sideOf(field)} field `, `${says}, `, lineLink(line));
  }
}

/** @param {number} number @param {number} [x] the pixel that is enlarged @param {number} [y] */
async function showPicture(number, x, y) {
  if (number < 0 || number >= viewer.pictures.length) return;
  const picture = viewer.pictures[number];
  viewer.picture = number;
  const images = await Promise.all(picture.fields.map((field) => bitmap(data.frames[field].picture)));
  if (viewer.picture !== number) return;
  drawPicture(picture, images);
  viewer.isDrawn = true;
  by("stage").classList.toggle("large", picture.width < 1000);
  sayPicture(picture);
  by("frame-back").disabled = number === 0;
  by("frame-on").disabled = number === viewer.pictures.length - 1;
  by("pixel-back").disabled = by("pixel-on").disabled = !viewer.places.length;
  for (const button of by("strip").querySelectorAll("button")) {
    if (Number(button.dataset.frame) === number) button.setAttribute("aria-current", "true");
    else button.removeAttribute("aria-current");
  }
  drawMarks();
  const mark = viewer.marks[number].find((one) => data.faults.x[one] >= 0);
  if (x !== undefined && y !== undefined) enlarge(x, y);
  else if (mark !== undefined) enlarge(data.faults.x[mark], rowOf(mark));
  else enlarge(picture.width >> 1, picture.height >> 1);
}

/** Shows the picture of a mark, enlarged about it.
 *  @param {number} mark */
function showMark(mark) {
  viewer.isChosen = true;
  const number = viewer.pictureOf[data.faults.frame[mark]];
  const [x, y] = [data.faults.x[mark], rowOf(mark)];
  return number === viewer.picture ? enlarge(x, y) : showPicture(number, x, y);
}

function drawMarks() {
  const canvas = by("marks");
  const picture = viewer.pictures[viewer.picture];
  const box = by("picture").getBoundingClientRect();
  const dense = window.devicePixelRatio || 1;
  canvas.width = Math.round(box.width * dense);
  canvas.height = Math.round(box.height * dense);
  const pen = penOf(canvas);
  const scale = canvas.width / picture.width;
  if (!by("show-marks").checked) return;
  const marks = viewer.marks[viewer.picture];
  const half = Math.max(4 * dense, scale * 0.5 + 2 * dense);
  const dark = marks.length > 100 ? [] : [{ style: "#000", width: 3 * dense }];
  const strokes = [...dark, { style: "#ff9500", width: marks.length > 100 ? dense : 1.5 * dense }];
  for (const mark of marks) {
    const [x, y] = [data.faults.x[mark], rowOf(mark)];
    const boxes = x >= 0 ? [[x, half]] : [[0, half], [picture.width - 1, half]];
    for (const [at] of boxes) {
      for (const { style, width } of strokes) {
        pen.strokeStyle = style;
        pen.lineWidth = width;
        pen.strokeRect((at + 0.5) * scale - half, (y + 0.5) * scale - half, 2 * half, 2 * half);
      }
    }
  }
}

/** @param {number} x @param {number} y */
function enlarge(x, y) {
  const picture = viewer.pictures[viewer.picture];
  viewer.x = clamp(Math.floor(x), 0, picture.width - 1);
  viewer.y = clamp(Math.floor(y), 0, picture.height - 1);
  const loupe = by("loupe");
  const pen = penOf(loupe);
  const [size, half] = [12, 10];
  pen.imageSmoothingEnabled = false;
  pen.fillStyle = "#000";
  pen.fillRect(0, 0, loupe.width, loupe.height);
  const [left, top] = [viewer.x - half, viewer.y - half];
  pen.drawImage(by("picture"), left, top, 21, 21, 0, 0, loupe.width, loupe.height);
  /** @type {number[]} */
  const here = [];
  for (const mark of viewer.marks[viewer.picture]) {
    const [at, row] = [data.faults.x[mark], rowOf(mark)];
    if (row === viewer.y && (at === viewer.x || at < 0)) here.push(mark);
    if (at < left || at > left + 20 || row < top || row > top + 20) continue;
    if (!picture.isExact) {
      pen.fillStyle = `#${data.faults.rgb[mark]}`;
      pen.fillRect((at - left) * size, (row - top) * size, size, size);
    }
    pen.strokeStyle = "#ff9500";
    pen.lineWidth = 2;
    pen.strokeRect((at - left) * size - 1, (row - top) * size - 1, size + 2, size + 2);
  }
  pen.strokeStyle = "#fff";
  pen.lineWidth = 1;
  pen.strokeRect(half * size + 0.5, half * size + 0.5, size - 1, size - 1);
  sayPixel(picture, here);
}

/** @param {Picture} picture @param {number[]} here the marks at the pixel */
function sayPixel(picture, here) {
  const exact = here.find((mark) => data.faults.rgb[mark]);
  const read = penOf(by("picture")).getImageData(viewer.x, viewer.y, 1, 1).data;
  const digits = exact !== undefined ? data.faults.rgb[exact] : [...read.slice(0, 3)].map((one) => one.toString(16).padStart(2, "0")).join("");
  const about = exact === undefined && !picture.isExact ? "about " : "";
  const swatch = made("span", { className: "swatch" });
  swatch.style.background = `#${digits}`;
  const [fields, sides] = [picture.fields, picture.fields.length];
  const field = fields[viewer.y % sides];
  const row = Math.floor(viewer.y / sides);
  const where = sides > 1 ? `row ${row} of the ${sideOf(field)} field in ` : "row in ";
  const line = data.frames[field].lines[row];
  by("pixel-says").replaceChildren(`Pixel ${viewer.x}, row ${viewer.y}: ${about}`, swatch, made("code", {}, digits), made("br"), where, lineLink(line));
  for (const mark of here) {
    const place = data.faults.x[mark] < 0 ? "somewhere in this row" : "here";
    by("pixel-says").append(made("br"), made("span", { className: "bad" }, `${LANES[data.faults.lane[mark]]} damaged ${place}: `), lineLink(data.faults.line[mark]));
  }
}

/** @param {number} step */
async function stepFault(step) {
  const isPast = (/** @type {number} */ mark) => {
    const [picture, y, x] = [viewer.pictureOf[data.faults.frame[mark]], rowOf(mark), data.faults.x[mark]];
    return picture - viewer.picture || y - viewer.y || x - viewer.x;
  };
  const places = viewer.places;
  const next = step > 0 ? places.find((mark) => isPast(mark) > 0) : places.findLast((mark) => isPast(mark) < 0);
  const mark = next ?? (step > 0 ? places[0] : places.at(-1));
  if (mark !== undefined) await showMark(mark);
}

/** A small picture with its name and its faults: of two fields the upper one's, as high as both.
 *  @param {Picture} picture @param {number} number @param {string} faults @returns {HTMLElement} */
function smallPicture(picture, number, faults) {
  const image = made("img", { src: data.thumbs[data.frames[picture.fields[0]].picture], alt: "", loading: "lazy" });
  if (picture.fields.length > 1) image.style.cssText = `object-fit: fill; width: min(100%, ${(5 * picture.width) / picture.height}rem); margin-inline: auto`;
  const says = made("span", {}, picture.name, made("br"), faults ? made("em", {}, faults) : "no faults");
  const button = made("button", { type: "button", onclick: () => showPicture(number) }, image, says);
  button.dataset.frame = String(number);
  button.classList.toggle("small", picture.width < 192);
  return made("li", {}, button);
}

/* The strip of small pictures; those that stand there as they are to be stay. */
function drawStrip() {
  const strip = by("strip");
  viewer.pictures.forEach((picture, number) => {
    const faults = pictureFaults(picture);
    const key = JSON.stringify([picture, faults]);
    const old = /** @type {HTMLElement | undefined} */ (strip.children[number]);
    if (old?.dataset.key === key) return;
    const item = smallPicture(picture, number, faults);
    item.dataset.key = key;
    if (old) old.replaceWith(item);
    else strip.append(item);
  });
  while (strip.children.length > viewer.pictures.length) strip.lastElementChild?.remove();
}

/* The picture that is shown first: the first damaged one, or the first whole one. */
function firstPicture() {
  const damaged = viewer.pictures.findIndex((picture, number) => picture.whole && viewer.marks[number].length);
  const sides = viewer.pictures.reduce((most, picture) => Math.max(most, picture.fields.length), 0);
  const first = damaged >= 0 ? damaged : viewer.pictures.findIndex((picture) => picture.whole && picture.fields.length === sides);
  return Math.max(0, first);
}

/* Frames have come: the one in view stays, but that the first damaged one takes its place where nobody has chosen one. */
function growPictures() {
  if (!viewer.pictures.length) return undefined;
  drawStrip();
  by("fields-switch").hidden = !isInterlaced();
  const first = firstPicture();
  const isBetter = !viewer.isChosen && viewer.marks[first].length && !viewer.marks[viewer.picture]?.length;
  if (viewer.picture < 0 || isBetter) return showPicture(first);
  by("frame-on").disabled = viewer.picture === viewer.pictures.length - 1;
  by("pixel-back").disabled = by("pixel-on").disabled = !viewer.places.length;
  return undefined;
}

/* Shows fields woven or apart, about the one that is in view. */
async function switchFields() {
  const field = viewer.pictures[viewer.picture].fields[0];
  startShown(areWoven());
  drawStrip();
  drawTime();
  for (const change of viewer.changed) change();
  await showPicture(viewer.pictureOf[field]);
}

/** @type {Record<string, [number, number]>} */
const STEPS = { ArrowLeft: [-1, 0], ArrowRight: [1, 0], ArrowUp: [0, -1], ArrowDown: [0, 1] };

function startPictures() {
  const canvas = by("picture");
  if (!canvas) return undefined;
  by("show-fields").onchange = switchFields;
  for (const event of ["pointerdown", "keydown"]) by("pictures").addEventListener(event, () => { viewer.isChosen = true; });
  const point = (/** @type {PointerEvent} */ event) => {
    const box = canvas.getBoundingClientRect();
    enlarge(((event.clientX - box.left) / box.width) * canvas.width, ((event.clientY - box.top) / box.height) * canvas.height);
  };
  canvas.addEventListener("pointermove", point);
  canvas.addEventListener("pointerdown", point);
  canvas.addEventListener("keydown", (event) => {
    const step = STEPS[event.key];
    if (event.key === "n" || event.key === "p") stepFault(event.key === "n" ? 1 : -1);
    else if (step) enlarge(viewer.x + step[0] * (event.shiftKey ? 10 : 1), viewer.y + step[1] * (event.shiftKey ? 10 : 1));
    else return;
    event.preventDefault();
  });
  by("frame-back").onclick = () => showPicture(viewer.picture - 1);
  by("frame-on").onclick = () => showPicture(viewer.picture + 1);
  by("pixel-back").onclick = () => stepFault(-1);
  by("pixel-on").onclick = () => stepFault(1);
  by("show-marks").onchange = drawMarks;
  new ResizeObserver(() => viewer.isDrawn && drawMarks()).observe(canvas);
  growing.push(growPictures);
  return growPictures();
}

/* ---- the timeline ---- */

const SHARES = ["control", "video", "island", "unknown"];
const SHARE_OF = PERIODS.map((name) => SHARES.indexOf(name)); // by the kind of a period
const unmoved = () => ({
  first: 0, last: 0, all: 0, cursor: 0, drag: /** @type {{x: number, first: number, moved: boolean} | null} */ (null),
  sums: SHARES.map(() => [0]), // of each kind of period the columns before each period, so that a stretch's shares are two look-ups
  order: /** @type {Ordered} */ ({ fault: [], at: [] }),
  rows: ROWS.map(() => /** @type {number[]} */ ([])), // of each row the columns of its faults, in order
});
const ROWS = ["frames", "periods", "lane 0", "lane 1", "lane 2", "packets", "structure", "slips"];
const SLIPS = 7; // the row of slips
const [ROW, HEAD, LABEL] = [28, 22, 76];
const APART = 0.7; // pixels between two faults that are drawn
const time = unmoved();

const ROW_OF = { lane: 2, packet: 5, structure: 6, slip: SLIPS };

/** @param {string} kind of a fault @param {number} lane @returns {number} its row */
function faultRow(kind, lane) {
  const row = /** @type {keyof typeof ROW_OF} */ (data.kinds[kind][0]);
  return ROW_OF[row] + (row === "lane" ? lane : 0);
}

/** Adds the periods that have come. */
function sumPeriods() {
  const { kind, columns } = data.periods;
  time.sums.forEach((sum, share) => {
    let total = sum[sum.length - 1];
    for (let number = sum.length - 1; number < kind.length; number++) {
      if (SHARE_OF[kind[number]] === share) total += columns[number];
      sum.push(total);
    }
  });
}

/** Puts a number where it is in order: most are behind all others.
 *  @param {number[]} list @param {number} value @returns {number} its place */
function putIn(list, value) {
  let place = list.length;
  list.push(value);
  for (; place > 0 && list[place - 1] > value; place--) [list[place], list[place - 1]] = [list[place - 1], value];
  return place;
}

/** Puts the faults that have come where their columns are.
 *  @param {Ordered} ordered @param {Faults} faults */
function orderFaults({ fault: order, at: columns }, faults) {
  for (let fault = order.length; fault < faults.at.length; fault++) {
    const place = putIn(columns, faults.at[fault]);
    order.push(fault);
    if (place < fault) order.copyWithin(place + 1, place, fault);
    order[place] = fault;
  }
}

/** Puts the faults that have come into their rows. */
function rowFaults() {
  const { kind, lane, at } = data.faults;
  for (let fault = time.order.fault.length; fault < at.length; fault++) putIn(time.rows[faultRow(kind[fault], lane[fault])], at[fault]);
}

/** @param {number} at @returns {number[]} the columns of each kind of period before this one */
function sharesBefore(at) {
  const number = placeOf(data.periods.at, at);
  if (number < 0) return time.sums.map(() => 0);
  const kind = SHARE_OF[data.periods.kind[number]];
  const inside = Math.min(at - data.periods.at[number], data.periods.columns[number]);
  return time.sums.map((sum, other) => sum[number] + (other === kind ? inside : 0));
}

function drawTime() {
  const canvas = by("time");
  const dense = window.devicePixelRatio || 1;
  const [width, height] = [canvas.clientWidth, HEAD + ROW * ROWS.length + 6];
  canvas.width = width * dense;
  canvas.height = height * dense;
  const pen = penOf(canvas);
  pen.scale(dense, dense);
  pen.fillStyle = colour("card");
  pen.fillRect(0, 0, width, height);
  const scale = (width - LABEL) / (time.last - time.first);
  const across = (/** @type {number} */ at) => LABEL + (at - time.first) * scale;
  drawScale(pen, across, width, height);
  drawFrames(pen, across, width);
  drawPeriods(pen, scale, width);
  drawFaults(pen, across, width, height);
  drawUnaligned(pen, across, width, height);
  pen.fillStyle = colour("card");
  pen.fillRect(0, 0, LABEL - 1, height);
  pen.fillStyle = colour("soft");
  pen.textAlign = "right";
  pen.font = "12px system-ui, sans-serif";
  ROWS.forEach((name, row) => pen.fillText(name, LABEL - 8, HEAD + ROW * row + 18));
  pen.fillStyle = colour("ink");
  pen.fillRect(across(time.cursor + 0.5) - 0.75, HEAD - 4, 1.5, height - HEAD);
  sayTime();
}

/** @param {CanvasRenderingContext2D} pen @param {(at: number) => number} across @param {number} width @param {number} height */
function drawScale(pen, across, width, height) {
  const wanted = ((time.last - time.first) * 110) / (width - LABEL);
  const power = 10 ** Math.floor(Math.log10(Math.max(1, wanted)));
  const step = Math.max(1, ([1, 2, 5].find((one) => one * power >= wanted) ?? 10) * power);
  pen.font = "12px system-ui, sans-serif";
  pen.textAlign = "left";
  for (let at = Math.ceil(time.first / step) * step; at < time.last; at += step) {
    pen.fillStyle = colour("line");
    pen.fillRect(across(at), HEAD - 6, 1, height);
    pen.fillStyle = colour("soft");
    if (across(at) + 8 * count(at).length < width) pen.fillText(count(at), across(at) + 3, 13);
  }
}

/** @param {CanvasRenderingContext2D} pen @param {(at: number) => number} across @param {number} width */
function drawFrames(pen, across, width) {
  data.frames.forEach((frame, number) => {
    const [left, right] = [Math.max(LABEL, across(frame.from)), Math.min(width, across(frame.to))];
    if (right < LABEL || left > width) return;
    pen.fillStyle = frame.whole ? colour("video") : colour("control");
    pen.globalAlpha = 0.35;
    pen.fillRect(left, HEAD + 4, Math.max(1, right - left - 1), ROW - 8);
    pen.globalAlpha = 1;
    pen.fillStyle = colour("ink");
    const label = right - left > 24 ? frameLabel(number) : "";
    if (label.length < 6 || right - left > 8 + 7 * label.length) pen.fillText(label, left + 4, HEAD + 18);
  });
}

/** @param {CanvasRenderingContext2D} pen @param {number} scale @param {number} width */
function drawPeriods(pen, scale, width) {
  const names = SHARES.map(colour);
  const step = 1 / (window.devicePixelRatio || 1);
  let before = sharesBefore(time.first);
  for (let x = LABEL; x < width; x += step) {
    const after = sharesBefore(time.first + (x + step - LABEL) / scale);
    const shares = after.map((value, kind) => value - before[kind]);
    const total = shares.reduce((sum, one) => sum + one, 0);
    let top = HEAD + ROW + 3;
    shares.forEach((share, kind) => {
      const height = total ? ((ROW - 6) * share) / total : 0;
      pen.fillStyle = names[kind];
      if (height) pen.fillRect(x, top, step + 0.3, height);
      top += height;
    });
    before = after;
  }
}

/** @param {CanvasRenderingContext2D} pen @param {(at: number) => number} across @param {number} width @param {number} height */
function drawFaults(pen, across, width, height) {
  const [fault, slip] = [colour("fault"), colour("slip")];
  for (const { kind, lanes, from, to } of data.rest ?? []) {
    for (const lane of Object.keys(lanes)) drawRest(pen, faultRow(kind, Number(lane)), across(from), across(to + 1), width);
  }
  const near = APART / (across(1) - across(0)); // columns between two faults that are drawn
  time.rows.forEach((columns, row) => {
    pen.fillStyle = row === SLIPS ? slip : fault;
    for (let place = placeOf(columns, time.first - 1) + 1; place < columns.length && columns[place] <= time.last;) {
      const at = columns[place];
      const x = across(at);
      pen.fillRect(x, HEAD + ROW * row + 4, Math.max(2, across(at + 1) - x), ROW - 8);
      if (row === SLIPS) pen.fillRect(x, HEAD - 2, 1.5, height - HEAD - 4);
      place = columns[place + 1] > at + near ? place + 1 : placeOf(columns, at + near) + 1;
    }
  });
}

/** Faults that are counted and not listed, as a bar where the first and the last one are.
 *  @param {CanvasRenderingContext2D} pen @param {number} row @param {number} from @param {number} to @param {number} width */
function drawRest(pen, row, from, to, width) {
  const [left, right] = [Math.max(LABEL, from), Math.min(width, to)];
  if (right < left) return;
  pen.fillStyle = colour("fault");
  pen.globalAlpha = 0.35;
  pen.fillRect(left, HEAD + ROW * row + 4, Math.max(2, right - left), ROW - 8);
  pen.globalAlpha = 1;
}

/** Bits of which nothing is shown are hatched.
 *  @param {CanvasRenderingContext2D} pen @param {(at: number) => number} across @param {number} width @param {number} height */
function drawUnaligned(pen, across, width, height) {
  data.hidden.forEach((hidden, epoch) => {
    const [left, right] = [Math.max(LABEL, across(data.epochs[epoch])), Math.min(width, across(data.epochs[epoch] + Math.ceil(hidden / 10)))];
    if (!hidden || right < LABEL || left > width) return;
    pen.save();
    pen.beginPath();
    pen.rect(left, HEAD, Math.max(1, right - left), height - HEAD);
    pen.clip();
    pen.strokeStyle = colour("unaligned");
    pen.beginPath();
    for (let x = left - height; x < right; x += 8) {
      pen.moveTo(x, height);
      pen.lineTo(x + height, 0);
    }
    pen.stroke();
    const text = "not aligned, not shown";
    if (right - left > pen.measureText(text).width + 16) {
      pen.fillStyle = colour("card");
      pen.fillRect(left + 4, HEAD + 5, pen.measureText(text).width + 8, ROW - 10);
      pen.fillStyle = colour("ink");
      pen.fillText(text, left + 8, HEAD + 18);
    }
    pen.restore();
  });
}

/** @param {number} at @returns {[string, number]} what stands there, and its line */
function periodText(at) {
  const number = placeOf(data.periods.at, at);
  if (number < 0) return ["", 0];
  const [kind, value] = [data.periods.kind[number], data.periods.value[number]];
  const columns = count(data.periods.columns[number]);
  const text = [
    () => `${columns} control columns, HSYNC ${value & 1}, VSYNC ${(value >> 1) & 1}`,
    () => `a row of ${count(value)} pixels`,
    () => `a packet, ${data.packetNames[value] || "type " + value.toString(16).padStart(2, "0")}`,
    () => "the start of a data island",
    () => "the end of a data island",
    () => "columns that open nothing, or that could not be counted",
    () => "nothing is shown",
  ][kind]();
  return [text, data.periods.line[number]];
}

function sayTime() {
  const [text, line] = periodText(time.cursor);
  const frame = data.frames.findIndex((one) => one.from <= time.cursor && time.cursor < one.to);
  const { order } = time;
  const at = [];
  for (let one = placeOf(order.at, time.cursor); one >= 0 && order.at[one] === time.cursor; one--) at.push(order.fault[one]);
  const parts = [columnText(time.cursor, at.length > 0), text, frame >= 0 ? frameName(frame).toLowerCase() : ""].filter(Boolean);
  const faults = at.reverse().map((fault) => faultText(fault));
  by("time").setAttribute("aria-valuenow", String(time.cursor));
  by("time").setAttribute("aria-valuetext", [...parts, ...faults].join(", "));
  by("time-says").replaceChildren(`${parts.join(", ")} `);
  if (line) by("time-says").append(lineLink(line));
  for (const fault of at) by("time-says").append(" ", made("span", { className: "bad" }, faultText(fault)), " ", lineLink(data.faults.line[fault]));
}

/** Zooms about the cursor where it is in view, else about the middle.
 *  @param {number} factor */
function zoomHere(factor) {
  const isSeen = time.first <= time.cursor && time.cursor <= time.last;
  zoom(factor, isSeen ? time.cursor : undefined);
}

/** @param {number} factor */
function zoom(factor, around = (time.first + time.last) / 2) {
  const wide = clamp((time.last - time.first) * factor, Math.min(20, data.columns), data.columns);
  const share = (around - time.first) / (time.last - time.first);
  look(around - share * wide, wide);
}

/** @param {number} first @param {number} wide */
function look(first, wide) {
  time.first = clamp(first, 0, data.columns - wide);
  time.last = time.first + wide;
  drawTime();
}

/** @param {number} column */
function pointTo(column, isMoving = true) {
  time.cursor = clamp(Math.round(column), 0, data.columns - 1);
  const wide = time.last - time.first;
  if (isMoving && (time.cursor < time.first || time.cursor > time.last)) look(time.cursor - wide / 2, wide);
  else drawTime();
}

/** @param {number} step */
function stepTimeFault(step) {
  const { order } = time;
  if (!order.at.length) return;
  let place = step > 0 ? placeOf(order.at, time.cursor) + 1 : placeOf(order.at, time.cursor - 1);
  place = place < 0 ? order.at.length - 1 : place % order.at.length;
  pointTo(order.at[place]);
}

/* Adds what has come to what the timeline is drawn from. A page that reads does so each time that something comes, which is little. */
function gatherTime() {
  rowFaults();
  orderFaults(time.order, data.faults);
  sumPeriods();
}

/* Columns have come: where all were in view all are. */
function growTime() {
  gatherTime();
  if (time.first === 0 && time.last === time.all) time.last = data.columns;
  time.all = data.columns;
  by("time").setAttribute("aria-valuemax", String(data.columns - 1));
  drawTime();
}

function startTime() {
  const canvas = by("time");
  const columnAt = (/** @type {MouseEvent} */ event) => {
    const box = canvas.getBoundingClientRect();
    return time.first + ((event.clientX - box.left - LABEL) / (box.width - LABEL)) * (time.last - time.first);
  };
  canvas.addEventListener("wheel", (event) => {
    if (!event.ctrlKey && time.last - time.first >= data.columns) return;
    event.preventDefault();
    zoom(event.deltaY < 0 ? 0.8 : 1.25, columnAt(event));
  }, { passive: false });
  canvas.addEventListener("pointerdown", (event) => {
    canvas.setPointerCapture(event.pointerId);
    time.drag = { x: event.clientX, first: time.first, moved: false };
  });
  canvas.addEventListener("pointermove", (event) => {
    if (!time.drag) return;
    const moved = event.clientX - time.drag.x;
    time.drag.moved ||= Math.abs(moved) > 3;
    const wide = time.last - time.first;
    if (time.drag.moved) look(time.drag.first - (moved * wide) / (canvas.clientWidth - LABEL), wide);
  });
  canvas.addEventListener("pointerup", (event) => {
    if (time.drag && !time.drag.moved) pointTo(Math.floor(columnAt(event)), false);
    time.drag = null;
  });
  canvas.addEventListener("keydown", (event) => {
    const step = Math.max(1, Math.round((time.last - time.first) / 100));
    /** @type {Record<string, () => void>} */
    const keys = {
      ArrowLeft: () => pointTo(time.cursor - (event.shiftKey ? 1 : step)), ArrowRight: () => pointTo(time.cursor + (event.shiftKey ? 1 : step)),
      ArrowDown: () => pointTo(time.cursor - (event.shiftKey ? 1 : step)), ArrowUp: () => pointTo(time.cursor + (event.shiftKey ? 1 : step)),
      PageUp: () => pointTo(time.cursor + 10 * step), PageDown: () => pointTo(time.cursor - 10 * step),
      "+": () => zoomHere(0.5), "=": () => zoomHere(0.5), "-": () => zoomHere(2),
      Home: () => look(0, data.columns), n: () => stepTimeFault(1), p: () => stepTimeFault(-1),
    };
    if (!keys[event.key] || event.ctrlKey || event.metaKey || event.altKey) return;
    event.preventDefault();
    keys[event.key]();
  });
  by("zoom-in").onclick = () => zoomHere(0.5);
  by("zoom-out").onclick = () => zoomHere(2);
  by("zoom-all").onclick = () => look(0, data.columns);
  by("fault-back").onclick = () => stepTimeFault(-1);
  by("fault-on").onclick = () => stepTimeFault(1);
  new ResizeObserver(drawTime).observe(canvas);
  matchMedia("(prefers-color-scheme: dark)").addEventListener("change", drawTime, { signal: shown.signal });
  growing.push(growTime);
  growTime();
}

/* ---- the listing ---- */

const LINES = 100;

/** @param {string} text @returns {Promise<number[]>} the lines that have it, counted from 1 on; none of "" */
async function linesWith(text) {
  /** @type {number[]} */
  const found = [];
  let [number, began] = [0, performance.now()];
  for (const line of text ? data.lines : []) {
    number += 1;
    if (line.includes(text)) found.push(number);
    if (number % 1024 || performance.now() - began < SLICE) continue;
    await breath();
    began = performance.now();
  }
  return found;
}

function startListing() {
  /** @type {Paged<number>} */
  const paged = new Paged(by("lines"), "the listing", LINES, (shown) => {
    const list = made("ol", { className: "lines" });
    for (const number of shown) {
      const line = data.lines.at(number) ?? "";
      const item = made("li", { id: `L${number + 1}` }, made("a", { href: `#L${number + 1}`, "aria-label": `line ${number + 1}` }, String(number + 1)), line);
      item.classList.toggle("is-fault", line.startsWith("!"));
      list.append(item);
    }
    return list;
  });
  const show = (/** @type {number} */ number, /** @type {boolean} */ isFocused) => {
    paged.go(Math.floor((number - 1) / LINES));
    const item = by(`L${number}`);
    for (const other of document.querySelectorAll(".is-here")) other.classList.remove("is-here");
    item.classList.add("is-here");
    item.scrollIntoView({ block: "center", behavior: /** @type {ScrollBehavior} */ ("instant") });
    if (isFocused) item.querySelector("a")?.focus({ preventScroll: true });
  };
  const search = { text: "", found: /** @type {number[]} */ ([]), place: -1 };
  const text = made("input", { type: "search" });
  const says = made("span");
  says.setAttribute("aria-live", "polite");
  const find = async (/** @type {number} */ step) => {
    const wanted = text.value;
    if (wanted !== search.text) {
      const first = paged.page * LINES;
      const found = await linesWith(wanted);
      if (text.value !== wanted) return;
      const next = placeOf(found, first);
      Object.assign(search, { text: wanted, found, place: step > 0 ? next : next + 1 });
    }
    const all = search.found.length;
    search.place = all ? (search.place + step + all) % all : -1;
    says.textContent = all ? `${count(search.place + 1)} of ${count(all)}` : text.value ? "in no line" : "";
    if (all) show(search.found[search.place], false);
  };
  const findForm = made("form", { onsubmit: (/** @type {Event} */ event) => { event.preventDefault(); find(1); } },
    made("label", {}, "text ", text), " ", made("button", {}, "Find →"), " ",
    made("button", { type: "button", onclick: () => find(-1) }, "← Find"), " ", says);
  const input = made("input", { type: "number", min: 1 });
  const go = (/** @type {Event} */ event) => { event.preventDefault(); location.hash = `L${clamp(Number(input.value) || 1, 1, data.lines.length)}`; };
  paged.bar.prepend(findForm, made("form", { onsubmit: go }, made("label", {}, "line ", input), " ", made("button", {}, "Go")));
  const grow = () => {
    input.max = String(data.lines.length);
    search.text = "";
    paged.grow(upTo(data.lines.length));
  };
  const follow = () => {
    const found = /^#L(\d+)$/.exec(location.hash);
    if (found) show(clamp(Number(found[1]), 1, data.lines.length), true);
  };
  addEventListener("hashchange", follow, { signal: shown.signal });
  document.addEventListener("click", (event) => {
    const link = event.target instanceof Element && event.target.closest("a[href^='#L']");
    if (link && link.getAttribute("href") === location.hash) { event.preventDefault(); follow(); }
  }, { signal: shown.signal });
  growing.push(grow);
  grow();
  follow();
}

/* ---- all sections ---- */

/* Shows data for the first time. */
async function startReport() {
  startShown(true);
  await oneByOne([startTime, startRules, startFaults, startPackets, startListing, startSound, startPictures]);
}

/** Shows what has come to data since. */
async function growReport() {
  startShown(areWoven());
  await oneByOne(growing);
}

/** @param {(() => unknown)[]} steps one after another; what waits for the page may run between two, and may bring other data */
async function oneByOne(steps) {
  const { signal } = shown;
  let began = performance.now();
  for (const step of [...steps]) {
    if (performance.now() - began > SLICE) {
      await breath();
      began = performance.now();
    }
    if (signal.aborted) return;
    await step();
  }
}

/* Forgets the data that was shown; the sections are to be new ones. */
function endReport() {
  shown.abort();
  shown = new AbortController();
  growing.length = 0;
  Object.assign(viewer, unseen());
  Object.assign(time, unmoved());
}
