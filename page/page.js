// The page: takes a capture or the files of its lanes, has them read, and shows what comes.

import { Gathered } from "./gathered.js";
import { DVI, LINK, NO_CAPTURE, hasMemory64 } from "./module.js";
import { showHead, showProgress, showSections, showTrouble, urlOf } from "./view.js";
import { wavOf } from "./wave.js";

const NO_MEMORY64 = "This browser does not run WebAssembly with 64-bit memory (memory64), which the receiver is: Chromium and Chrome do " +
  "from version 133 on, Firefox from 134 on. tools/report makes the same report without it.";
const NO_MODULE = "The receiver (vabgrot.wasm) is not beside this page: page/build makes it.";
const EACH = 400; // milliseconds between two times that the sections are shown anew
const LANE_NAMES = [["blue", "green", "red"], ["lane0", "lane1", "lane2"], ["0", "1", "2"]];

/** @typedef {{gathered: Gathered, state: import("./sections.js").State, worker: Worker | null, isStarted: boolean, timer: number,
 *  pause: number, shown: Promise<void>}} Reading of a capture: what has come of it, who reads it, whether its sections are shown, what will
 *  show them anew, after how many milliseconds, and when what is being shown is there */

/** @type {Reading | null} */
let reading = null; // the one that is shown
/** @type {WebAssembly.Module} */
let receiver;
/** @type {File[]} */
let chosen = [];

/** @param {string} id @returns {string} the text that a page of one file has within it; "" where it has none */
function within(id) {
  return document.getElementById(id)?.textContent ?? "";
}

/** @returns {Promise<WebAssembly.Module>} */
async function loaded() {
  const text = within("module-text");
  if (text) return WebAssembly.compile(Uint8Array.from(atob(text), (one) => one.charCodeAt(0)));
  const answer = await fetch("vabgrot.wasm");
  if (!answer.ok) throw new Error(NO_MODULE);
  return WebAssembly.compile(await answer.arrayBuffer());
}

/** @returns {Worker} */
function newWorker() {
  const text = within("worker-text");
  if (!text) return new Worker("worker.js", { type: "module" });
  const url = URL.createObjectURL(new Blob([text], { type: "text/javascript" }));
  const worker = new Worker(url);
  URL.revokeObjectURL(url);
  return worker;
}

/** @param {File[]} files three of lanes @returns {File[]} lanes 0, 1 and 2: by their names, else by the alphabet */
function inOrder(files) {
  for (const names of LANE_NAMES) {
    const found = names.map((name) => files.filter((file) => file.name.toLowerCase().includes(name)));
    if (found.every((its) => its.length === 1) && new Set(found.flat()).size === 3) return found.flat();
  }
  return [...files].sort((one, other) => (one.name < other.name ? -1 : 1));
}

/** @param {File[]} files a capture, or three lanes */
function choose(files) {
  if (!files.length) return;
  if (files.length !== 1 && files.length !== 3) {
    showTrouble(`${files.length} files are neither a capture nor the three lanes of one.`);
    return;
  }
  chosen = files.length === 3 ? inOrder(files) : files;
  read();
}

/** Reads what was chosen, in place of what was read before. */
function read() {
  end();
  const isDvi = by("dvi").checked;
  const names = chosen.map((file) => file.name);
  const worker = newWorker();
  /** @type {Reading} */
  const its = {
    gathered: new Gathered(names, urlOf), state: { isDvi, isStopped: false, status: null, why: [] }, worker, isStarted: false, timer: 0,
    pause: 0, shown: Promise.resolve(),
  };
  reading = its;
  data = its.gathered.data;
  by("report").replaceChildren(by("report-sections").content.cloneNode(true));
  by("report").hidden = true;
  showChosen();
  showTrouble("");
  worker.onmessage = ({ data: post }) => (post.failed ? fail(its, post.failed) : take(its, post));
  worker.onerror = (event) => fail(its, event.message);
  worker.postMessage({ files: chosen, kind: isDvi ? DVI : LINK, module: receiver });
  showHead(its.gathered, its.state);
  say("Reading.");
}

/** Which files are which lanes, and that there is something to cancel. */
function showChosen() {
  by("lanes").textContent = chosen.length === 3 ? `${chosen.map((file, lane) => `${file.name} is ${LANES[lane]}`).join(", ")}.` : "";
  by("lanes").hidden = chosen.length !== 3;
  by("reading").hidden = false;
  showProgress(0, chosen.reduce((sum, file) => sum + file.size, 0));
  document.documentElement.dataset.state = "reading";
  delete document.documentElement.dataset.ready;
}

/** @param {string} text for those who do not see the page */
function say(text) {
  by("state").textContent = text;
}

/** @param {Reading} its @param {string} why its worker ended before its end */
function fail(its, why) {
  if (reading !== its) return;
  stop(its);
  showTrouble(`The capture could not be read: ${why}`);
}

/** @param {Reading} its @param {import("./worker.js").Post} post of its worker */
function take(its, post) {
  if (reading !== its) return;
  its.gathered.take(post);
  gatherTime();
  showProgress(post.at, post.size);
  if (post.status === undefined) {
    its.timer ||= window.setTimeout(() => displaySoon(its), its.pause);
    return;
  }
  its.state.status = post.status;
  its.state.why = post.why ?? [];
  finish(its, "done");
}

/** @param {Reading} its of which what has come is shown; the more there is to show, the longer the pause after it */
async function displaySoon(its) {
  const began = performance.now();
  await display(its);
  its.pause = Math.max(EACH, 2 * (performance.now() - began));
  its.timer = 0;
}

/** Shows what has come, once what came before is shown.
 *  @param {Reading} its @returns {Promise<void>} */
function display(its) {
  its.shown = its.shown.then(() => displayNow(its));
  return its.shown;
}

/** @param {Reading} its */
async function displayNow(its) {
  if (reading !== its) return;
  try {
    showHead(its.gathered, its.state);
    showSections(its.gathered, its.state);
    by("report").hidden = false;
    if (its.gathered.data.columns) await displayReport(its);
  } catch (why) {
    showTrouble(`The report could not be shown: ${why}`);
  }
}

/** @param {Reading} its @returns {Promise<unknown>} shows the sections that report.js fills */
function displayReport(its) {
  if (its.isStarted) return growReport();
  its.isStarted = true;
  pictureOf = (number) => its.gathered.pictures[number];
  soundOf = () => (its.gathered.hearing ? wavOf(its.gathered.hearing) : new Uint8Array(0));
  return startReport();
}

/** The reading has come to its end.
 *  @param {Reading} its @param {string} how */
async function finish(its, how) {
  clearTimeout(its.timer);
  its.worker?.terminate();
  its.worker = null;
  by("reading").hidden = true;
  its.gathered.hear();
  const isStarted = its.isStarted;
  if (its.gathered.data.columns || its.state.status !== NO_CAPTURE) await display(its);
  else showHead(its.gathered, its.state);
  if (reading !== its) return;
  if (isStarted) startSound();
  by("listing-save").disabled = false;
  by("listing-save").onclick = () => save(new Blob(its.gathered.listing), "text/plain", `${its.gathered.data.name}.link`);
  say(`${by("word").textContent}. ${by("says").textContent}`);
  document.documentElement.dataset.state = how;
  document.documentElement.dataset.ready = "yes";
  performance.mark("ready");
}

/** Ends a reading before its end.
 *  @param {Reading} its */
function stop(its) {
  its.state.isStopped = true;
  return finish(its, "stopped");
}

/** Forgets the reading that was shown. */
function end() {
  if (!reading) return;
  clearTimeout(reading.timer);
  reading.worker?.terminate();
  reading = null;
  endReport();
}

/** What is dropped anywhere is read. */
function startDrop() {
  const hasFiles = (/** @type {DragEvent} */ event) => event.dataTransfer?.types.includes("Files");
  addEventListener("dragover", (event) => {
    if (!hasFiles(event)) return;
    event.preventDefault();
    document.body.classList.add("is-over");
  });
  addEventListener("dragleave", (event) => { if (!event.relatedTarget) document.body.classList.remove("is-over"); });
  addEventListener("drop", (event) => {
    document.body.classList.remove("is-over");
    if (!hasFiles(event)) return;
    event.preventDefault();
    by("files").value = "";
    choose([...(event.dataTransfer?.files ?? [])]);
  });
}

async function start() {
  by("unstarted").remove();
  const files = by("files");
  if (!hasMemory64()) {
    showTrouble(NO_MEMORY64);
    return;
  }
  try {
    receiver = await loaded();
  } catch (why) {
    showTrouble(why instanceof Error && why.message === NO_MODULE ? NO_MODULE : `The receiver could not be loaded: ${why}`);
    return;
  }
  files.disabled = false;
  files.onclick = () => { files.value = ""; }; // so that the same file can be chosen again
  files.onchange = () => choose([...(files.files ?? [])]);
  by("cancel").onclick = () => { if (reading?.worker) stop(reading); };
  by("dvi").onchange = () => { if (chosen.length) read(); };
  startDrop();
  document.documentElement.dataset.state = "waiting";
}

start();
