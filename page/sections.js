// What the report's template writes of a capture, from what has been gathered: counts, notes, tables.

import { counted, megabytes, thousands } from "./bytes.js";
import { MOST_LISTED } from "./frames.js";
import { NO_ALIGNMENT } from "./module.js";
import { isEmpty } from "./verdict.js";
import { ADVICE, ALONE, CONTENT_FAULTS, FAULTS, INTERLACED, NOT_EXACT, UNKNOWN, WOVEN } from "./words.js";

/** @typedef {import("./gathered.js").Gathered} Gathered */
/** @typedef {{isDvi: boolean, isStopped: boolean, status: number | null, why: string[]}} State of a reading: its status, null as long as it
 *  has none, and of what is no capture why */

const LEFT_OUT = "Video timing, the rules of the standards and the characters at faults are told by tools/report alone, which also " +
  "follows lanes that lose bits and reads anew where the first alignment was wrong; this page reads as “recover link” does.";
const LEFT_OUT_DVI = "Video timing and the characters at faults are told by tools/report --dvi alone.";

/** @param {Gathered} gathered @param {State} state @returns {[string, string, string][]} the numbers at the top: title, value, note */
export function countsOf({ data, hurt, faults, hearing, last: { bits, size, found } }, { isDvi }) {
  const { counts, contentFaults } = found;
  const wrong = Object.values(contentFaults).reduce((sum, times) => sum + times, 0);
  const contents = wrong ? [["contents", thousands(wrong), "faults of what was carried"]] : [];
  const carried = isDvi ? [] : [
    ["packets", thousands(data.packets.at.length), hurt ? `${thousands(hurt)} damaged` : "none damaged"],
    ["samples", thousands(found.sound.told.samples), hearing ? channelsInWords(hearing.channels.length) : ""],
  ];
  return /** @type {[string, string, string][]} */ ([
    ["faults", thousands(faults), "lines of the listing"],
    ...contents,
    ["columns", thousands(data.columns), ""],
    ["frames", thousands(counts.whole), framesInWords(data, counts)],
    ["rows", thousands(counts.rows), "of pixels"],
    ...carried,
    ["capture", size >= 1e6 ? `${megabytes(size)} MB` : `${thousands(size)} bytes`, bitsInWords(bits)],
  ]);
}

/** @param {number} count @returns {string} */
function channelsInWords(count) {
  return count > 2 ? `of ${count} channels` : "of two channels";
}

/** @param {Data} data @param {{frames: number, whole: number}} counts @returns {string} what the frames are */
function framesInWords({ shown }, { frames, whole }) {
  const woven = shown.filter((one) => one.frames.length > 1).length;
  const isWhole = frames > whole ? `and ${frames - whole} not whole` : "whole";
  return woven ? `${isWhole}: ${thousands(2 * woven)} fields in ${thousands(woven)} pictures` : isWhole;
}

/** @param {number[]} bits of each lane @returns {string} */
function bitsInWords(bits) {
  if (!bits.length) return "";
  const [one, other, third] = bits.map(thousands);
  return new Set(bits).size === 1 ? `${one} bits a lane` : `${one}, ${other} and ${third} bits of the lanes`;
}

/** @param {Gathered} gathered @param {State} state @returns {string[]} what is to be known of the page */
export function notesOf({ data, last: { found } }, { isDvi }) {
  const notes = [isDvi ? LEFT_OUT_DVI : LEFT_OUT];
  if (found.cut) {
    const { column, line } = found.cut;
    notes.push(`The capture ends within a row, an island or an opening, at column ${thousands(column)} (“cut”, line ${line}).`);
  }
  if (data.rest?.length) notes.push(restInWords(data.rest));
  if (data.frames.some((frame) => frame.kind !== "png")) notes.push(NOT_EXACT);
  notes.push(...fieldNotes(data.shown, INTERLACED[found.vic]));
  const others = found.sound.told.samples ? [] : Object.entries(found.unheard);
  const unheard = others.map(([name, times]) => `${thousands(times)} packets of ${name} came, which are not played.`);
  return [...notes, ...unheard, ...found.notes.map((note) => `Of the pictures: ${note}.`)];
}

/** @param {Rest[]} rest @returns {string} which faults are counted alone */
function restInWords(rest) {
  const kinds = [...new Set(rest.map(({ kind }) => kind))].map((kind) => {
    const its = rest.filter((one) => one.kind === kind).flatMap(({ lanes }) => Object.values(lanes));
    return `${thousands(its.reduce((sum, times) => sum + times, 0))} ${kind}`;
  });
  return `Of each kind the first ${thousands(MOST_LISTED)} faults of a frame are listed; the others are counted (${kinds.join(", ")}), and ` +
    "the timeline shows from where to where they came.";
}

/** @param {Shown[]} shown @param {string | undefined} name of the format, where that is interlaced @returns
 *  {string[]} what was done with fields */
function fieldNotes(shown, name) {
  const woven = shown.filter((one) => one.frames.length > 1).length;
  if (!woven) return name ? [`${UNKNOWN.replace("{who}", `The AVI InfoFrame says (${name})`)}.`] : [];
  const text = WOVEN.replace("{fields}", String(2 * woven)).replace("{frames}", counted(woven, "frame"));
  const alone = shown.filter((one) => one.isField).length;
  if (!alone) return [`${text}.`];
  const [are, itself] = alone > 1 ? ["are shown", "themselves"] : ["is shown", "itself"];
  return [`${text}. ${ALONE.replace("{fields}", counted(alone, "field")).replace("{are}", are).replace("{itself}", itself)}.`];
}

/** @param {State} state @param {Gathered} gathered @returns {string[]} what to look at */
export function adviceOf(state, gathered) {
  const { slip, found } = gathered.last;
  const isNoise = state.status !== null && !found.counts.rows && !gathered.data.packets.at.length && gathered.matrix.noise;
  const slips = slip && !state.isDvi ? [slipInWords(slip)] : [];
  const isUnaligned = state.status === NO_ALIGNMENT && !isEmpty(gathered);
  return [...slips, ...(isUnaligned || isNoise ? ADVICE : [])];
}

/** @param {import("./strays.js").Slip} slip @returns {string} */
function slipInWords({ lane, bit }) {
  return `${LANES[lane].replace("l", "L")} lost or repeated bits: at bit ${thousands(bit)} of it control characters stand no whole number of characters ` +
    "behind its first ones. What comes behind is shown as “recover link” hears it, mostly as noise; tools/report follows such slips.";
}

/** @param {Gathered} gathered @returns {{kind: string, says: string, counts: [number, number][]}[]} the fault counts, by kind and lane */
export function matrixOf({ matrix }) {
  return Object.keys(FAULTS).filter((kind) => matrix[kind]).map((kind) => ({
    kind, says: FAULTS[kind].says,
    counts: [0, 1, 2, -1].map((lane) => /** @type {[number, number]} */ ([lane, matrix[kind][lane] ?? 0])),
  }));
}

/** @param {Gathered} gathered @returns {[string, number, string][]} the faults of contents: kind, times, what it says */
export function contentFaultsOf({ last: { found } }) {
  return Object.entries(found.contentFaults).map(([kind, times]) => [kind, times, CONTENT_FAULTS[kind].says]);
}

/** @param {Gathered} gathered @param {State} state @returns {string} what is to be said of the listing */
export function listingInWords({ data, last: { listing } }, { isDvi }) {
  const [whole, kind] = [listing.isWhole ? "whole" : "with the first pixels of each row", isDvi ? "dvi" : "link"];
  return `What “recover ${kind}” writes, ${whole}: ${thousands(data.lines.length)} lines, ${thousands(listing.size)} bytes.`;
}
