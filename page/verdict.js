// The verdict on a capture, with the words and in the order of Python's `vabgrot.verdict`. No rule is judged here.

import { thousands } from "./bytes.js";
import { FAULTY, NO_ALIGNMENT, NO_CAPTURE } from "./module.js";
import { ANEW, CONTENTS_WRONG, CONTENT_FAULTS, CUT_OFF, ENCRYPTED, LINK_CLEAN, NOTHING_CAME, NO_CAPTURES, NO_PLACE, VERDICTS } from "./words.js";

/** @typedef {import("./gathered.js").Gathered} Gathered */
/** @typedef {import("./sections.js").State} State */
/** @typedef {{word: string, sign: string, kind: string, says: string}} Verdict the word at the top, its sign, the style, and a sentence */

const NOT_JUDGED = "the rules of the standards are judged by tools/report";

/** @param {string[]} why the kind of what is no capture, and a number @returns {string} */
function whyInWords([kind, number]) {
  if (kind === "short" && number === "0") return "empty";
  return (NO_CAPTURES[kind] ?? "no capture").replace("{}", number);
}

/** @param {Gathered} gathered @returns {boolean} whether no lane has bits */
export function isEmpty({ last: { bits } }) {
  return bits.every((count) => !count);
}

/** @param {import("./strays.js").Slip} slip @returns {string} as Python has it */
function slipInWords({ lane, bit }) {
  return `slip: lane ${lane}, before bit ${thousands(bit)}`;
}

/** @param {Gathered} gathered @param {State} state @returns {string} the faults of the link by kind, slips first; "" if it has none */
function linkInWords({ matrix, last: { slip } }, { isDvi }) {
  /** @type {[string, number][]} */
  const kinds = Object.entries(matrix).map(([kind, lanes]) => [kind, Object.values(lanes).reduce((sum, times) => sum + times, 0)]);
  kinds.sort((one, other) => other[1] - one[1]);
  const found = kinds.filter(([kind]) => !ANEW.includes(kind)).map(([kind, times]) => `${thousands(times)} ${kind}`).join(", ");
  return [...(slip && !isDvi ? [slipInWords(slip)] : []), ...(found ? [found] : [])].join("; ");
}

/** @param {Gathered} gathered @returns {string[]} how many contents of each kind are wrong; not what the program merely does not read */
function wrongContents({ last: { found: { contentFaults } } }) {
  return Object.keys(CONTENT_FAULTS).filter((kind) => contentFaults[kind] && !CONTENT_FAULTS[kind].isLimit)
    .map((kind) => `${thousands(contentFaults[kind])} ${kind}`);
}

/** @param {Gathered} gathered @param {State} state @returns {Verdict} */
export function verdictOf(gathered, state) {
  const faults = `${thousands(gathered.faults)} fault line${gathered.faults === 1 ? "" : "s"}`;
  if (state.isStopped) return { word: "Stopped", sign: "■", kind: "faulty", says: `What was read until then is shown: ${faults}.` };
  if (state.status === null) return { word: "Reading", sign: "…", kind: "reading", says: `${faults} so far.` };
  if (state.status === NO_ALIGNMENT) return { ...VERDICTS.UNALIGNED, says: `${VERDICTS.UNALIGNED.word}: ${isEmpty(gathered) ? NO_BITS : NO_PLACE}` };
  const isCutOff = state.status === NO_CAPTURE && state.why[0] === "short" && gathered.data.columns > 0;
  if (state.status === NO_CAPTURE && !isCutOff) {
    const before = gathered.data.columns ? ` What it has before that place is shown: ${faults}.` : "";
    return { word: "Broken file", sign: "✗", kind: "faulty", says: `The file is ${whyInWords(state.why)}.${before}` };
  }
  if (state.status > FAULTY && !isCutOff) return { word: "Not read", sign: "✗", kind: "faulty", says: `The receiver ended with status ${state.status}.` };
  return judged(gathered, state, isCutOff);
}

const NO_BITS = "the three lanes have no bits";

/** @param {Gathered} gathered @param {State} state @param {boolean} isCutOff @returns {Verdict} of a capture that was read */
function judged(gathered, state, isCutOff) {
  const [link, wrong] = [linkInWords(gathered, state), wrongContents(gathered)];
  if (gathered.encryption) return { ...VERDICTS.ENCRYPTED, says: `${ENCRYPTED} (HDCP; ${gathered.encryption})` };
  const came = gathered.last.found.counts.rows + gathered.data.packets.at.length;
  const says = [link ? `${VERDICTS.LINK.word}: ${link}` : LINK_CLEAN];
  if (wrong.length) says.push(`${CONTENTS_WRONG}: ${wrong.join(", ")}`);
  else if (!link && !came) says.push(NOTHING_CAME);
  const covered = [NOT_JUDGED, ...(isCutOff ? [CUT_OFF] : [])].join(", ");
  return { ...shownAs(link, came, wrong), says: `${says.join("; ")} (${covered})` };
}

/** @param {string} link @param {number} came rows and packets @param {string[]} wrong contents @returns {{word: string, sign: string, kind:
 *  string}} the worst that is to be said */
function shownAs(link, came, wrong) {
  if (link) return VERDICTS.LINK;
  if (!came) return VERDICTS.NOTHING;
  return wrong.length ? VERDICTS.SOURCE : { ...VERDICTS.CLEAN, word: LINK_CLEAN };
}
