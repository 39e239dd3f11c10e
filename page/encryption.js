// Whether a link says that it is encrypted, by its control periods, as `vabgrot.lanes.encryption` finds it in Python.

import { thousands } from "./bytes.js";
import { MARKS, MOST_OUTSIDE, TORN, WITHIN } from "./words.js";

const CONTROL = 0; // the kind of a period
const VSYNC = 2; // of a control column's value

/** @typedef {{begins: number[], counts: number[], values: number[]}} Runs of control columns: first column, columns, value */

/** @param {Periods} periods @returns {Runs} */
function runsOf({ kind, at, columns, value }) {
  /** @type {Runs} */
  const found = { begins: [], counts: [], values: [] };
  for (let number = 0; number < kind.length; number++) {
    if (kind[number] !== CONTROL) continue;
    found.begins.push(at[number]);
    found.counts.push(columns[number]);
    found.values.push(value[number]);
  }
  return found;
}

/** @param {Runs} runs @returns {{edges: number[], active: number}} the columns at which VSYNC begins, and its level from there on: that
 *  of fewer columns; no edges if it never changes */
function edgesOf({ begins, counts, values }) {
  const times = [0, 0];
  const levels = values.map((value) => Number((value & VSYNC) > 0));
  counts.forEach((count, run) => { if (count > TORN) times[levels[run]] += count; });
  const active = times[1] < times[0] ? 1 : 0;
  /** @type {number[]} */
  const edges = [];
  let last = -1;
  levels.forEach((level, run) => {
    if (counts[run] <= TORN) return;
    if (last >= 0 && level === active && last !== active) edges.push(begins[run]);
    last = level;
  });
  return { edges: times[0] && times[1] ? edges : [], active };
}

/** @param {Runs} runs @param {number} mark the value of CTL3 to CTL0 @returns {{at: number, behind: number, columns: number, level:
 *  number}[]} the stretches that have it */
function marksOf({ begins, counts, values }, mark) {
  /** @type {{at: number, behind: number, columns: number, level: number}[]} */
  const found = [];
  values.forEach((value, run) => {
    if (value >> 2 !== mark) return;
    const [at, columns] = [begins[run], counts[run]];
    const last = found[found.length - 1];
    if (last && at - last.behind <= TORN) [last.behind, last.columns] = [at + columns, last.columns + columns];
    else found.push({ at, behind: at + columns, columns, level: Number((value & VSYNC) > 0) });
  });
  return found;
}

/** @param {Periods} periods of a capture @returns {string} how it says that it is encrypted; "" if it does not */
export function encryptionOf(periods) {
  const runs = runsOf(periods);
  const { edges, active } = edgesOf(runs);
  if (!edges.length) return "";
  const all = runs.counts.reduce((sum, count) => sum + count, 0);
  for (const [kind, [mark, least]] of Object.entries(MARKS)) {
    const marks = marksOf(runs, mark).map((one) => ({ ...one, field: placeOf(edges, one.at) }));
    const isEdge = kind === "EESS";
    const inside = marks.filter(({ at, columns, level, field }) =>
      columns >= least && field >= 0 && (isEdge ? at - edges[field] < WITHIN : level === active));
    const of = (/** @type {{columns: number}[]} */ its) => its.reduce((sum, one) => sum + one.columns, 0);
    const isSeldom = of(marks) - of(inside) <= MOST_OUTSIDE * (all - of(inside));
    if (!inside.length || !isSeldom) continue;
    const fields = new Set(inside.map(({ field }) => field)).size;
    return `${kind} in ${thousands(fields)} of ${thousands(edges.length)} fields, first at column ${thousands(inside[0].at)}`;
  }
  return "";
}
