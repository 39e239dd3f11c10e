// The frames between two changes of VSYNC: their pixels, the columns of their first pixels, and the faults among them.

import { Rows } from "./rows.js";

const VSYNC = 2; // of a control column's value
const NOWHERE = { x: -1, y: -1 };
const NOTHING = new Uint8Array(0);
export const MOST_LISTED = 10_000; // faults of a kind that a frame has listed; those behind them are counted
const CERTAIN = 3; // neighbouring columns of one value, from which on VSYNC has it

/** VSYNC as a content listing has it: it has a value once three neighbouring columns had it, with nothing but a `! word` between them. */
export class Vsync {
  constructor() {
    this.heard = -1;
    this.level = -1;
    this.streak = 0;
  }

  /** @param {number} value @param {number} columns @returns {boolean} whether it changed among control columns of one value */
  take(value, columns) {
    const level = value & VSYNC;
    this.streak = columns + (level === this.level ? this.streak : 0);
    this.level = level;
    if (this.streak < CERTAIN || level === this.heard) return false;
    const isFirst = this.heard < 0;
    this.heard = level;
    return !isFirst;
  }

  /** Something stands between the columns before and those behind it. */
  part() {
    this.streak = 0;
  }
}

/** @typedef {{x: number, y: number}} Mark the column and the row of a damaged pixel in a frame; -1 of a fault that has none */

/** A frame, or what stands before the first change of VSYNC or after the last. */
export class Frame {
  /** @param {boolean} isWhole @param {number | null} change the column at which VSYNC changed before it */
  constructor(isWhole, change = null) {
    this.isWhole = isWhole;
    this.change = change;
    this.at = 0;
    /** @type {Uint8Array[]} */
    this.rows = [];
    /** @type {number[]} */
    this.firsts = [];
    /** @type {number[]} */
    this.lines = [];
    /** @type {Record<string, number>} */
    this.faults = {};
    /** @type {Record<string, number>} */
    this.times = {}; // how many faults of each kind came since VSYNC changed, among its rows or not
    this.marks = new Rows(["fault", "x", "y"]); // the numbers of the faults among its rows that are listed, and where they are
  }

  /** @param {Uint8Array} row @param {number} at its first column @param {number} first that of its first pixel @param {number} line */
  add(row, at, first, line) {
    if (!this.rows.length) this.at = at;
    this.rows.push(row);
    this.firsts.push(first);
    this.lines.push(line);
  }

  /** @param {string} kind of a fault that came @returns {number} how many of it there are by now */
  count(kind) {
    if (this.rows.length) this.faults[kind] = (this.faults[kind] ?? 0) + 1;
    this.times[kind] = (this.times[kind] ?? 0) + 1;
    return this.times[kind];
  }

  /** @param {string} kind of a fault that is listed @param {number} fault its number @param {number} column that it names @returns {Mark}
   *  where it is in the frame */
  mark(kind, fault, column) {
    const last = this.rows.length - 1;
    if (last < 0) return NOWHERE;
    const mark = kind === "code" ? { x: column - this.firsts[last], y: last } : NOWHERE;
    this.marks.add([fault, mark.x, mark.y]);
    return mark;
  }

  /** @param {Mark} mark @returns {Uint8Array} the bytes there */
  pixelAt({ x, y }) {
    return x < 0 ? NOTHING : this.rows[y].subarray(3 * x, 3 * x + 3);
  }

  /** @returns {number} the columns of the first row */
  get width() {
    return this.rows[0].length / 3;
  }

  /** @returns {number} how many rows have another width */
  get ragged() {
    return this.rows.filter((row) => row.length !== this.rows[0].length).length;
  }
}
