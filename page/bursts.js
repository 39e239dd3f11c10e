// Bursts: many faults within a short stretch of columns, which a page shows as one.

import { FAULTS } from "./words.js";

const [CONTROL, VIDEO, PACKET, OPEN, CLOSE] = [0, 1, 2, 3, 4]; // kinds of periods
const NEAR = 64; // columns between two neighbouring faults of a burst at most
const [LEAST, PLACES] = [6, 3]; // the fault lines that a burst has at least, and the columns at which they are
const LEAST_CONTROL = 12;

/** Finds bursts as faults and periods come, each as soon as it has ended. No row and no island that stands alone lies in one. */
export class Bursts {
  constructor() {
    /** @type {Burst[]} */
    this.found = []; // in the order of their columns
    /** @type {Ordered} */
    this.order = { fault: [], at: [] };
    this.next = 0; // the first fault of the order that is in no group yet
    /** @type {number[]} */
    this.group = []; // the last faults that are near one another
    /** @type {number[]} */
    this.alone = []; // the first columns of rows and islands without a fault, after twelve control columns and before one
    this.periods = 0; // that were looked at
    this.quiet = 0; // control columns before the next period
    this.first = -1; // the first column of a row or an island that may stand alone
    this.known = 0; // the column up to which all faults have come
  }

  /** @param {Faults} faults all that have come @param {Periods} periods @param {boolean} isEnd whether no more come @returns {Burst[]} */
  take(faults, periods, isEnd) {
    orderFaults(this.order, faults);
    for (; this.periods < periods.kind.length; this.periods++) this.takePeriod(periods, this.periods);
    const { fault, at } = this.order;
    for (; this.next < at.length && (isEnd || at[this.next] < this.known); this.next++) this.takeFault(fault[this.next], faults);
    if (isEnd) this.endGroup(faults);
    return this.found;
  }

  /** @param {Periods} periods @param {number} number */
  takePeriod({ kind: kinds, at: columns, columns: sizes }, number) {
    const [kind, at] = [kinds[number], columns[number]];
    if (kind === CONTROL) {
      if (this.first >= 0 && this.before(this.first) === this.before(at)) this.alone.push(this.first);
      this.quiet += sizes[number];
      this.first = -1;
      this.known = at;
    } else if (kind === VIDEO || kind === OPEN) {
      this.first = this.quiet >= LEAST_CONTROL ? at : -1;
      this.quiet = 0;
    } else if (kind !== PACKET && kind !== CLOSE) {
      this.quiet = 0;
      this.first = -1;
    }
  }

  /** @param {number} at @returns {number} how many faults stand before a column */
  before(at) {
    return placeOf(this.order.at, at - 1);
  }

  /** @param {number} fault @param {Faults} faults */
  takeFault(fault, faults) {
    const [last, at] = [faults.at[this.group[this.group.length - 1]] ?? -Infinity, faults.at[fault]];
    if (at - last > NEAR || placeOf(this.alone, last - 1) < placeOf(this.alone, at - 1)) this.endGroup(faults);
    this.group.push(fault);
  }

  /** Faults that are near one another are a burst, unless they are too few.
   *  @param {Faults} faults */
  endGroup(faults) {
    const { group } = this;
    this.group = [];
    const places = new Set(group.map((fault) => faults.at[fault]));
    if (group.length < LEAST || places.size < PLACES || !group.some((fault) => FAULTS[faults.kind[fault]].isDense)) return;
    const [first, last] = [faults.at[group[0]], faults.at[group[group.length - 1]]];
    this.found.push({ at: first, columns: last - first + 1, faults: group.sort((one, other) => one - other) });
  }
}
