// Whether a lane lost bits: whether it has a stray (docs/guide/FORMATS.md), which is twelve control characters in a row at a place past
// its lock and no whole number of characters past it.

import { Layout } from "./source.js";

const CONTROL = new Set([0x354, 0x0ab, 0x154, 0x2ab]);
const [TEN, RUN] = [10, 12]; // bits of a character, and control characters in a row
const ALL = 2 ** TEN - 1;
const [WORD, STEP] = [4, 10]; // bytes that one look sees, each ten bytes: so the bits of all are as far from the lock's characters
const [BEFORE, BEHIND] = [16, 20]; // bytes before such a place and from it on, in which a run has its other bits
const KEPT = 40; // bytes of a piece that are looked at once more together with the next one

/** @typedef {{lane: number, bit: number}} Slip the lane that lost bits, and the place of its stray */

/** @param {Uint8Array} data @param {number} at a byte @returns {number} which of ten bits from it on begin two control characters that
 *  follow one another: each is a bit that is like the next one, and then seven changes */
function beginsAt(data, at) {
  const word = data[at] | data[at + 1] << 8 | data[at + 2] << 16 | data[at + 3] << 24;
  const change = word ^ word >>> 1;
  let run = change & change >>> 1;
  run &= run >>> 2;
  run &= run >>> 3;
  run = run >>> 1 & ~change;
  return run & run >>> TEN & ALL;
}

/** @param {Uint8Array} data @param {number} bit @returns {boolean} whether twelve control characters begin there */
function isRun(data, bit) {
  for (let at = bit; at < bit + RUN * TEN; at += TEN) {
    const first = at >> 3;
    if (!CONTROL.has((data[first] | data[first + 1] << 8) >> (at & 7) & 0x3ff)) return false;
  }
  return true;
}

/** @param {Uint8Array} data @param {number} phases which bits of ten count @returns {Generator<number>} the bits at which twelve control
 *  characters stand in a row, in order; one may come again */
function* runsOf(data, phases) {
  for (let place = 0; place + WORD <= data.length; place += STEP) {
    if (!(beginsAt(data, place) & phases)) continue;
    const last = 8 * Math.min(data.length, place + BEHIND) - RUN * TEN;
    for (let bit = 8 * Math.max(0, place - BEFORE); bit <= last; bit++) if (phases >> bit % TEN & 1 && isRun(data, bit)) yield bit;
  }
}

/** Takes the bytes of a lane in pieces. */
class Strays {
  constructor() {
    this.lock = -1;
    this.at = 0; // how many bytes came
    this.kept = new Uint8Array(0);
  }

  /** @param {Uint8Array} piece @returns {number} the place of a stray in this piece or across its beginning; -1 where there is none */
  take(piece) {
    const seam = new Uint8Array(this.kept.length + Math.min(KEPT, piece.length));
    seam.set(this.kept);
    seam.set(piece.subarray(0, KEPT), this.kept.length);
    const across = this.look(seam, this.at - this.kept.length);
    const found = across < 0 ? this.look(piece, this.at) : across;
    this.kept = (piece.length < KEPT ? seam : piece).slice(-KEPT);
    this.at += piece.length;
    return found;
  }

  /** @param {Uint8Array} data @param {number} begin the place of its first byte @returns {number} */
  look(data, begin) {
    const first = 8 * begin;
    if (this.lock < 0) for (const place of runsOf(data, ALL)) { this.lock = first + place; break; }
    if (this.lock < 0) return -1;
    const phase = ((this.lock - first) % TEN + TEN) % TEN;
    for (const place of runsOf(data, ALL & ~(1 << phase))) if (first + place > this.lock) return first + place;
    return -1;
  }
}

/** Takes the bytes of a capture, and finds the first lane that lost bits. */
export class Slips {
  /** @param {import("./source.js").Source} source */
  constructor({ start, bits }) {
    this.layout = new Layout(start, bits);
    this.lanes = bits.map(() => new Strays());
    /** @type {Slip | null} */
    this.slip = null;
  }

  /** @param {number} at a place of the capture @param {Uint8Array} bytes that stand there */
  take(at, bytes) {
    if (this.slip) return;
    for (const { lane, at: place, size } of this.layout.pieces(at, bytes.length)) {
      const bit = this.lanes[lane].take(bytes.subarray(place - at, place - at + size));
      if (bit >= 0) {
        this.slip = { lane, bit };
        return;
      }
    }
  }
}
