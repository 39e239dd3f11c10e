// Which frames are the two fields of one picture: two that follow one another and stand half a line apart, of which the one that stands
// higher is the upper (CTA-861: the first field).

const [HALF, NEAR] = [1 / 2, 1 / 8]; // of a line, and by which the places of two fields may differ from it

/** @typedef {{number: number, width: number, height: number, linesDown: number | null}} Shot a frame, which may be a field: its number,
 *  its size, and the lines from VSYNC down to its first row, null where they are not known */

/** @param {number | null} change @param {number[]} firsts @returns {number | null} the lines from the column of a change of VSYNC to the
 *  first of some rows, by the columns in which these begin */
export function linesDown(change, firsts) {
  if (change === null || firsts.length < 2 || firsts[1] <= firsts[0]) return null;
  return (firsts[0] - change) / (firsts[1] - firsts[0]);
}

/** @param {Shot} first @param {Shot} second @returns {number} 1 where the second of two fields stands half a line lower, -1 where it
 *  stands half a line higher, else 0 */
function halfLine(first, second) {
  const isAlike = first.width === second.width && first.height === second.height;
  if (first.linesDown === null || second.linesDown === null || !isAlike) return 0;
  const apart = second.linesDown - first.linesDown;
  return Math.abs(Math.abs(apart) - HALF) <= NEAR ? Math.sign(apart) : 0;
}

/** Takes frames in order, and pairs those that are fields of one picture. */
export class Weaver {
  constructor() {
    /** @type {Shown[]} */
    this.ended = [];
    /** @type {Shot | null} */
    this.held = null;
    this.isInterlaced = false;
  }

  /** @param {Shot} shot the next frame @param {boolean} isWhole one that is not whole is paired with none */
  take(shot, isWhole) {
    if (!isWhole) {
      this.end();
      this.ended.push({ frames: [shot.number], isField: false });
      return;
    }
    const held = this.held;
    this.held = shot;
    if (!held) return;
    const side = halfLine(held, shot);
    if (held.linesDown !== null && shot.linesDown !== null) this.isInterlaced = side !== 0;
    if (side > 0) this.held = null;
    this.ended.push(side > 0 ? { frames: [held.number, shot.number], isField: false } : this.alone(held));
  }

  /** What comes next is no field of the last frame's picture. */
  end() {
    if (this.held) this.ended.push(this.alone(this.held));
    this.held = null;
  }

  /** @param {Shot} shot @returns {Shown} */
  alone({ number }) {
    return { frames: [number], isField: this.isInterlaced };
  }

  /** @returns {Shown[]} all pictures so far; the last one may still get its other field */
  get shown() {
    return this.held ? [...this.ended, this.alone(this.held)] : this.ended;
  }
}
