// How a source sends its pixels, by its AVI InfoFrames and general control packets, and what is assumed where they do not say.

import { RGB, YCC420, YCC422, YCC444, pixelsOf, signalOf } from "./colours.js";
import { layoutOf, numberOf, numbersOf } from "./infoframes.js";
import { checksumOf } from "./packets.js";
import { MATRIX_OF, MODE_WIDTHS, PIXEL_BITS, TABLES, TYPES } from "./words.js";

/** @typedef {import("./colours.js").Signal} Signal */
/** @typedef {Record<string, number>} Avi the numbers of an AVI InfoFrame */

/** @type {Record<number, number>} */
const PHASES = { 24: 1, 30: 5, 36: 3, 48: 2 }; // the columns of a group of pixels (HDMI 1.4, section 6.5.2)
const HD = 1280; // pixels of a row from which on a format is one of high definition
const NOT_CONVERTED = "the bytes of the lanes are shown as red, green and blue";

/** Takes packets, and tells how rows are sent that end behind them. */
export class Signals {
  /** @param {boolean} hasPackets not of DVI, whose pixels are RGB of 24 bits */
  constructor(hasPackets) {
    this.hasPackets = hasPackets;
    /** @type {Avi | null} */
    this.avi = null;
    this.depth = 0; // CD of the last general control packet that tells one
    this.phase = 0;
  }

  /** @param {import("./packets.js").Packet} packet without a lost block; one whose length or sum is wrong tells nothing */
  take(packet) {
    const kind = packet.header[0];
    if (kind === TYPES.CONTROL && numberOf(packet, "CD")) [this.depth, this.phase] = [numberOf(packet, "CD"), numberOf(packet, "PP")];
    if (kind === TYPES.AVI && layoutOf(packet) && !checksumOf(packet)) this.avi = numbersOf(packet);
  }

  /** @param {number} columns of a row @returns {{signal: Signal, notes: string[]}} how it is read, and what is assumed */
  reading(columns) {
    /** @type {string[]} */
    const notes = [];
    const bits = this.bits(notes);
    if (!this.avi) {
      if (this.hasPackets) notes.push("no AVI InfoFrame came: the pixels are taken for RGB of full range");
      return { signal: signalOf({ bits }), notes };
    }
    const signal = this.signal(this.avi, bits, columns, notes);
    this.judgePhase(signal, columns, notes);
    return { signal, notes };
  }

  /** @param {string[]} notes @returns {number} the bits of a pixel */
  bits(notes) {
    const known = PIXEL_BITS[this.depth || 4];
    if (!known) notes.push(`the depth ${this.depth} of a general control packet is reserved: 24 bits are taken`);
    return known ?? 24;
  }

  /** @param {Avi} avi @param {number} bits @param {number} columns @param {string[]} notes @returns {Signal} */
  signal(avi, bits, columns, notes) {
    if (avi.Y > YCC444) {
      const name = avi.Y === YCC420 ? "YCbCr 4:2:0" : `pixels of the encoding ${avi.Y}`;
      notes.push(`${name} are not converted: ${NOT_CONVERTED}`);
      return signalOf({ bits });
    }
    const times = avi.PR < 10 ? avi.PR + 1 : 1;
    if (avi.Y === RGB) {
      const isUntold = avi.Q === 0 && avi.VIC > 1;
      if (isUntold) notes.push("RGB of the default range, which CTA-861 makes the limited one here, is shown as it was sent");
      return signalOf({ isFull: avi.Q !== 1, bits, times });
    }
    const plain = signalOf({ encoding: avi.Y, bits: avi.Y === YCC422 ? 24 : bits, times });
    const matrix = matrixOf(avi, pixelsOf(plain, columns), notes);
    return matrix ? { ...plain, matrix, isFull: avi.YQ === 1 } : signalOf({ bits: plain.bits, times });
  }

  /** Rows are read from packing phase 0 on; a packing phase that tells another end of a row is noted.
   *  @param {Signal} signal @param {number} columns @param {string[]} notes */
  judgePhase(signal, columns, notes) {
    const group = PHASES[signal.bits];
    if (!this.depth || group === 1) return;
    const last = (columns - 1) % group;
    const wanted = last === 4 ? 0 : last;
    if (this.phase === wanted) return;
    const told = `the packing phase ${this.phase} of a general control packet`;
    notes.push(`${told} is not that of a row's last column, which is ${wanted}: rows are read from phase 0 on`);
  }
}

/** @param {Avi} avi @param {number} width @param {string[]} notes @returns {string | undefined} the matrix by the colorimetry, and where
 *  none is told the one that CTA-861 has for the size; undefined where the colours are not converted */
function matrixOf(avi, width, notes) {
  if (avi.C === 3) {
    if (!(avi.EC in MATRIX_OF)) notes.push(`the colorimetry ${TABLES.EXTENDED.known[avi.EC]} is not converted: ${NOT_CONVERTED}`);
    return MATRIX_OF[avi.EC];
  }
  if (avi.C) return avi.C === 1 ? "BT.601" : "BT.709";
  const pixels = MODE_WIDTHS[avi.VIC] ?? width;
  const matrix = pixels >= HD ? "BT.709" : "BT.601";
  notes.push(`no colorimetry is told: ${matrix} is taken, as CTA-861 has it for ${pixels} pixels a row`);
  return matrix;
}
