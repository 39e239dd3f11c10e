// What the bytes of pixels stand for: deep colour, YCbCr, quantization ranges, repeated pixels (HDMI 1.4, chapter 6; CTA-861; ITU-R
// BT.601, BT.709 and BT.2020). Rows are bytes in the order of a listing: lanes 2, 1 and 0, which are red, green and blue, or Cr, Y and
// Cb.

import { MATRICES } from "./words.js";

export const RGB = 0;
export const YCC422 = 1;
export const YCC444 = 2;
export const YCC420 = 3;
const BYTE = 8;
const YCC422_BITS = 12;
const HALF = 0.5 + 1e-9; // what is half a step from two numbers becomes the greater one, whatever floating point makes of it

/** @typedef {{encoding: number, matrix: string | null, isFull: boolean, bits: number, times: number}} Signal how a source sends pixels:
 *  the encoding, of YCbCr the matrix, whether the range is full, the bits of a pixel, and how many times each is sent */

/** @param {Partial<Signal>} [told] @returns {Signal} */
export function signalOf(told = {}) {
  return { encoding: RGB, matrix: null, isFull: true, bits: 24, times: 1, ...told };
}

/** @param {Signal} it @returns {boolean} whether the bytes are the colours */
export function isPlain(it) {
  return it.encoding === RGB && it.matrix === null && it.isFull && it.bits === 24 && it.times === 1;
}

/** @param {Signal} it @returns {number} the bits that a pixel takes of a lane */
function packedBits(it) {
  return it.encoding === YCC422 ? BYTE : it.bits / 3;
}

/** @param {Signal} it @param {number} columns @returns {number} the pixels of a row of so many columns, repeated ones each time */
export function sentPixels(it, columns) {
  return Math.floor(columns * BYTE / packedBits(it));
}

/** @param {Signal} it @param {number} columns @returns {number} the pixels of a row of so many columns */
export function pixelsOf(it, columns) {
  return Math.ceil(sentPixels(it, columns) / it.times);
}

/** @param {Signal} it @param {number} column @returns {number} the pixel in which the first bit of a column is */
export function pixelAt(it, column) {
  return Math.floor(sentPixels(it, column) / it.times);
}

/** @param {Uint8Array} row @param {number} lane its place in a pixel @param {number} number @param {number} size @returns {number} a
 *  component of so many bits, which follow one another on each lane, each from its lowest bit on */
function componentAt(row, lane, number, size) {
  if (size === BYTE) return row[3 * number + lane];
  let value = 0;
  for (let bit = 0; bit < size; bit++) {
    const at = number * size + bit;
    value |= (row[3 * (at >> 3) + lane] >> (at & 7) & 1) << bit;
  }
  return value;
}

/** @param {Uint8Array} row @param {number} columns @param {number} number @returns {number[]} Y, Cb and Cr of twelve bits of YCbCr 4:2:2
 *  (HDMI 1.4, section 6.2.4). The two pixels of a pair have the same Cb and Cr; a last one without its pair has the Cr before */
function split422(row, columns, number) {
  const chroma = (/** @type {number} */ column) => row[3 * column] << 4 | row[3 * column + 2] >> 4;
  const luma = row[3 * number + 1] << 4 | row[3 * number + 2] & 15;
  const even = number - number % 2;
  const odd = even + 1 < columns ? even + 1 : even - 1;
  return [luma, chroma(even), odd < 0 ? 1 << YCC422_BITS - 1 : chroma(odd)];
}

/** @param {Uint8Array} row @param {number} columns @param {Signal} signal @param {number} number of a pixel, as it is sent @returns
 *  {number[]} red, green and blue, or Y, Cb and Cr */
function componentsAt(row, columns, signal, number) {
  if (signal.encoding === YCC422) return split422(row, columns, number);
  const [first, second, third] = [0, 1, 2].map((lane) => componentAt(row, lane, number, packedBits(signal)));
  return signal.encoding === YCC444 ? [second, third, first] : [first, second, third];
}

/** @param {Signal} signal @param {number} size of a component, in bits @param {boolean} isChroma @returns {number[]} the number that
 *  stands for 0 and the steps to the one that stands for 1 (for chroma: from -1/2 to 1/2) */
function levels(signal, size, isChroma) {
  if (signal.isFull) return [isChroma ? 2 ** (size - 1) : 0, 2 ** size - 1];
  const [zero, steps] = isChroma ? [128, 224] : [16, 219];
  return [zero * 2 ** (size - BYTE), steps * 2 ** (size - BYTE)];
}

/** @param {Signal} signal @param {number} size of a component, in bits @returns {(found: number[]) => number[]} what makes red, green and
 *  blue of components, each a byte */
function reader(signal, size) {
  const [zero, steps] = levels(signal, size, false);
  const [middle, reach] = levels(signal, size, true);
  const [kr, kb] = MATRICES[signal.matrix ?? "BT.709"];
  const byte = (/** @type {number} */ part) => {
    const whole = Math.min(Math.max(part, 0), 1);
    return size > BYTE ? Math.floor((Math.floor(whole * 65_535 + HALF) + 128) / 257) : Math.floor(whole * 255 + HALF);
  };
  if (signal.encoding === RGB) return (found) => found.map((one) => byte((one - zero) / steps));
  return ([first, second, third]) => {
    const luma = (first - zero) / steps;
    const red = luma + 2 * (1 - kr) * ((third - middle) / reach);
    const blue = luma + 2 * (1 - kb) * ((second - middle) / reach);
    return [red, (luma - kr * red - kb * blue) / (1 - kr - kb), blue].map(byte);
  };
}

/** @param {Uint8Array[]} rows @param {number} width @returns {number} the bits of a component that a source of YCbCr 4:2:2 has: 8, 10 or
 *  12, the least that are told by the zeros below them */
function bitsOf422(rows, width) {
  let low = 0;
  for (const row of rows) for (let at = 2; at < 3 * width; at += 3) low |= row[at] & 15 | row[at] >> 4;
  return low & 3 ? 12 : low ? 10 : 8;
}

/** @param {Uint8Array} row @param {number} size @returns {Uint8Array} the row cut or filled with zeros to a size */
function fitted(row, size) {
  if (row.length === size) return row;
  const found = new Uint8Array(size);
  found.set(row.subarray(0, size));
  return found;
}

/** @param {Uint8Array[]} rows @param {number} width in columns @returns {ImageData} with the bytes as colours */
function plain(rows, width) {
  const image = new ImageData(width, rows.length);
  const pixels = new Uint32Array(image.data.buffer);
  rows.forEach((row, number) => {
    const first = number * width;
    const most = Math.min(width, Math.floor(row.length / 3));
    for (let at = 0; at < most; at++) pixels[first + at] = 0xff000000 | row[3 * at + 2] << 16 | row[3 * at + 1] << 8 | row[3 * at];
    pixels.fill(0xff000000, first + most, first + width);
  });
  return image;
}

/** @param {Uint8Array[]} rows @param {number} width in columns @param {Signal} signal @returns {ImageData} their colours; what a shorter
 *  row lacks is black */
export function coloursOf(rows, width, signal) {
  if (isPlain(signal)) return plain(rows, width);
  const whole = rows.map((row) => fitted(row, 3 * width));
  const is422 = signal.encoding === YCC422;
  const size = is422 ? bitsOf422(whole, width) : signal.bits / 3;
  const read = reader(signal, size);
  const image = new ImageData(Math.max(1, pixelsOf(signal, width)), rows.length);
  image.data.fill(255);
  whole.forEach((row, number) => {
    const most = pixelsOf(signal, Math.min(width, Math.floor(rows[number].length / 3)));
    for (let at = 0; at < image.width; at++) {
      const found = componentsAt(row, width, signal, at * signal.times).map((one) => (is422 ? one >> YCC422_BITS - size : one));
      image.data.set(at < most ? read(found) : [0, 0, 0], 4 * (number * image.width + at));
    }
  });
  return image;
}
