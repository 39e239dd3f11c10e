// The pictures of frames: exact where there is room, else smaller; and a small one of each. Frames that are alike have one.

import { coloursOf, isPlain } from "./colours.js";

const ROOM = 100_000_000; // bytes of all pictures: a page is to have at most 300 MB
const [SMALL_WIDTH, SMALL_HEIGHT] = [192, 144];
const SCALES = [1, 2, 4, 8, 16];

/** @typedef {{image: ImageData, small: ImageData, isExact: boolean}} Picture */

/** @param {ImageData} image @param {number} width @param {number} height @returns {ImageData} each pixel the mean of those that it
 *  stands for */
export function reduced(image, width, height) {
  if (width === image.width && height === image.height) return image;
  const sums = new Uint32Array(4 * width * height);
  const across = Uint32Array.from({ length: image.width }, (_, x) => 4 * Math.floor(x * width / image.width));
  for (let y = 0; y < image.height; y++) {
    const row = 4 * width * Math.floor(y * height / image.height);
    addRow(image.data.subarray(4 * image.width * y, 4 * image.width * (y + 1)), across, sums.subarray(row, row + 4 * width));
  }
  const found = new ImageData(width, height);
  sums.forEach((sum, at) => { found.data[at] = at % 4 === 3 ? 255 : Math.round(sum / sums[at | 3]); });
  return found;
}

/** @param {Uint8ClampedArray} row of pixels @param {Uint32Array} across where each one's sums are @param {Uint32Array} sums of red, green
 *  and blue, and how many there are, to which they are added */
function addRow(row, across, sums) {
  for (let x = 0; x < across.length; x++) {
    const at = across[x];
    sums[at] += row[4 * x];
    sums[at + 1] += row[4 * x + 1];
    sums[at + 2] += row[4 * x + 2];
    sums[at + 3] += 1;
  }
}

/** @param {ImageData} image @returns {ImageData} as large as the strip shows it */
function smallOf(image) {
  const scale = Math.max(1, image.width / SMALL_WIDTH, image.height / SMALL_HEIGHT);
  return reduced(image, Math.max(1, Math.round(image.width / scale)), Math.max(1, Math.round(image.height / scale)));
}

/** @param {ImageData} image @returns {string} what tells it from others */
function keyOf(image) {
  const words = new Uint32Array(image.data.buffer);
  let [one, other] = [0x811c9dc5, 0x9e3779b9];
  for (const word of words) {
    one = Math.imul(one ^ word, 0x01000193);
    one ^= one >>> 15;
    other = Math.imul(other + word, 0x85ebca6b);
    other ^= other >>> 13;
  }
  return `${image.width} ${image.height} ${one} ${other}`;
}

/** Gives frames the numbers of their pictures. */
export class Album {
  constructor(room = ROOM) {
    this.room = room;
    /** @type {Map<string, number>} */
    this.numbers = new Map();
    /** @type {boolean[]} */
    this.exact = [];
    /** @type {Picture[]} */
    this.made = []; // since they were taken out
  }

  /** @param {Uint8Array[]} rows @param {number} width in columns @param {import("./colours.js").Signal} signal @param {number} left the
   *  frames still to come, as far as is known @returns {number} */
  add(rows, width, signal, left) {
    const image = coloursOf(rows, width, signal);
    const key = `${isPlain(signal)} ${keyOf(image)}`;
    const known = this.numbers.get(key);
    if (known !== undefined) return known;
    const picture = this.picture(image, Math.max(this.room, 0) / (left + 1));
    this.numbers.set(key, this.exact.length);
    this.exact.push(picture.isExact);
    this.made.push(picture);
    this.room -= picture.image.data.length;
    return this.exact.length - 1;
  }

  /** @param {ImageData} image @param {number} room @returns {Picture} one of so many bytes, as far as that can be */
  picture(image, room) {
    const scale = SCALES.find((one) => image.data.length / one ** 2 <= room) ?? SCALES[SCALES.length - 1];
    const [width, height] = [image.width, image.height].map((size) => Math.max(1, Math.ceil(size / scale)));
    return { image: reduced(image, width, height), small: smallOf(image), isExact: scale === 1 };
  }

  /** @returns {Picture[]} the pictures since the last call */
  taken() {
    const made = this.made;
    this.made = [];
    return made;
  }
}
