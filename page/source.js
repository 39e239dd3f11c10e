// Where the bytes of a capture come from: one file, or the files of its three lanes (docs/guide/FORMATS.md, captures).

const BLOCK = 4096; // bytes of a lane that follow one another
const MOST_BITS = 2 ** 32 - 1;
const AHEAD = 4 << 20; // bytes of a file that are read at a time
const HEADER = 16; // bytes of a header at most
const [ONE, TWO] = [0x31, 0x32]; // the fourth byte of versions 1 and 2

/** A file that is read from its beginning to its end, some bytes ahead. */
class Window {
  /** @param {Blob} file @param {(part: Blob) => ArrayBuffer} read */
  constructor(file, read) {
    this.file = file;
    this.read = read;
    this.at = 0;
    this.bytes = new Uint8Array(0);
  }

  /** @param {number} at @param {number} length @returns {Uint8Array} the bytes there, fewer only at the end */
  bytesAt(at, length) {
    if (at < this.at || at + length > this.at + this.bytes.length) {
      this.bytes = new Uint8Array(this.read(this.file.slice(at, at + Math.max(length, AHEAD))));
      this.at = at;
    }
    return this.bytes.subarray(at - this.at, at - this.at + length);
  }
}

/** @typedef {{size: number, bits: number[], start: number, read: (at: number, into: Uint8Array) => number}} Source a capture: its bytes,
 *  the bits of each lane by its header, where these begin, and what puts bytes at a place into an array and answers how many */

/** Where the bytes of the lanes stand in a capture: in blocks in turn. */
export class Layout {
  /** @param {number} start the place of the first one @param {number[]} bits of each lane */
  constructor(start, bits) {
    this.sizes = bits.map((count) => Math.ceil(count / 8));
    this.start = start;
    this.first = 0; // the first byte of the last blocks that were looked at, in their lanes
    this.place = start; // and its place in the capture
  }

  /** @param {number} at a place of the capture @param {number} length @returns {Generator<{lane: number, from: number, at: number, size:
   *  number}>} the pieces of lanes there: of which lane, from which of its bytes on, at which place, how many */
  *pieces(at, length) {
    if (at < this.place) [this.first, this.place] = [0, this.start];
    for (let { first, place } = this; first < Math.max(...this.sizes) && place < at + length; first += BLOCK) {
      [this.first, this.place] = [first, place];
      for (const [lane, whole] of this.sizes.entries()) {
        const size = Math.max(0, Math.min(BLOCK, whole - first));
        const [begin, end] = [Math.max(at, place), Math.min(at + length, place + size)];
        if (begin < end) yield { lane, from: first + begin - place, at: begin, size: end - begin };
        place += size;
      }
    }
  }
}

/** @param {Uint8Array} head the first bytes of a file @returns {number[]} the bits of each lane; none where it is no header */
export function bitsOf(head) {
  const isTwo = head[3] === TWO;
  const isKnown = String.fromCharCode(...head.subarray(0, 3)) === "TMC" && (isTwo || head[3] === ONE);
  if (!isKnown || head.length < (isTwo ? 16 : 8)) return [];
  const view = new DataView(head.buffer, head.byteOffset, head.byteLength);
  return [0, 1, 2].map((lane) => view.getUint32(isTwo ? 4 + 4 * lane : 4));
}

/** @param {Source} source that is no capture @returns {string[]} why: a kind of NO_CAPTURES, and its number */
export function whyNone({ size, bits, start, read }) {
  const head = new Uint8Array(Math.min(HEADER, size));
  read(0, head);
  const magic = String.fromCharCode(...head.subarray(0, 3));
  if (magic !== "TMC".slice(0, head.length)) return ["magic", String([..."TMC"].findIndex((one, at) => one !== magic[at]))];
  if (head.length > 3 && head[3] !== ONE && head[3] !== TWO) return ["version", String(head[3])];
  const layout = new Layout(start, bits);
  const wanted = layout.sizes.reduce((sum, one) => sum + one, start);
  if (!bits.length || size < wanted) return ["short", String(size)];
  if (size > wanted) return ["trailing", String(wanted)];
  for (const { lane, from, at, size: count } of layout.pieces(start, wanted - start)) {
    const isLast = from + count === layout.sizes[lane];
    if (isLast && bits[lane] % 8 && byteAt(read, at + count - 1) >> bits[lane] % 8) return ["padding", String(at + count - 1)];
  }
  return ["padding", "?"];
}

/** @param {Source["read"]} read @param {number} at @returns {number} */
function byteAt(read, at) {
  const into = new Uint8Array(1);
  read(at, into);
  return into[0];
}

/** @param {Blob} file @param {(part: Blob) => ArrayBuffer} read @returns {Source} */
function captureOf(file, read) {
  const window = new Window(file, read);
  const head = window.bytesAt(0, HEADER);
  return {
    size: file.size, bits: bitsOf(head), start: head[3] === TWO ? HEADER : 8,
    read(at, into) {
      const found = window.bytesAt(at, into.length);
      into.set(found);
      return found.length;
    },
  };
}

/** @param {Blob[]} files of lanes 0, 1 and 2, the first bit lowest @param {(part: Blob) => ArrayBuffer} read @returns {Source} */
function lanesOf(files, read) {
  const windows = files.map((file) => new Window(file, read));
  const bits = files.map((file) => 8 * file.size);
  if (bits.some((count) => count > MOST_BITS)) throw new RangeError(`a lane has at most ${MOST_BITS.toLocaleString("en-US")} bits`);
  const head = headOf(bits);
  const layout = new Layout(head.length, bits);
  const size = files.reduce((sum, file) => sum + file.size, head.length);
  return {
    size, bits, start: head.length,
    read(at, into) {
      into.set(head.subarray(at, at + into.length));
      for (const { lane, from, at: place, size: count } of layout.pieces(at, into.length)) {
        into.set(windows[lane].bytesAt(from, count), place - at);
      }
      return Math.max(0, Math.min(into.length, size - at));
    },
  };
}

/** @param {number[]} bits of each lane @returns {Uint8Array} the header of version 2 */
function headOf(bits) {
  const head = new Uint8Array(HEADER);
  head.set([..."TMC2"].map((one) => one.charCodeAt(0)));
  bits.forEach((count, lane) => new DataView(head.buffer).setUint32(4 + 4 * lane, count));
  return head;
}

/** @param {Blob[]} files a capture, or three lanes @param {(part: Blob) => ArrayBuffer} read @returns {Source} */
export function sourceOf(files, read) {
  return files.length === 3 ? lanesOf(files, read) : captureOf(files[0], read);
}
