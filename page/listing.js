// The listing that a capture has: its bytes, to be saved, and its lines, whole where it is short, else without the pixels behind the
// first ones of a row.

const FULL = 1_000_000; // bytes up to which the lines are kept whole
const PART = 4_000_000; // bytes of a part of the file
const FIRST = 48; // digits of a long row that are kept
const LONG = "v ".length + FIRST + 24; // characters of a line from which on it is one
const NEWLINE = 10;
const ROW = 0x76; // the letter v

const decoder = new TextDecoder("latin1");
const encoder = new TextEncoder();

/** @param {Uint8Array} bytes @returns {string} one character a byte */
function textOf(bytes) {
  return decoder.decode(bytes);
}

/** @param {Room} room to which lines are added @param {Uint8Array} bytes that begin with them @param {boolean} isShort whether long rows
 *  lose the pixels behind their first ones @returns {number} how many of the bytes these lines have: the last one may not have ended */
function addLines(room, bytes, isShort) {
  let [from, at] = [0, 0]; // the first byte that is not in the room, and that of a line
  for (let end = bytes.indexOf(NEWLINE); end >= 0; end = bytes.indexOf(NEWLINE, at)) {
    if (isShort && bytes[at] === ROW && end - at > LONG) {
      room.put(bytes.subarray(from, at));
      room.put(encoder.encode(`${textOf(bytes.subarray(at, at + "v ".length + FIRST))}.. (${(end - at - "v ".length) / 6} pixels)\n`));
      room.end(0);
      from = end + 1;
    } else {
      room.end(end + 1 - from);
    }
    at = end + 1;
  }
  room.put(bytes.subarray(from, at));
  return at;
}

/** Lines as bytes, each with its newline. No line is a string before it is asked for: a listing may have millions of them. */
class Room {
  constructor() {
    this.bytes = new Uint8Array(1 << 16);
    this.size = 0;
    this.ends = new Uint32Array(1 << 10); // behind each line
    this.count = 0;
  }

  /** @param {Uint8Array} bytes whole lines, the ends of which are told */
  put(bytes) {
    const size = this.size + bytes.length;
    if (size > this.bytes.length) this.bytes = longer(this.bytes, size, Uint8Array);
    this.bytes.set(bytes, this.size);
    this.size = size;
  }

  /** @param {number} place the end of a line, by its place behind what is in it */
  end(place) {
    if (this.count === this.ends.length) this.ends = longer(this.ends, this.count + 1, Uint32Array);
    this.ends[this.count++] = this.size + place;
  }

  /** @returns {Chunk} what is in it, which is then empty */
  taken() {
    const found = { bytes: this.bytes.slice(0, this.size), ends: this.ends.slice(0, this.count) };
    [this.size, this.count] = [0, 0];
    return found;
  }
}

/** @template {Uint8Array | Uint32Array} Numbers @param {Numbers} numbers @param {number} least @param {new (size: number) => Numbers}
 *  Type @returns {Numbers} the same in twice the room, or in as much as is needed */
function longer(numbers, least, Type) {
  const found = new Type(Math.max(2 * numbers.length, least));
  found.set(numbers);
  return found;
}

/** @typedef {{bytes: Uint8Array, ends: Uint32Array}} Chunk lines, and where each ends
 *  @typedef {{chunk: Chunk, parts: Blob[], isWhole: boolean, size: number}} News what came since the last time: lines, and parts of the
 *  file; whether all lines are kept as they are, and the bytes of all of them */

/** Takes the bytes of a listing. */
export class Listing {
  constructor() {
    this.size = 0;
    this.held = new Uint8Array(0); // a line that has not ended
    this.room = new Uint8Array(PART);
    this.filled = 0; // of the room
    this.lines = new Room(); // since they were taken out
    /** @type {Blob[]} */
    this.parts = [];
  }

  /** @returns {boolean} whether all lines are kept as they are */
  get isWhole() {
    return this.size <= FULL;
  }

  /** @param {Uint8Array} bytes at most as many as a part has */
  take(bytes) {
    if (this.filled + bytes.length > PART) this.endPart();
    this.room.set(bytes, this.filled);
    this.filled += bytes.length;
    this.size += bytes.length;
    this.cut(this.held.length ? joined(this.held, bytes) : bytes);
  }

  /** @param {Uint8Array} bytes lines, of which the last one may not have ended */
  cut(bytes) {
    const at = addLines(this.lines, bytes, !this.isWhole);
    if (this.held.length || at < bytes.length) this.held = bytes.slice(at);
  }

  endPart() {
    this.parts.push(new Blob([this.room.subarray(0, this.filled)]));
    this.filled = 0;
  }

  /** @param {boolean} isEnd whether no more bytes come @returns {News} */
  taken(isEnd) {
    if (isEnd) this.endPart();
    const found = { chunk: this.lines.taken(), parts: this.parts, isWhole: this.isWhole, size: this.size };
    this.parts = [];
    return found;
  }
}

/** The lines of a listing as they are shown. */
export class Lines {
  constructor() {
    this.length = 0;
    /** @type {(Chunk & {first: number})[]} */
    this.chunks = [];
    this.isShort = false; // whether long rows have only their first pixels
  }

  /** @param {News} news the next lines */
  take({ chunk, isWhole }) {
    if (!isWhole && !this.isShort) this.shorten();
    if (!chunk.ends.length) return;
    this.chunks.push({ ...chunk, first: this.length });
    this.length += chunk.ends.length;
  }

  shorten() {
    this.isShort = true;
    for (const chunk of this.chunks) {
      const room = new Room();
      addLines(room, chunk.bytes, true);
      Object.assign(chunk, room.taken());
    }
  }

  /** @param {number} number counted from 0 @returns {string | undefined} */
  at(number) {
    const { chunks } = this;
    let [low, high] = [0, chunks.length];
    while (high - low > 1) {
      const middle = (low + high) >> 1;
      if (chunks[middle].first <= number) low = middle;
      else high = middle;
    }
    if (!(number >= 0 && number < this.length)) return undefined;
    const { bytes, ends, first } = chunks[low];
    const place = number - first;
    return textOf(bytes.subarray(place ? ends[place - 1] : 0, ends[place] - 1));
  }

  *[Symbol.iterator]() {
    for (const { bytes } of this.chunks) yield* textOf(bytes.subarray(0, bytes.length - 1)).split("\n");
  }
}

/** @param {Uint8Array} one @param {Uint8Array} other @returns {Uint8Array} both in turn */
function joined(one, other) {
  const found = new Uint8Array(one.length + other.length);
  found.set(one);
  found.set(other, one.length);
  return found;
}
