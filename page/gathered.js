// What the worker has posted so far, as the sections of the report read it.

import { Bursts } from "./bursts.js";
import { hexOf } from "./bytes.js";
import { encryptionOf } from "./encryption.js";
import { FAULT_KINDS } from "./events.js";
import { Findings, UNCHANGED } from "./findings.js";
import { Hearing } from "./hearing.js";
import { Lines, Listing } from "./listing.js";
import { Samples } from "./samples.js";
import { CONTENT_FAULTS, FAULTS, NAMES } from "./words.js";

const BLOCKS = ["body 0", "body 1", "body 2", "body 3", "header"];
/** @type {number[]} */
const NONE = [];
const NOT_READ = "not read, since a block is lost";
/** What has been posted before anything was.
 *  @type {Post} */
const NOTHING = {
  at: 0, size: 0, bits: [], found: new Findings(false, 0).taken(), slip: null,
  listing: new Listing().taken(false),
};

/** @param {any[]} list @param {ArrayLike<any>} more that are put behind it, however many there are */
function append(list, more) {
  for (let at = 0; at < more.length; at++) list.push(more[at]);
}

/** @param {object} table a list a column @param {Record<string, ArrayLike<any>>} more the same lists, which are put behind those of the
 *  table */
function extend(table, more) {
  for (const [name, list] of Object.entries(table)) append(list, more[name]);
}

/** @param {string} name @param {Lines} lines @returns {Data} of a report in which nothing stands yet */
function emptyData(name, lines) {
  const faults = { kind: [], lane: [], at: [], epoch: [], column: [], line: [], more: [], frame: [], x: [], y: [], rgb: [] };
  return {
    name, columns: 0, epochs: [0], places: [0], hidden: [0], alignments: [0], doubts: [[], []],
    periods: { kind: [], at: [], columns: [], line: [], value: [] }, faults, bursts: [], rest: [],
    kinds: Object.fromEntries(Object.entries(FAULTS).map(([kind, { row, says }]) => [kind, [row, says]])),
    limits: Object.keys(CONTENT_FAULTS).filter((kind) => CONTENT_FAULTS[kind].isLimit),
    frames: [], shown: [], thumbs: [],
    packets: { names: [], at: [], words: [], faults: [], verdicts: [], symbols: [], line: [] },
    packetNames: NAMES, words: [], blocks: BLOCKS, lines, sound: null,
  };
}

/** @typedef {import("./findings.js").Found} Found */
/** @typedef {import("./worker.js").Post} Post */

/** @typedef {{name: string, rows: import("./infoframes.js").Row[], line: number, times: number}} Info an InfoFrame, a clock or a general
 *  control packet that came so many times */

export class Gathered {
  /** @param {string[]} names of the files @param {(small: ImageData) => string} urlOf what makes a picture a URL */
  constructor(names, urlOf) {
    this.name = names.join(", ");
    this.lines = new Lines();
    this.data = emptyData(names.length > 1 ? "capture" : names[0].replace(/\.[^.]*$/, ""), this.lines); // by this name files are saved
    this.urlOf = urlOf;
    /** @type {ImageData[]} */
    this.pictures = [];
    /** @type {import("./findings.js").Content[]} */
    this.contents = [];
    /** @type {Map<string, number>} */
    this.words = new Map();
    /** @type {Map<string, Info>} */
    this.infos = new Map();
    /** @type {Record<string, Record<number, number>>} */
    this.listed = {}; // how many faults are listed, by kind and lane
    this.bursts = new Bursts();
    this.isOver = false;
    this.hurt = 0; // packets that are damaged
    this.encryption = ""; // how the link says that it is encrypted, once all has come
    /** @type {Uint8Array[]} */
    this.samples = []; // packets of samples
    /** @type {Hearing | null} */
    this.hearing = null; // the sound, once all of it has come
    /** @type {Blob[]} */
    this.listing = [];
    /** @type {Post} */
    this.last = NOTHING; // what was posted last
  }

  /** @param {Post} post of the worker */
  take(post) {
    const { found, listing } = post;
    this.last = post;
    this.takePictures(found);
    this.takeTables(found);
    this.takePackets(found);
    this.samples.push(found.sound.packets);
    append(this.listing, listing.parts);
    const { data } = this;
    this.lines.take(listing);
    data.columns = found.columns;
    data.doubts[1][0] = found.columns;
    data.alignments[0] = Number(found.isAligned);
    data.shown = found.shown;
    this.takeBursts();
  }

  takeBursts() {
    this.data.bursts = this.bursts.take(this.data.faults, this.data.periods, this.isOver);
  }

  /** @param {Found} found */
  takePictures({ pictures, frames }) {
    for (const { image, small } of pictures) {
      this.pictures.push(image);
      this.data.thumbs.push(this.urlOf(small));
    }
    append(this.data.frames, frames);
  }

  /** All has come: what is told of the sound. */
  hear() {
    this.isOver = true;
    this.takeBursts();
    this.encryption = encryptionOf(this.data.periods);
    const { sound: { told }, depth, unheard } = this.last.found;
    if (!told.samples) return;
    this.hearing = new Hearing(new Samples(this.samples, told.samples), told, depth, unheard);
    this.data.sound = { choices: this.hearing.choices, order: this.hearing.order };
  }

  /** @param {Found} found */
  takeTables({ periods, faults, settled, rest }) {
    const { data } = this;
    extend(data.periods, periods);
    data.rest = rest;
    for (let at = 0; at < faults.kind.length; at++) this.takeFault(faults, at);
    for (let at = 0; at < settled.fault.length; at++) {
      const fault = settled.fault[at];
      data.faults.frame[fault] = settled.frame[at];
      if (settled.x[at] > UNCHANGED) data.faults.x[fault] = settled.x[at];
      if (settled.rgb[at] > UNCHANGED) data.faults.rgb[fault] = hexOf(settled.rgb[at]);
    }
  }

  /** @param {Found["faults"]} faults @param {number} at one of them */
  takeFault({ kind: kinds, lane, at: columns, line, one, other, x, y, rgb }, at) {
    const { data: { faults }, listed } = this;
    const kind = FAULT_KINDS[kinds[at]];
    faults.kind.push(kind);
    faults.lane.push(lane[at]);
    faults.at.push(columns[at]);
    faults.epoch.push(0);
    faults.column.push(columns[at]);
    faults.line.push(line[at]);
    faults.more.push(one[at] < 0 ? NONE : other[at] < 0 ? [one[at]] : [one[at], other[at]]);
    faults.frame.push(-1);
    faults.x.push(x[at]);
    faults.y.push(y[at]);
    faults.rgb.push(hexOf(rgb[at]));
    countIn(listed, kind, lane[at], 1);
  }

  /** @returns {Record<string, Record<number, number>>} how many faults there are, by kind and lane */
  get matrix() {
    const found = structuredClone(this.listed);
    for (const { kind, lanes } of this.data.rest ?? []) {
      for (const [lane, times] of Object.entries(lanes)) countIn(found, kind, Number(lane), times);
    }
    return found;
  }

  /** @param {Found} found */
  takePackets({ packets, contents }) {
    append(this.contents, contents);
    const table = this.data.packets;
    append(table.at, packets.at);
    append(table.line, packets.line);
    append(table.names, packets.name);
    append(table.verdicts, packets.verdicts);
    append(table.symbols, packets.symbols);
    packets.content.forEach((number, at) => {
      const content = this.contents[number];
      table.words.push(this.wordsNumber(content?.words ?? NOT_READ));
      table.faults.push(content?.faults ?? []);
      this.hurt += Number(packets.symbols[at] > 0 || packets.verdicts[at].some((/** @type {string} */ says) => says !== "clean"));
      if (content?.rows.length) this.takeInfo(content, packets.line[at]);
    });
  }

  /** @param {string} words @returns {number} */
  wordsNumber(words) {
    const known = this.words.get(words);
    if (known !== undefined) return known;
    this.words.set(words, this.words.size);
    this.data.words.push(words);
    return this.words.size - 1;
  }

  /** @param {import("./findings.js").Content} content @param {number} line */
  takeInfo({ name, rows }, line) {
    const key = JSON.stringify([name, rows]);
    const info = this.infos.get(key) ?? { name, rows, line, times: 0 };
    info.times += 1;
    this.infos.set(key, info);
  }

  /** @returns {number} the lines of the listing that tell a fault */
  get faults() {
    const rest = (this.data.rest ?? []).flatMap(({ lanes }) => Object.values(lanes));
    return rest.reduce((sum, times) => sum + times, this.data.faults.kind.length);
  }

  /** @returns {Info[]} those that came most often */
  get mostInfos() {
    return [...this.infos.values()].sort((one, other) => other.times - one.times).slice(0, 24);
  }
}

/** @param {Record<string, Record<number, number>>} counts to which some faults are added @param {string} kind @param {number} lane @param
 *  {number} times */
function countIn(counts, kind, lane, times) {
  counts[kind] ??= {};
  counts[kind][lane] = (counts[kind][lane] ?? 0) + times;
}
