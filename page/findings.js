// What the events of a link tell, gathered for a page: periods, faults, frames, packets.

import { Album } from "./album.js";
import { coloursOf, isPlain, pixelAt, pixelsOf, sentPixels } from "./colours.js";
import { BLOCKED, CLOSE, CUT, FAULT_KINDS, LANED, LINE, NEXT, OF_PACKET, OPEN, PACKET, RUN, UNCOUNTED, faultOf } from "./events.js";
import { Frame, MOST_LISTED, Vsync } from "./frames.js";
import { nameOf, numberOf } from "./infoframes.js";
import { contentOf, isOtherSize, packetOf } from "./packets.js";
import { Rows } from "./rows.js";
import { Sound } from "./samples.js";
import { Signals } from "./signals.js";
import { Weaver, linesDown } from "./weaving.js";
import { CONTENT_FAULTS, PIXEL_BITS, READ_AVI, TABLES, TYPES, UNHEARD } from "./words.js";

/** @typedef {import("./events.js").Event} Event */
/** @typedef {import("./packets.js").Content & {name: string}} Content */
/** @typedef {ReturnType<Findings["taken"]>} Found */

const PERIODS = { control: 0, video: 1, packet: 2, open: 3, close: 4, unknown: 5 }; // as report.js has them
const PACKET_COLUMNS = 32;
/** @type {Record<string, number>} */
const ALONE = { noise: 1, empty: 2 }; // columns of faults
const CLEAN = ["clean", "clean", "clean", "clean", "clean"];
const ENDS = { vsync: "whole", end: "broken off by the end of the capture" };

/** A packet of which more may be said, with what was found of its five blocks. */
class Received {
  /** @param {number} line @param {number} at its first column @param {Uint8Array} data */
  constructor(line, at, data) {
    this.line = line;
    this.at = at;
    this.packet = packetOf(data);
    this.verdicts = CLEAN;
    this.symbols = 0;
  }

  /** @param {string} kind of a fault of the packet @param {number[]} more its numbers */
  judge(kind, more) {
    if (kind === "symbols") [this.symbols] = more;
    if (!BLOCKED.has(kind)) return;
    this.verdicts = [...this.verdicts];
    this.verdicts[more[0]] = kind === "mended" ? `mended, bit ${more[1]}` : "lost";
  }
}

/** A table, column by column, of which the rows are taken out that came since the last time. */
class Table {
  /** @param {string[]} names */
  constructor(names) {
    this.names = names;
    this.size = 0; // with the rows that were taken out
    /** @type {Record<string, any[]>} */
    this.columns = {};
    this.clear();
  }

  clear() {
    this.columns = Object.fromEntries(this.names.map((name) => [name, []]));
  }

  /** @param {Record<string, any>} row */
  add(row) {
    for (const name of this.names) this.columns[name].push(row[name]);
    this.size += 1;
  }

  /** @returns {Record<string, any[]>} */
  taken() {
    const found = this.columns;
    this.clear();
    return found;
  }
}

const PERIOD_FIELDS = ["kind", "at", "columns", "line", "value"];
const FAULT_FIELDS = ["kind", "lane", "at", "line", "one", "other", "x", "y", "rgb"]; // the kind by its number, and two numbers more
const SETTLED_FIELDS = ["fault", "frame", "x", "rgb"];
const UNTOLD = -1; // of a number that a fault has not
export const UNCHANGED = -2; // of a fault that is shown as it was listed
const PACKET_FIELDS = ["at", "line", "content", "name", "verdicts", "symbols"];

/** Takes the events of a link, each of which is a line of its listing. */
export class Findings {
  /** @param {boolean} isDvi @param {number} columns that the capture has, about */
  constructor(isDvi, columns) {
    this.isDvi = isDvi;
    this.expected = columns;
    this.guards = isDvi ? 0 : 2;
    this.vsync = new Vsync();
    this.frame = new Frame(false);
    this.signals = new Signals(!isDvi);
    this.weaver = new Weaver();
    this.album = new Album();
    this.periods = new Rows(PERIOD_FIELDS);
    this.faults = new Rows(FAULT_FIELDS);
    this.packets = new Table(PACKET_FIELDS);
    /** @type {Map<string, number>} */
    this.known = new Map(); // the numbers of contents, by what they are of
    /** @type {Content[]} */
    this.contents = []; // since they were taken out
    /** @type {Received | null} */
    this.last = null;
    /** @type {Shot[]} */
    this.frames = []; // since they were taken out
    this.settled = new Rows(SETTLED_FIELDS); // what is known of faults once their frame has ended
    this.lines = 0;
    this.end = 0; // the column behind the last line
    this.opened = 0; // the column behind the last control period
    this.isClosing = false; // whether the last line that tells no fault closes an island
    /** @type {{at: number, line: number} | null} */
    this.unknown = null; // the last period, where its length is not known yet
    /** @type {Map<string, Rest>} */
    this.rest = new Map(); // by kind and frame
    this.counts = { rows: 0, frames: 0, whole: 0 };
    this.sound = new Sound();
    /** @type {Record<string, number>} */
    this.wrong = {}; // faults of contents, by kind
    this.content = { isCounting: false, width: 0, rows: 0, ragged: 0, isTorn: false }; // of the frame, as `recover content` counts it
    this.vic = 0; // of the last AVI InfoFrame
    this.otherSizes = 0; // frames of another size than it says, by their pixels
    this.raggedByFrames = 0; // the same of rows of another width
    /** @type {Record<string, number>} */
    this.unheard = {}; // packets of sound that is no PCM
    /** @type {Set<string>} */
    this.notes = new Set(); // what is assumed of whole frames
    /** @type {{column: number, line: number} | null} */
    this.cut = null;
  }

  /** @param {Event} event the next one */
  take(event) {
    this.lines += 1;
    const fault = faultOf(event.kind);
    if (!OF_PACKET.has(fault)) this.settle();
    if (event.kind === RUN) this.run(event);
    else if (fault !== "word") this.vsync.part();
    if (event.kind === LINE) this.line(event);
    else if (event.kind === PACKET) this.packet(event);
    else if (event.kind === OPEN || event.kind === CLOSE) this.guard(event);
    else if (event.kind === CUT) this.cut = { column: event.named, line: this.lines };
    else if (fault) this.fault(fault, event);
    if (!fault) this.isClosing = event.kind === CLOSE;
    if (event.kind === CUT) this.end = event.named;
  }

  /** @param {keyof typeof PERIODS} kind @param {number} at @param {number} columns @param {number} value */
  period(kind, at, columns, value) {
    this.stretch(at);
    this.periods.add([PERIODS[kind], at, columns, this.lines, value]);
    this.end = at + columns;
  }

  /** What could not be counted goes on until the next period.
   *  @param {number} at */
  stretch(at) {
    if (!this.unknown) return;
    const { at: first, line } = this.unknown;
    this.periods.add([PERIODS.unknown, first, Math.max(1, at - first), line, 0]);
    this.unknown = null;
  }

  /** @param {Event} event */
  run({ column, count, value }) {
    const at = column - count;
    if (this.vsync.take(value, count)) this.change(at, column - this.vsync.streak);
    this.period("control", at, count, value);
    this.opened = column;
  }

  /** VSYNC changed.
   *  @param {number} at the first column of the period in which it did @param {number} change */
  change(at, change) {
    const content = this.content;
    if (!content.isTorn) this.blame("ragged", content.ragged);
    if (!content.isTorn && content.rows && isOtherSize(this.vic, content.width, content.rows)) this.blame("vic");
    Object.assign(content, { isCounting: true, rows: 0, ragged: 0, isTorn: false });
    const ended = this.frame;
    this.frame = new Frame(true, change);
    if (ended.rows.length) this.endFrame(ended, at, "vsync");
  }

  /** @param {Event} event */
  line({ data }) {
    const row = data.slice();
    const pixels = row.length / 3;
    const content = this.content;
    if (content.isCounting) {
      if (!content.rows) content.width = pixels;
      else if (content.width !== pixels) content.ragged += 1;
      content.rows += 1;
    }
    this.counts.rows += 1;
    this.frame.add(row, this.opened, this.opened + this.guards, this.lines);
    this.period("video", this.opened, pixels + this.guards, pixels);
  }

  /** @param {Event} event */
  packet({ named, data }) {
    this.last = new Received(this.lines, named, data.slice());
    this.period("packet", named, PACKET_COLUMNS, data[0]);
  }

  /** @param {Event} event */
  guard({ column, kind }) {
    this.period(kind === OPEN ? "open" : "close", column - 1, 2, 0);
  }

  /** @param {string} kind @param {Event} event */
  fault(kind, { named, value, second, count }) {
    const lane = LANED.has(kind) ? value : -1;
    const more = { mended: [value, second], lost: [value], symbols: [count] }[/** @type {"lost"} */ (kind)] ?? [];
    if (this.frame.count(kind) > MOST_LISTED) this.countOnly(kind, lane, named);
    else {
      const mark = this.frame.mark(kind, this.faults.size, named);
      const [one, other] = [more[0] ?? UNTOLD, more[1] ?? UNTOLD];
      const rgb = colourOf(this.frame.pixelAt(mark));
      this.faults.add([FAULT_KINDS.indexOf(kind), lane, named, this.lines, one, other, mark.x, mark.y, rgb]);
    }
    if (OF_PACKET.has(kind)) this.last?.judge(kind, more);
    else this.leaveOut(kind, named);
  }

  /** @param {string} kind of a fault that is not listed, since its frame has so many of it @param {number} lane @param {number} at */
  countOnly(kind, lane, at) {
    const key = `${kind} ${this.counts.frames}`;
    const rest = this.rest.get(key) ?? { kind, lanes: {}, from: at, to: at };
    rest.lanes[lane] = (rest.lanes[lane] ?? 0) + 1;
    rest.to = at;
    this.rest.set(key, rest);
  }

  /** A fault stands for columns that open nothing, or that could not be counted.
   *  @param {string} kind @param {number} at */
  leaveOut(kind, at) {
    const columns = kind === "empty" && this.isClosing ? 0 : ALONE[kind] ?? 0;
    if (columns || NEXT.has(kind)) this.end = at + columns;
    if (!columns && !UNCOUNTED.has(kind)) return;
    this.content.isTorn = true;
    this.stretch(at);
    this.unknown = { at, line: this.lines };
  }

  /** @param {string} kind of a fault of what the link carries @param {number} times */
  blame(kind, times = 1) {
    if (times) this.wrong[kind] = (this.wrong[kind] ?? 0) + times;
  }

  /** Reads the last packet, now that all is said of it. */
  settle() {
    const received = this.last;
    if (!received) return;
    this.last = null;
    const { packet, line, at, verdicts, symbols } = received;
    const content = verdicts.includes("lost") ? null : contentOf(packet);
    const name = nameOf(packet.header[0]);
    this.packets.add({ at, line, name, verdicts, symbols, content: content ? this.numberOf({ ...content, name }) : -1 });
    if (content) this.heed(packet, content, !symbols && verdicts === CLEAN);
    else this.content.isTorn = true;
    if (!content && packet.header[0] === TYPES.SAMPLES) this.sound.lose();
  }

  /** @param {import("./packets.js").Packet} packet one without a lost block @param {import("./packets.js").Content} content @param
   *  {boolean} isIntact whether no bit of it was wrong: the source is blamed of no other one */
  heed(packet, { faults }, isIntact) {
    const [kind, version] = packet.header;
    for (const fault of isIntact ? faults : []) this.blame(fault.split(" ")[0]);
    this.signals.take(packet);
    if (kind === TYPES.AVI && version === READ_AVI && !faults.length) this.vic = numberOf(packet, "VIC");
    this.sound.take(packet, faults);
    if (UNHEARD[kind]) this.unheard[UNHEARD[kind]] = (this.unheard[UNHEARD[kind]] ?? 0) + 1;
  }

  /** @param {Content} content @returns {number} packets that carry the same have one number */
  numberOf(content) {
    const key = JSON.stringify(content);
    const known = this.known.get(key);
    if (known !== undefined) return known;
    this.known.set(key, this.known.size);
    this.contents.push(content);
    return this.known.size - 1;
  }

  /** @param {Frame} frame that ended at a column @param {number} at @param {keyof typeof ENDS} ended what ended it */
  endFrame(frame, at, ended) {
    const { signal, notes } = this.signals.reading(frame.width);
    const number = this.counts.frames;
    this.counts.frames += 1;
    if (frame.isWhole) this.endWhole(frame, signal, notes);
    this.settleMarks(frame, number, signal);
    const [width, height] = [pixelsOf(signal, frame.width), frame.rows.length];
    this.weaver.take({ number, width, height, linesDown: linesDown(frame.change, frame.firsts) }, frame.isWhole);
    const left = Math.max(0, Math.round((this.expected - at) * this.counts.frames / Math.max(at, 1)));
    const picture = this.album.add(frame.rows, frame.width, signal, left);
    this.frames.push({
      picture, width, height, whole: frame.isWhole, number: this.counts.whole - 1, faults: sorted(frame.faults),
      says: saysOf(frame, ended, frame.isWhole && isOtherSize(this.vic, sentPixels(signal, frame.width), height) ? this.vic : 0),
      line: frame.lines[0], lines: frame.lines, from: frame.at, to: at, kind: this.album.exact[picture] ? "png" : "smaller",
    });
  }

  /** Tells where the faults of a frame are that has ended.
   *  @param {Frame} frame @param {number} number @param {import("./colours.js").Signal} signal */
  settleMarks(frame, number, signal) {
    const shownAs = shower(frame, signal);
    const { fault, x, y } = frame.marks.taken();
    for (let mark = 0; mark < fault.length; mark++) this.settled.add([fault[mark], number, ...shownAs(x[mark], y[mark])]);
  }

  /** @param {Frame} frame @param {import("./colours.js").Signal} signal @param {string[]} notes */
  endWhole(frame, signal, notes) {
    for (const note of notes) this.notes.add(note);
    this.counts.whole += 1;
    this.raggedByFrames += frame.ragged;
    this.otherSizes += Number(isOtherSize(this.vic, sentPixels(signal, frame.width), frame.rows.length));
  }

  /** No more events come. */
  finish() {
    this.settle();
    this.stretch(this.end);
    const ended = this.frame;
    this.frame = new Frame(false);
    ended.isWhole = false;
    if (ended.rows.length) this.endFrame(ended, this.end, "end");
    this.weaver.end();
  }

  /** @returns {Record<string, number>} the faults of contents as `recover content` counts them, which reads HDMI alone; frames of deep
   *  colour, of which it counts the columns, are compared with their InfoFrame by their pixels */
  get contentFaults() {
    if (this.isDvi) return this.raggedByFrames ? { ragged: this.raggedByFrames } : {};
    const found = { ...this.wrong };
    if (this.signals.depth) found.vic = this.otherSizes;
    return Object.fromEntries(Object.keys(CONTENT_FAULTS).filter((kind) => found[kind]).map((kind) => [kind, found[kind]]));
  }

  /** What came since the last call, and what is known of all. */
  taken() {
    const [frames, contents] = [this.frames, this.contents];
    [this.frames, this.contents] = [[], []];
    return {
      periods: this.periods.taken(), faults: this.faults.taken(), settled: this.settled.taken(), packets: this.packets.taken(), frames, contents,
      rest: [...this.rest.values()], pictures: this.album.taken(), shown: this.weaver.shown, columns: this.end, isAligned: this.lines > 0, counts: { ...this.counts },
      contentFaults: this.contentFaults, unheard: { ...this.unheard }, notes: [...this.notes], cut: this.cut,
      vic: this.signals.avi?.vic ?? 0, depth: PIXEL_BITS[this.signals.depth || 4] ?? 24, sound: this.sound.taken(),
    };
  }
}

/** @param {Record<string, number>} counts @returns {Record<string, number>} by name */
function sorted(counts) {
  return Object.fromEntries(Object.entries(counts).sort(([one], [other]) => (one < other ? -1 : 1)));
}

/** @param {Uint8Array | Uint8ClampedArray} pixel red, green and blue; none of a fault without a pixel @returns {number} as one number */
function colourOf(pixel) {
  return pixel.length ? pixel[0] << 16 | pixel[1] << 8 | pixel[2] : UNTOLD;
}

/** @param {Frame} frame @param {import("./colours.js").Signal} signal @returns {(x: number, y: number) => [number, number]} what tells the
 *  pixel and the colour as which a damaged column is shown, if they are others; each row is converted once */
function shower(frame, signal) {
  let [last, image] = [-1, /** @type {ImageData | null} */ (null)];
  return (x, y) => {
    if (isPlain(signal) || x < 0) return [UNCHANGED, UNCHANGED];
    if (y !== last || !image) [last, image] = [y, coloursOf([frame.rows[y]], frame.rows[y].length / 3, signal)];
    const pixel = pixelAt(signal, x);
    return pixel < image.width ? [pixel, colourOf(image.data.subarray(4 * pixel, 4 * pixel + 3))] : [-1, UNTOLD];
  };
}

/** @param {Frame} frame @param {keyof typeof ENDS} ended @param {number} vic the code that says another size; 0 where none does @returns
 *  {string} what is to be said of a frame */
function saysOf(frame, ended, vic) {
  const { ragged } = frame;
  const says = frame.isWhole || ended !== "vsync" ? ENDS[ended] : "begun before the capture";
  return `${says}${ragged ? `, ${ragged} rows of another width` : ""}${vic ? `, though its AVI InfoFrame says ${TABLES.MODES.known[vic]}` : ""}`;
}
