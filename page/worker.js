// Reads a capture in a thread of its own, block by block, and posts what has been found while it does.

import { eventsOf } from "./events.js";
import { Findings } from "./findings.js";
import { Listing } from "./listing.js";
import { DVI, NO_CAPTURE, recover } from "./module.js";
import { memoryOf } from "./rows.js";
import { sourceOf, whyNone } from "./source.js";
import { Slips } from "./strays.js";

const EACH = 200; // milliseconds between two posts

/** @typedef {{files: Blob[], kind: number, module: WebAssembly.Module}} Order what is to be read, and by what */
/** @typedef {{at: number, size: number, bits: number[], found: import("./findings.js").Found, slip: import("./strays.js").Slip | null,
 *  listing: import("./listing.js").News, status?: number, why?: string[]}} Post how far the capture was read, and what came since the last
 *  post; at the end the status, and of what is no capture why */

/** Tells the page what was found. */
class Teller {
  /** @param {import("./source.js").Source} source @param {boolean} isDvi */
  constructor(source, isDvi) {
    this.source = source;
    this.findings = new Findings(isDvi, Math.floor(Math.max(0, ...source.bits) / 10));
    this.listing = new Listing();
    this.slips = new Slips(source);
    this.at = 0; // bytes of the capture that were read
    this.told = performance.now();
  }

  /** @param {Uint8Array} into @returns {number} */
  read(into) {
    if (performance.now() - this.told >= EACH) this.post(false);
    const size = this.source.read(this.at, into);
    this.slips.take(this.at, into.subarray(0, size));
    this.at += size;
    return size;
  }

  /** @param {Uint8Array} records @param {Uint8Array} bytes */
  tell(records, bytes) {
    for (const event of eventsOf(records, bytes)) this.findings.take(event);
  }

  /** @param {boolean} isEnd whether this is all @param {object} [more] what else is to be told */
  post(isEnd, more = {}) {
    const found = this.findings.taken();
    const listing = this.listing.taken(isEnd);
    const { at, source: { size, bits }, slips: { slip } } = this;
    const pixels = found.pictures.flatMap(({ image, small }) => [image.data.buffer, small.data.buffer]);
    const tables = memoryOf(found.periods, found.faults, found.settled, /** @type {any} */ (listing.chunk));
    postMessage({ at, size, bits, found, slip, listing, ...more }, { transfer: [...new Set([...pixels, ...tables])] });
    this.told = performance.now();
  }
}

/** @param {Order} order */
function read({ files, kind, module }) {
  const reader = new FileReaderSync();
  const teller = new Teller(sourceOf(files, (part) => reader.readAsArrayBuffer(part)), kind === DVI);
  const status = recover(module, kind, {
    read: (into) => teller.read(into),
    write: (bytes) => teller.listing.take(bytes),
    tell: (records, bytes) => teller.tell(records, bytes),
  });
  teller.findings.finish();
  teller.post(true, { status, why: status === NO_CAPTURE ? whyNone(teller.source) : [] });
}

onmessage = ({ data }) => {
  try {
    read(data);
  } catch (why) {
    postMessage({ failed: String(why) });
  }
};
