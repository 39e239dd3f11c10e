// The events of a link, as library/vabgrot.h has them: 48 bytes a record.

export const RECORD = 48;
export const RUN = 0;
export const LINE = 1;
export const OPEN = 2;
export const PACKET = 3;
export const CLOSE = 4;
export const CUT = 5;
const WORD = 6; // and behind it all other faults

/** The kinds of faults, as listings have them, from WORD on. */
export const FAULT_KINDS = [
  "word", "short", "preamble", "noise", "empty", "code", "longline", "symbols", "mended", "lost", "longisland", "broken", "guard",
];
export const LANED = new Set(["word", "code"]);
export const BLOCKED = new Set(["mended", "lost"]);
export const OF_PACKET = new Set(["longisland", "symbols", "mended", "lost"]);
/** Written of the column that comes next. */
export const NEXT = new Set(["short", "preamble", "noise", "broken"]);
/** They stand for columns whose number is not said. */
export const UNCOUNTED = new Set(["noise", "longline", "broken"]);

/** @typedef {{column: number, named: number, count: number, kind: number, value: number, second: number, data: Uint8Array}} Event
 *  `data` are its bytes, as long as the call that tells it */

/** @param {number} kind @returns {string} what a kind of fault is called; "" of what is none */
export function faultOf(kind) {
  return kind < WORD ? "" : FAULT_KINDS[kind - WORD];
}

/** @param {Uint8Array} records @param {Uint8Array} bytes those to which their offsets point @returns {Generator<Event>} */
export function* eventsOf(records, bytes) {
  const view = new DataView(records.buffer, records.byteOffset, records.byteLength);
  const long = (/** @type {number} */ at) => view.getUint32(at, true) + 2 ** 32 * view.getUint32(at + 4, true);
  for (let at = 0; at + RECORD <= records.length; at += RECORD) {
    const [offset, size] = [long(at + 24), view.getUint32(at + 32, true)];
    yield {
      column: long(at), named: long(at + 8), count: long(at + 16), kind: view.getUint32(at + 36, true),
      value: view.getUint32(at + 40, true), second: view.getUint32(at + 44, true), data: bytes.subarray(offset, offset + size),
    };
  }
}
