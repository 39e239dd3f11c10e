// The receiver, which is a module of WebAssembly with 64-bit memory, and what it asks of the page.

import { RECORD } from "./events.js";

/** A module with a memory of 64-bit addresses and nothing else. */
const WITH_MEMORY64 = new Uint8Array([0x00, 0x61, 0x73, 0x6d, 0x01, 0x00, 0x00, 0x00, 0x05, 0x03, 0x01, 0x04, 0x01]);

/** @returns {boolean} whether the browser runs such modules */
export function hasMemory64() {
  return typeof WebAssembly === "object" && WebAssembly.validate(WITH_MEMORY64);
}

export const LINK = 0;
export const DVI = 1;
export const DONE = 0;
export const FAULTY = 1;
export const NO_CAPTURE = 3;
export const NO_ALIGNMENT = 7;

/** @typedef {{read: (into: Uint8Array) => number, write: (bytes: Uint8Array) => void, tell: (records: Uint8Array, bytes: Uint8Array) =>
 *  void}} Host what the receiver asks for: the next bytes of the capture; to take bytes of the listing; to take events with their bytes */

/** @param {WebAssembly.Module} module @param {number} kind LINK or DVI @param {Host} host @returns {number} the status */
export function recover(module, kind, host) {
  /** @type {WebAssembly.Memory} */
  let memory;
  const bytesAt = (/** @type {bigint} */ at, /** @type {bigint} */ length) => new Uint8Array(memory.buffer, Number(at), Number(length));
  /** @type {Record<string, (...places: bigint[]) => bigint | void>} */
  const functions = {
    read: (at, length) => BigInt(host.read(bytesAt(at, length))),
    write: (at, length) => host.write(bytesAt(at, length)),
    tell: (records, count, bytes, size) => host.tell(bytesAt(records, BigInt(RECORD) * count), bytesAt(bytes, size)),
  };
  const { exports } = new WebAssembly.Instance(module, { host: functions });
  memory = /** @type {WebAssembly.Memory} */ (exports.memory);
  return /** @type {(kind: number) => number} */ (exports.page_recover)(kind);
}
