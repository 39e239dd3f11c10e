// The fields of a packet as numbers, and in words as rows, by the table that reads, makes and judges packets (vabgrot.formats.layouts).

import { hex, thousands } from "./bytes.js";
import { LAYOUTS, NAMES, TABLES, TYPES } from "./words.js";

/** @typedef {{header: Uint8Array, bytes: Uint8Array}} Packet the three bytes of the header, and the 28 of the four bodies */
/** @typedef {{name: string, value: string, number: string}} Row a field: what it is called, what it says, and its name and number in
 *  the standard */
/** @typedef {{byte: number, low: number, bits: number, inHeader: boolean, isBig: boolean}} Field */
/** @typedef {{name: string, says: string, number: string, when: Record<string, number[]>}} Line a row, as the table has it */
/** @typedef {{name: string, header: number[], isStrict: boolean, least: number | null, where: Record<string, number>, fields:
 *  Record<string, Field>, octets: Record<string, {first: number, most: number | string | null, empty: string}>, lines: Line[]}} Layout */

const LENGTH = 31; // of byte 2 of an InfoFrame's header
export const MOST_LENGTH = 27;

/** @param {number} kind a type @returns {boolean} whether such packets have a version, a length and a checksum */
export function isInfoframe(kind) {
  return kind >= TYPES.INFOFRAMES;
}

/** @param {number} kind @returns {string} what a type is called */
export function nameOf(kind) {
  return NAMES[kind] ?? `${isInfoframe(kind) ? "InfoFrame" : "Packet"} ${hex([kind])}`;
}

/** @param {Packet} packet an InfoFrame @returns {number} how many bytes behind PB0 it says that it has */
export function lengthOf({ header }) {
  return header[2] & LENGTH;
}

/** @param {Packet} packet @returns {Uint8Array} those bytes from PB0 on that belong to it */
function within(packet) {
  return isInfoframe(packet.header[0]) ? packet.bytes.subarray(0, lengthOf(packet) + 1) : packet.bytes;
}

/** @param {Field} field @returns {number} the byte behind it */
function endOf({ byte, low, bits }) {
  return byte + (low + bits + 7 >> 3);
}

/** @param {Field} field @param {Uint8Array} data a header, or the bytes from PB0 on, or those of a body @returns {number} */
export function numberIn(field, data) {
  const { byte, low, bits, isBig } = field;
  if (low + bits <= 8) return data[byte] >> low & 2 ** bits - 1;
  let octets = data.subarray(byte, endOf(field));
  if (isBig) octets = octets.slice().reverse();
  return Math.floor(octets.reduceRight((sum, octet) => 256 * sum + octet, 0) / 2 ** low) % 2 ** bits;
}

/** @param {Field} field @param {Packet} packet @returns {number} */
function numberOfField(field, { header, bytes }) {
  return numberIn(field, field.inHeader ? header : bytes);
}

/** @param {number[]} header @param {Layout} layout */
function isLower(header, layout) {
  return layout.header[1] <= header[1];
}

/** @param {Packet} packet @returns {Layout | undefined} that of its type; that of an InfoFrame is that of its version, or of the next lower
 *  one that is known */
function formOf({ header }) {
  const known = LAYOUTS.filter((it) => it.header[0] === header[0] && !Object.keys(it.where).length);
  return known.filter((it) => isLower([...header], it)).at(-1) ?? known[0];
}

/** @param {Packet} packet @returns {Layout | undefined} the one by which it is read; none where its type, its version or its length is not
 *  known */
export function layoutOf(packet) {
  const [kind, version] = packet.header;
  const length = lengthOf(packet);
  return LAYOUTS.find(({ header, least, where, fields }) => {
    const isLong = least === null ? version === header[1] && length === header[2] : length >= least;
    return kind === header[0] && (isLong || !isInfoframe(kind))
      && Object.entries(where).every(([name, number]) => numberOfField(fields[name], packet) === number);
  });
}

/** @param {Packet} packet @param {string} name of a field @returns {number} its number; of an InfoFrame of a version that is not known,
 *  as the next lower version has it */
export function numberOf(packet, name) {
  const layout = formOf(packet);
  if (!layout) throw new RangeError(`no packet of type ${packet.header[0]} is known`);
  return numberOfField(layout.fields[name], packet);
}

/** @param {Packet} packet @param {Layout | undefined} [layout] @returns {Record<string, number>} the numbers of the fields that it has
 *  within its length; none where its layout is not known */
export function numbersOf(packet, layout = layoutOf(packet)) {
  const size = within(packet).length;
  const fields = Object.entries(layout?.fields ?? {}).filter(([, it]) => it.inHeader || endOf(it) <= size);
  return Object.fromEntries(fields.map(([name, it]) => [name, numberOfField(it, packet)]));
}

/** @param {Uint8Array} data @returns {string} characters of seven bits */
function textOf(data) {
  const text = [...data].map((byte) => ((byte & 127) >= 32 && (byte & 127) < 127 ? String.fromCharCode(byte & 127) : " ")).join("");
  return text.trim() || "(blank)";
}

/** @param {number} number @param {string} how @returns {string} a number as a row's text says it is to be written */
function inForm(number, how) {
  if (how in TABLES) return TABLES[how].known[number] ?? TABLES[how].other.replace("{}", String(number));
  if (how === ",") return thousands(number);
  if (how.startsWith("/")) {
    const [by, digits] = how.slice(1).split(".").map(Number);
    return (number / by).toFixed(digits);
  }
  return how ? number.toString(16).padStart(Number.parseInt(how, 10), "0") : String(number);
}

const HOLE = /\{([^:}]+):?([^}]*)\}/g;

/** @param {Line} line @param {Layout} layout @param {Record<string, number>} numbers @returns {boolean} whether it is a row of a packet
 *  with these numbers */
function applies({ says, number, when }, { octets }, numbers) {
  const named = [...`${says}${number}`.matchAll(HOLE)].map((hole) => hole[1]);
  return named.every((name) => name in octets || name in numbers)
    && Object.entries(when).every(([name, values]) => values.includes(numbers[name]));
}

/** @param {string} text of a row @param {Layout} layout @param {Record<string, number>} numbers @param {Uint8Array} data @returns {string}
 *  the text with the numbers and the bytes of a packet */
function written(text, { octets }, numbers, data) {
  return text.replace(HOLE, (_, name, how) => {
    if (!(name in octets)) return inForm(numbers[name], how);
    const { first, most, empty } = octets[name];
    const count = typeof most === "string" ? numbers[most] : most ?? Infinity;
    const part = data.subarray(first, first + count);
    return (how === "text" ? textOf(part) : hex(part)) || empty;
  });
}

/** @param {Packet} packet @returns {Row[]} its rows; none where its layout is not known */
export function rowsOf(packet) {
  const layout = layoutOf(packet);
  if (!layout) return [];
  const [numbers, data] = [numbersOf(packet, layout), within(packet)];
  /** @type {Map<string, Row>} */
  const rows = new Map();
  for (const line of layout.lines) {
    if (rows.has(line.name) || !applies(line, layout, numbers)) continue;
    const [value, number] = [line.says, line.number].map((text) => written(text, layout, numbers, data));
    rows.set(line.name, { name: line.name, value, number });
  }
  return [...rows.values()];
}
