// Packets of data islands in words: what HDMI 1.4, CTA-861 and IEC 60958-3 call their fields.

import { hex, ones, sum } from "./bytes.js";
import { MOST_LENGTH, isInfoframe, layoutOf, lengthOf, numberIn, numberOf, rowsOf } from "./infoframes.js";
import { LAYOUTS, MODE_SIZES, SHORT, TYPES } from "./words.js";

/** @typedef {import("./infoframes.js").Packet} Packet */
/** @typedef {import("./infoframes.js").Row} Row */
/** @typedef {{words: string, rows: Row[], faults: string[]}} Content what a packet carries: in words, as fields, and what is wrong */

const [BODIES, BODY] = [4, 7];
const NUMBERS = [...Array(BODIES).keys()];
const FIELDS = /** @type {import("./infoframes.js").Layout} */ (LAYOUTS.find(({ header }) => header[0] === TYPES.SAMPLES)).fields;
const LEFT = FIELDS.left.byte;
const RIGHT = FIELDS.right.byte;

/** @param {Uint8Array} data 31 bytes or more @returns {Packet} */
export function packetOf(data) {
  return { header: data.subarray(0, 3), bytes: data.subarray(3, 31) };
}

/** @param {Packet} packet @param {number} number @returns {Uint8Array} */
export function bodyOf(packet, number) {
  return packet.bytes.subarray(BODY * number, BODY * (number + 1));
}

/** @param {string} words @param {Row[]} [rows] @param {string[]} [faults] @returns {Content} */
function content(words, rows = [], faults = []) {
  return { words, rows, faults };
}

/** @param {Packet} packet one without a lost block @returns {Content} */
export function contentOf(packet) {
  const kind = packet.header[0];
  if (isInfoframe(kind)) return infoframe(packet);
  const reader = READERS[kind];
  return reader ? reader(packet) : content([packet.header, ...NUMBERS.map((it) => bodyOf(packet, it))].map(hex).join(" "));
}

/** @param {Packet} packet @returns {Content} */
function clock(packet) {
  const first = hex(bodyOf(packet, 0));
  if (NUMBERS.some((number) => hex(bodyOf(packet, number)) !== first)) return content("its four copies are not alike", [], ["uneven"]);
  const rows = rowsOf(packet);
  return content(rows.map(({ name, value }) => `${name} ${value}`).join(", "), rows);
}

/** @param {Packet} packet of clock regeneration @returns {{n: number, cycles: number}} N and CTS */
export function clockOf(packet) {
  return { n: numberOf(packet, "N"), cycles: numberOf(packet, "CTS") };
}

/** @param {Uint8Array} body @returns {string[]} the sides, l and r, whose parity is odd */
function unevenSides(body) {
  const all = (/** @type {number} */ at, /** @type {string} */ flags) => body[at] ^ body[at + 1] ^ body[at + 2] ^ numberIn(FIELDS[flags], body);
  const sides = { l: all(LEFT, "left VUCP"), r: all(RIGHT, "right VUCP") };
  return Object.entries(sides).filter(([, bits]) => ones(bits) % 2).map(([name]) => name);
}

/** What the header of a packet of samples says: which bodies are present, in which of them a block starts, which are flat, and whether they
 *  are of more than two channels (HDMI 1.4, section 5.3.4).
 *  @param {Packet} packet */
export function samplesOf({ header }) {
  const [present, starts, flat] = ["sample_present", "B", "sample_flat"].map((name) => numberIn(FIELDS[name], header));
  const here = NUMBERS.filter((number) => present >> number & 1);
  return { here, starts: here.map((number) => starts >> number & 1), flat: ones(present & flat), isWide: Boolean(numberIn(FIELDS.layout, header)) };
}

/** @param {Uint8Array} body @param {string} name of a field of it @returns {number} */
export function inBody(body, name) {
  return numberIn(FIELDS[name], body);
}

/** @param {Packet} packet of samples @returns {Content} */
function samples(packet) {
  const { here, starts, flat, isWide } = samplesOf(packet);
  const behind = `${starts.includes(1) ? ", a block starts" : ""}${flat ? `, ${flat} flat` : ""}`;
  if (isWide) {
    const channels = here.map((pair) => `${2 * pair + 1}, ${2 * pair + 2}`).join(" and ");
    return content(`1 sample of more than two channels: ${channels || "none"}${behind}`, [], ["layout"]);
  }
  const faults = here.flatMap((number) => unevenSides(bodyOf(packet, number)).map((side) => `parity ${number} ${side}`));
  return content(`${here.length} sample${here.length === 1 ? "" : "s"} of two channels${behind}`, [], faults);
}

/** @param {Packet} packet @returns {Content} One Bit Audio samples (HDMI 1.4, section 5.3.9) */
function oneBit(packet) {
  const [present, invalid, layout] = ["samples_present", "samples_invalid", "layout"].map((name) => numberOf(packet, name));
  return content(`One Bit Audio: ${ones(present)} of four bodies, layout ${layout}, ${ones(present & invalid)} not valid`);
}

/** @param {Packet} packet @returns {Content} DST audio (HDMI 1.4, section 5.3.10) */
function dst(packet) {
  const [starts, invalid] = ["frame_start", "samples_invalid"].map((name) => numberOf(packet, name));
  return content(`DST audio${starts ? ", a frame starts" : ""}${invalid ? ", not valid" : ""}`);
}

/** @param {Packet} packet @returns {Content} high bit rate audio (HDMI 1.4, section 5.3.11) */
function highRate(packet) {
  return content(`high bit rate audio (IEC 61937), four frames${numberOf(packet, "B") ? ", a block starts" : ""}`);
}

/** @param {Packet} packet whose fields are rows @returns {Content} */
function described(packet) {
  const rows = rowsOf(packet);
  return content(rows.slice(0, 3).map((it) => `${it.name} ${it.value}`).join(", "), rows);
}

/** @param {Packet} packet @returns {Content} a general control packet */
function control(packet) {
  const [rows, depth] = [rowsOf(packet), numberOf(packet, "CD")];
  const mute = rows[0].value === "as it is" ? "leaves mute" : rows[0].value;
  return content(`${mute}, ${rows[1].value}`, rows, depth === 0 || depth === 4 ? [] : [`depth ${depth}`]);
}

/** @param {Packet} packet @returns {number} what header and bytes of an InfoFrame sum to; 0 where they are right */
export function checksumOf(packet) {
  return (sum(packet.header) + sum(packet.bytes.subarray(0, lengthOf(packet) + 1))) % 256;
}

/** @param {Packet} packet @returns {boolean} whether the program refuses an InfoFrame of its length */
function hasWrongLength(packet) {
  const { header: [kind, version] } = packet;
  const known = LAYOUTS.find(({ isStrict, header }) => isStrict && header[0] === kind && header[1] === version);
  return lengthOf(packet) > MOST_LENGTH || (known !== undefined && lengthOf(packet) !== known.header[2]);
}

/** @param {Packet} packet @returns {Content} */
function infoframe(packet) {
  const { header: [kind, version], bytes } = packet;
  const [length, total] = [lengthOf(packet), checksumOf(packet)];
  if (hasWrongLength(packet)) return content(`a length of ${length}, which is wrong`, [], ["length"]);
  if (total) return content(`a checksum that leaves ${hex([total])}`, [], [`checksum ${hex([total])}`]);
  if (!layoutOf(packet)) {
    const payload = hex(bytes.subarray(1, length + 1));
    const rows = [["version", String(version)], ["payload", payload]].map(([name, value]) => ({ name, value, number: "" }));
    return content(`version ${version}: ${payload || "no payload"}`, rows);
  }
  const rows = rowsOf(packet);
  if (kind === TYPES.VENDOR) return content(`${rows[0].value}: ${rows.slice(1).map((it) => it.value).join(", ")}`, rows);
  return content(rows.filter((it) => SHORT.includes(it.name)).map((it) => it.value).join(", ") || rows[0].value, rows);
}

/** @type {Record<number, (packet: Packet) => Content>} */
const READERS = {
  [TYPES.NULL]: () => content("nothing"), [TYPES.CLOCK]: clock, [TYPES.SAMPLES]: samples, [TYPES.CONTROL]: control,
  [TYPES.ONE_BIT]: oneBit, [TYPES.DST]: dst, [TYPES.HIGH_RATE]: highRate,
  [TYPES.PROTECTION]: described, [TYPES.ISRC1]: described, [TYPES.ISRC2]: described, [TYPES.GAMUT]: described,
};

/** @param {number} vic @param {number} width @param {number} height @returns {boolean} whether a frame has another size than a known
 *  video identification code says */
export function isOtherSize(vic, width, height) {
  const known = MODE_SIZES[vic];
  return Boolean(known) && (known[0] !== width || known[1] !== height);
}
