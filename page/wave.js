// A sound as a WAV file, and as the outline of its waveform.

import { placesOf } from "./hearing.js";

const HEAD = 44; // bytes before the samples, of two channels
const MORE = 36; // bytes that the extensible format has more
const FACT = 60; // the place of its chunk that says how many samples each channel has
/** The end of the identifier of linear PCM in the extensible format. */
const PCM = [0x00, 0x00, 0x00, 0x00, 0x10, 0x00, 0x80, 0x00, 0x00, 0xaa, 0x00, 0x38, 0x9b, 0x71];
const STEPS = 1200; // of a waveform, at most
export const WIDTH = 1200;
export const TALL = 100; // of one channel

/** @param {import("./hearing.js").Hearing} hearing @returns {Uint8Array} a WAV file of two channels, or of the extensible format, whose
 *  channels stand in the order of their speakers */
export function wavOf({ channels, samples, rate, bits }) {
  const { order, mask } = samples.isWide ? placesOf(channels.map((one) => one.name)) : { order: [0, 1], mask: 0 };
  const size = bits / 8;
  const head = HEAD + (samples.isWide ? MORE : 0);
  const count = order.length * size * samples.count;
  const file = new Uint8Array(head + count + count % 2);
  const view = new DataView(file.buffer);
  putWavHead(view, { head, count, channels: order.length, rate, size });
  if (samples.isWide) putExtension(view, size, mask, samples.count);
  order.forEach((channel, place) => putSamples(file, channels[channel].values, head + place * size, order.length * size, size));
  return file;
}

/** Puts what the extensible format has more.
 *  @param {DataView} view @param {number} size @param {number} mask of the speakers @param {number} count of the samples */
function putExtension(view, size, mask, count) {
  view.setUint32(16, 40, true);
  view.setUint16(20, 0xfffe, true);
  view.setUint16(36, 22, true);
  view.setUint16(38, 8 * size, true);
  view.setUint32(40, mask, true);
  view.setUint16(44, 1, true);
  PCM.forEach((byte, at) => view.setUint8(46 + at, byte));
  putText(view, FACT, "fact");
  view.setUint32(FACT + 4, 4, true);
  view.setUint32(FACT + 8, count, true);
}

/** @param {Uint8Array} file @param {Int32Array} values of 24 bits @param {number} first @param {number} step @param {number} size bytes of
 *  a sample, the upper ones of the value */
function putSamples(file, values, first, step, size) {
  values.forEach((value, number) => {
    const at = first + step * number;
    for (let byte = 0; byte < size; byte++) file[at + byte] = value >> 8 * (3 - size + byte);
  });
}

/** @param {Int32Array} values @param {number} middle @returns {string} the outline as an SVG path: the greatest of each step, and back the
 *  least */
export function outline(values, middle) {
  const steps = Math.min(STEPS, values.length);
  /** @type {string[]} */
  const above = [];
  /** @type {string[]} */
  const below = [];
  for (let step = 0; step < steps; step++) {
    const part = values.subarray(Math.floor(step * values.length / steps), Math.floor((step + 1) * values.length / steps));
    const x = ((step + 0.5) * WIDTH / steps).toFixed(1);
    const [most, least] = [part.reduce((one, other) => Math.max(one, other)), part.reduce((one, other) => Math.min(one, other))];
    above.push(`${x} ${heightOf(most, middle)}`);
    below.unshift(`${x} ${heightOf(least, middle)}`);
  }
  return `M${[...above, ...below].join("L")}Z`;
}

/** @param {number} value of 24 bits @param {number} middle @returns {string} */
function heightOf(value, middle) {
  return (middle - (value >> 8) * 46 / 32768).toFixed(1);
}
