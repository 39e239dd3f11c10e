// What is told of the sound of a link: its rate, its speakers, its levels, its channel status, and how it may be played.

import { counted, thousands } from "./bytes.js";
import {
  ACCURACY, ALLOCATIONS, BESIDE, CODED_RATES, LEFT_SPEAKERS, MASK, MODE_CLOCKS, RATES, RIGHT_SPEAKERS, SAMPLE_SIZES, SENT, SPEAKER_WORDS,
} from "./words.js";

/** @typedef {import("./samples.js").Samples} Samples */
/** @typedef {import("./samples.js").Told} Told */
/** @typedef {{number: number, speaker: string, name: string, words: string, values: Int32Array, peak: number | null, mean: number |
 *  null}} Channel its number from 1 on, its speaker (NONE where it has none), its samples, and its levels in dB of full scale, null of
 *  silence */

const NONE = "-";
const SUPPOSED = 48_000; // Hz, where nothing tells the rate
const FULL = 2 ** 23;
const MOST_STATUS = 4; // unlike blocks of channel status that are shown
const HALF = Math.SQRT1_2;

/** @param {number} value @returns {number | null} in dB of full scale; null of 0 */
function decibels(value) {
  return value ? Math.round(2000 * Math.log10(value / FULL)) / 100 : null;
}

/** @param {Int32Array} values @returns {{peak: number | null, mean: number | null}} the greatest value and the root of the mean square */
function levelOf(values) {
  let [peak, squares] = [0, 0];
  for (const value of values) {
    peak = Math.max(peak, Math.abs(value));
    squares += value * value;
  }
  return { peak: decibels(peak), mean: decibels(values.length ? Math.sqrt(squares / values.length) : 0) };
}

/** @param {number} pairs @param {Told} told @param {boolean} isWide @returns {string[]} the speakers of the channels, NONE of those that
 *  have none; the usual ones where no known allocation is told */
function namesOf(pairs, told, isWide) {
  const known = told.allocation !== null ? ALLOCATIONS[isWide ? told.allocation : 0] : undefined;
  const usual = ALLOCATIONS[SENT[2 * pairs]];
  return (isWide ? known ?? usual : ALLOCATIONS[0]).slice(0, 2 * pairs);
}

/** @param {Samples} samples @param {Told} told @returns {Channel[]} those that have a speaker or are not silent */
function channelsOf(samples, told) {
  return namesOf(samples.bodies.length, told, samples.isWide).flatMap((speaker, at) => {
    const values = samples.values(at);
    if (speaker === NONE && !values.some((value) => value)) return [];
    const words = SPEAKER_WORDS[speaker] ?? "no speaker is told";
    return [{ number: at + 1, speaker, name: speaker === NONE ? `channel ${at + 1}` : speaker, words, values, ...levelOf(values) }];
  });
}

/** @param {{n: number, cycles: number}} told @param {number} clock Hz of columns @returns {number} the rate by a clock packet (HDMI 1.4,
 *  section 7.2); one within 0.2 percent of a usual rate is that rate */
function rateOf({ n, cycles }, clock) {
  const rate = clock * n / (128 * cycles);
  return RATES.find((usual) => Math.abs(rate - usual) <= usual / 500) ?? Math.round(rate);
}

/** @param {Told} told @param {number} depth bits of a pixel @param {number[]} status the first block of channel 1 @returns {[string,
 *  number][]} what tells a sampling rate, and which; the clock packets first */
function ratesOf(told, depth, status) {
  const clock = told.vic && MODE_CLOCKS[told.vic] ? Math.floor(MODE_CLOCKS[told.vic] * depth / 24) : 0;
  const coded = status.length && !status[0] ? CODED_RATES[numberIn(status, 24, 4)] : undefined;
  const byClock = told.clock && told.clock.n && told.clock.cycles && clock ? rateOf(told.clock, clock) : 0;
  const rates = /** @type {[string, number][]} */ ([
    ["the clock packets", byClock], ["the channel status", coded ?? 0], ["the audio InfoFrame", told.frequency],
  ]);
  return rates.filter(([, rate]) => rate);
}

/** @param {number[]} bits @param {number} first @param {number} count @returns {number} */
function numberIn(bits, first, count) {
  return bits.slice(first, first + count).reduce((sum, bit, place) => sum + bit * 2 ** place, 0);
}

/** @param {number[]} bits the 192 of a channel's status (IEC 60958-3) @returns {[string, string][]} in words */
export function statusInWords(bits) {
  if (bits[0]) return [["use", "professional (IEC 60958-4), which is not read"]];
  const [rate, channel, pre] = [numberIn(bits, 24, 4), numberIn(bits, 20, 4), numberIn(bits, 3, 3)];
  const size = SAMPLE_SIZES[`${bits[32]} ${numberIn(bits, 33, 3)}`];
  const emphasis = { 0: "no emphasis", 1: "50/15 µs emphasis" }[pre] ?? "reserved emphasis";
  return [
    ["use", "consumer"],
    ["samples", bits[1] ? "not linear PCM" : "linear PCM"],
    ["copyright", bits[2] ? "not asserted" : "asserted"],
    ["emphasis", bits[1] ? "none told" : emphasis],
    ["category", `code ${numberIn(bits, 8, 8).toString(16).padStart(2, "0")}`],
    ["channel", { 0: "not told", 1: "1, left", 2: "2, right" }[channel] ?? String(channel)],
    ["rate", rate === 1 ? "not told" : rate in CODED_RATES ? `${CODED_RATES[rate]} Hz` : `code ${rate}`],
    ["clock", ACCURACY[numberIn(bits, 28, 2)]],
    ["word", size ? `${size} bits` : "length not told"],
  ];
}

/** @param {string[]} names @returns {{order: number[], mask: number}} the order in which a WAV file has channels of these speakers, and
 *  its channel mask; speakers without a bit come last */
export function placesOf(names) {
  const bits = names.includes("RLC") ? { ...MASK, ...BESIDE } : MASK;
  const order = names.map((_, at) => at).sort((one, other) => (bits[names[one]] ?? 32) - (bits[names[other]] ?? 32) || one - other);
  return { order, mask: names.reduce((sum, name) => sum + (name in bits ? 2 ** bits[name] : 0), 0) };
}

/** @param {string[]} names @returns {number[][]} how much of each channel the two sides of a downmix have (ITU-R BS.775), such that none is
 *  more than full scale */
function mixed(names) {
  const sides = [["FL", RIGHT_SPEAKERS], ["FR", LEFT_SPEAKERS]].map(([front, others]) => names.map((name) => {
    if (name === front) return 1;
    return others.includes(name) || name === "LFE" || name === NONE ? 0 : HALF;
  }));
  const most = Math.max(...sides.map((side) => side.reduce((sum, gain) => sum + gain, 0))) || 1;
  return sides.map((side) => side.map((gain) => gain / most));
}

/** What is told of a capture's sound. */
export class Hearing {
  /** @param {Samples} samples @param {Told} told @param {number} depth bits of a pixel @param {Record<string, number>} others packets of
   *  sound that is no PCM */
  constructor(samples, told, depth, others) {
    this.samples = samples;
    this.told = told;
    this.others = others;
    this.channels = channelsOf(samples, told);
    this.blocks = samples.bodies.map((_, pair) => samples.status(pair, told.gaps));
    this.rates = ratesOf(told, depth, this.blocks[0][0]?.sides[0] ?? []);
    this.rate = this.rates.length ? this.rates[0][1] : SUPPOSED;
    this.bits = this.channels.some(({ values }) => values.some((value) => value & 255)) ? 24 : 16;
  }

  /** @returns {string} how long it is */
  get seconds() {
    return `${(this.samples.count / this.rate).toFixed(3)} s`;
  }

  /** @returns {string} what it is, in words */
  get says() {
    const { samples, told, rates, channels } = this;
    const by = rates.length ? `by ${rates[0][0]}` : "which is supposed, since nothing that was received tells it";
    const of = samples.isWide ? ` of ${channels.length} channels (${channels.map((one) => one.name).join(" ")})` : "";
    const unlike = new Set(rates.map(([, rate]) => rate)).size > 1;
    const all = rates.map(([who, rate]) => `${who} ${thousands(rate)} Hz`).join(", ");
    return [
      `${thousands(samples.count)} samples of ${this.bits} bits${of} at ${thousands(this.rate)} Hz, ${by}: ${this.seconds}.`,
      ...(unlike ? [`These do not agree: ${all}.`] : []),
      ...(samples.isWide ? [this.saysSpeakers] : []),
      ...(told.gaps.length ? [`${told.gaps.length} packets of samples were lost.`] : []),
      ...Object.keys(this.others).sort().map((name) => `${thousands(this.others[name])} packets of ${name} are not played.`),
    ].join(" ");
  }

  /** @returns {string} who tells the speakers */
  get saysSpeakers() {
    const { allocation } = this.told;
    const code = (/** @type {number} */ it) => it.toString(16).padStart(2, "0");
    if (allocation !== null && ALLOCATIONS[allocation]) return `The speakers are those of the audio InfoFrame (CA ${code(allocation)}).`;
    const reserved = allocation === null ? "" : `CA ${code(allocation)} of the audio InfoFrame is reserved`;
    const usual = code(SENT[2 * this.samples.bodies.length]);
    return `${reserved || "No audio InfoFrame tells the speakers"}: those of CA ${usual} are supposed.`;
  }

  /** @returns {{of: string, times: number, sides: string[], rows: [string, string, string][]}[]} the channel status of each pair, the
   *  most frequent first */
  get status() {
    const { isWide } = this.samples;
    return this.blocks.flatMap((blocks, pair) => {
      const numbers = [2 * pair + 1, 2 * pair + 2];
      const most = [...blocks].sort((one, other) => other.times - one.times).slice(0, isWide ? 1 : MOST_STATUS);
      return most.map(({ sides: [left, right], times }) => {
        const [one, other] = [statusInWords(left), statusInWords(right)];
        const both = one.slice(0, other.length).map(([name, says], at) => [name, says, other[at][1]]);
        const rows = /** @type {[string, string, string][]} */ (both);
        const sides = isWide ? numbers.map((number) => `channel ${number}`) : ["left", "right"];
        return { of: isWide ? ` of channels ${numbers.join(" and ")}` : "", times, sides, rows };
      });
    });
  }

  /** @returns {{name: string, gains: number[][]}[]} what the player can be given, where there are more than two channels: of each side how
   *  much of each channel */
  get choices() {
    const { channels, samples } = this;
    if (!samples.isWide) return [];
    const alone = (/** @type {Channel} */ channel) => channels.map((one) => Number(one === channel));
    const pairs = samples.bodies.flatMap((_, pair) => {
      const its = channels.filter((one) => one.number - 1 >> 1 === pair);
      if (!its.length) return [];
      const numbers = its.map((one) => one.number).join(" and ");
      const name = `channel${its.length > 1 ? "s" : ""} ${numbers}: ${its.map((one) => one.words).join(", ")}`;
      return [{ name, gains: [alone(its[0]), alone(its[its.length - 1])] }];
    });
    const singles = channels.map((channel) => ({ name: `${channel.name} on both sides`, gains: [alone(channel), alone(channel)] }));
    return [{ name: "all, mixed down to two", gains: mixed(channels.map((one) => one.speaker)) }, ...pairs, ...singles];
  }

  /** @returns {number[]} of each channel its place in the file */
  get order() {
    if (!this.samples.isWide) return [0, 1];
    const { order } = placesOf(this.channels.map((one) => one.name));
    return order.map((_, at) => order.indexOf(at));
  }

  /** @returns {string} what the waveform shows */
  get label() {
    return `Waveform of ${counted(this.samples.count, "sample")}: ${this.channels.map((one) => one.words).join(", ")}`;
  }
}
