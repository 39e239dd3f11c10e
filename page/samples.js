// The samples of a link: its packets of samples as they come, and what stands in them.

import { numberOf } from "./infoframes.js";
import { bodyOf, clockOf, inBody, samplesOf } from "./packets.js";
import { FREQUENCIES, READ_AVI, TYPES } from "./words.js";

const [PAIRS, BODY, HEADER] = [4, 7, 3];
const PACKET = HEADER + PAIRS * BODY; // bytes of a packet
const FULL = 2 ** 23; // of full scale
const BLOCK = 192; // samples of a block of channel status (IEC 60958-1)

/** @typedef {{clock: {n: number, cycles: number} | null, vic: number, frequency: number, allocation: number | null, samples: number, gaps:
 *  number[]}} Told what tells rate and speakers: N and CTS of the first clock packet, the code of the first AVI InfoFrame that has one, of
 *  the first audio InfoFrame the rate in Hz (0 by the stream) and CA; how many samples there are; the numbers of those before which some
 *  may be lost */

/** Takes the packets without a lost block, and where there is one. */
export class Sound {
  constructor() {
    /** @type {Told} */
    this.told = { clock: null, vic: 0, frequency: 0, allocation: null, samples: 0, gaps: [] };
    /** @type {number[]} */
    this.bytes = []; // of packets of samples, since they were taken out
  }

  /** @param {import("./packets.js").Packet} packet @param {string[]} faults of its content */
  take(packet, faults) {
    const { told } = this;
    const [kind, version] = packet.header;
    if (kind === TYPES.SAMPLES) this.takeSamples(packet);
    else if (faults.length) return;
    else if (kind === TYPES.CLOCK) told.clock ??= clockOf(packet);
    else if (kind === TYPES.AVI && version === READ_AVI) told.vic ||= numberOf(packet, "VIC");
    else if (kind === TYPES.AUDIO && told.allocation === null) {
      [told.frequency, told.allocation] = [FREQUENCIES[numberOf(packet, "SF")], numberOf(packet, "CA")];
    }
  }

  /** @param {import("./packets.js").Packet} packet */
  takeSamples(packet) {
    const { here, isWide } = samplesOf(packet);
    this.bytes.push(...packet.header, ...packet.bytes);
    this.told.samples += isWide ? Math.min(1, here.length) : here.length;
  }

  /** A packet of samples has a lost block. */
  lose() {
    this.told.gaps.push(this.told.samples);
  }

  /** @returns {{packets: Uint8Array, told: Told}} the packets since the last call, and what is told so far */
  taken() {
    const packets = Uint8Array.from(this.bytes);
    this.bytes = [];
    return { packets, told: { ...this.told, gaps: [...this.told.gaps] } };
  }
}

/** The samples of all pairs of channels: the bodies of each pair, zeros where it has none; the numbers of the samples that start a block
 *  of each; whether there is layout 1 (HDMI 1.4, section 5.3.4). */
export class Samples {
  /** @param {Uint8Array[]} parts packets @param {number} count how many samples there are */
  constructor(parts, count) {
    this.count = count;
    this.isWide = false;
    this.bodies = [new Uint8Array(BODY * count)];
    /** @type {number[][]} */
    this.starts = [[]];
    let next = 0;
    for (const part of parts) {
      for (let at = 0; at < part.length; at += PACKET) {
        const packet = { header: part.subarray(at, at + HEADER), bytes: part.subarray(at + HEADER, at + PACKET) };
        next += this.takePacket(packet, next);
      }
    }
  }

  /** @param {import("./packets.js").Packet} packet of layout 0, or of layout 1, which has one sample of several pairs @param {number} first
   *  the number of its first sample @returns {number} how many it has */
  takePacket(packet, first) {
    const { here, starts, isWide } = samplesOf(packet);
    this.isWide ||= isWide;
    here.forEach((number, at) => this.put(isWide ? number : 0, first + (isWide ? 0 : at), bodyOf(packet, number), starts[at]));
    return isWide ? Math.min(1, here.length) : here.length;
  }

  /** @param {number} pair @param {number} sample @param {Uint8Array} body @param {number} isStart */
  put(pair, sample, body, isStart) {
    while (this.bodies.length <= pair) {
      this.bodies.push(new Uint8Array(BODY * this.count));
      this.starts.push([]);
    }
    this.bodies[pair].set(body, BODY * sample);
    if (isStart) this.starts[pair].push(sample);
  }

  /** @param {number} channel counted from 0 @returns {Int32Array} its values, of 24 bits with a sign */
  values(channel) {
    const [pair, side] = [channel >> 1, channel & 1 ? "right" : "left"];
    return Int32Array.from({ length: this.count }, (_, sample) => {
      const value = inBody(this.bodyOf(pair, sample), side);
      return value >= FULL ? value - 2 * FULL : value;
    });
  }

  /** @param {number} pair @param {number} sample @returns {Uint8Array} */
  bodyOf(pair, sample) {
    return this.bodies[pair].subarray(BODY * sample, BODY * (sample + 1));
  }

  /** @param {number} pair @param {number[]} gaps @returns {{sides: number[][], times: number}[]} the channel status of both channels in
   *  each whole block, and how often it came, in the order in which they came first */
  status(pair, gaps) {
    const ends = [...this.starts[pair], ...gaps, this.count].sort((one, other) => one - other);
    /** @type {Map<string, {sides: number[][], times: number}>} */
    const found = new Map();
    for (const start of this.starts[pair]) {
      const end = ends.find((one) => one > start) ?? start;
      if (end - start < BLOCK) continue;
      const bodies = Array.from({ length: BLOCK }, (_, at) => this.bodyOf(pair, start + at));
      const sides = ["left C", "right C"].map((name) => bodies.map((body) => inBody(body, name)));
      const known = found.get(sides.join()) ?? { sides, times: 0 };
      known.times += 1;
      found.set(sides.join(), known);
    }
    return [...found.values()];
  }
}
