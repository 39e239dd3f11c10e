// Recovers a capture by the module: node --experimental-wasm-memory64 recover.mjs MODULE KIND < CAPTURE > LISTING
// KIND is 0 for a link, 1 for a stream without guard columns. The exit status is the module's; what it told is counted on standard error.
import { readFileSync, writeSync } from 'node:fs';

const [, , file, kind] = process.argv;
const capture = readFileSync(0);
let memory;
let place = 0;
const pieces = [];
const counts = new Map();
let told = 0;
const host = {
  read(at, length) {
    const piece = capture.subarray(place, place + Number(length));
    new Uint8Array(memory.buffer, Number(at), piece.length).set(piece);
    place += piece.length;
    return BigInt(piece.length);
  },
  write(at, length) {
    pieces.push(Buffer.from(new Uint8Array(memory.buffer, Number(at), Number(length))));
  },
  tell(records, count, bytes, size) {
    const view = new DataView(memory.buffer, Number(records), 48 * Number(count));
    for (let i = 0; i < Number(count); i += 1) {
      const named = view.getUint32(48 * i + 36, true);
      counts.set(named, (counts.get(named) ?? 0) + 1);
    }
    told += Number(size);
  },
};
const { instance } = await WebAssembly.instantiate(readFileSync(file), { host });
memory = instance.exports.memory;
const began = performance.now();
const status = instance.exports.page_recover(Number(kind));
const took = performance.now() - began;
const text = Buffer.concat(pieces);
for (let at = 0; at < text.length; ) at += writeSync(1, text, at);
const kinds = [...counts].sort((a, b) => a[0] - b[0]).map(([k, n]) => `${k}:${n}`).join(' ');
console.error(`status ${status}, ${took.toFixed(1)} ms, ${told} bytes, events by kind ${kinds}, memory ${memory.buffer.byteLength}`);
process.exitCode = status;
