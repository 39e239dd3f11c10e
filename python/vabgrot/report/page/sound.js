"use strict";

/* ---- the sound ---- */

/** @typedef {{view: DataView, channels: number, rate: number, size: number, first: number, samples: number}} Wav a file, how many channels
 *  it has, its rate, the bytes of a sample, where the samples begin, and how many each channel has */

/** The numbers of a WAV file's chunk `fmt `, and where its samples are.
 *  @param {Uint8Array} bytes @returns {Wav} */
function wavHead(bytes) {
  const view = new DataView(bytes.buffer, bytes.byteOffset, bytes.byteLength);
  const head = { view, channels: 1, rate: 1, size: 1, first: 0, samples: 0 };
  for (let at = 12; at + 8 <= bytes.length; ) {
    const [name, size] = [String.fromCharCode(...bytes.subarray(at, at + 4)), view.getUint32(at + 4, true)];
    if (name === "fmt ") Object.assign(head, { channels: view.getUint16(at + 10, true), rate: view.getUint32(at + 12, true), size: view.getUint16(at + 22, true) / 8 });
    if (name === "data") return Object.assign(head, { first: at + 8, samples: Math.floor(size / head.channels / head.size) });
    at += 8 + size + (size % 2);
  }
  return head;
}

/** @param {DataView} view @param {number} at @param {string} text of ASCII */
function putText(view, at, text) {
  [...text].forEach((one, place) => view.setUint8(at + place, one.charCodeAt(0)));
}

/** Puts what stands before the samples of a WAV file: of PCM, and of the extensible format all that it has of the same.
 *  @param {DataView} view @param {{head: number, count: number, channels: number, rate: number, size: number}} told the bytes before the
 *  samples, and those of the samples */
function putWavHead(view, { head, count, channels, rate, size }) {
  putText(view, 0, "RIFF");
  view.setUint32(4, head - 8 + count + count % 2, true);
  putText(view, 8, "WAVEfmt ");
  view.setUint32(16, 16, true);
  view.setUint16(20, 1, true);
  view.setUint16(22, channels, true);
  view.setUint32(24, rate, true);
  view.setUint32(28, rate * channels * size, true);
  view.setUint16(32, channels * size, true);
  view.setUint16(34, 8 * size, true);
  putText(view, head - 8, "data");
  view.setUint32(head - 4, count, true);
}

/** A WAV file of two channels, each the sum of the channels of another file times what `gains` has for them.
 *  @param {Wav} wav @param {number[][]} gains @returns {Uint8Array} */
function mixedWav(wav, gains) {
  const { view, channels, rate, size, first, samples } = wav;
  const bytes = new Uint8Array(44 + 2 * size * samples);
  const out = new DataView(bytes.buffer);
  putWavHead(out, { head: 44, count: 2 * size * samples, channels: 2, rate, size });
  const most = 2 ** (8 * size - 1);
  const terms = gains.map((side) => side.map((gain, channel) => ({ gain, channel })).filter(({ gain }) => gain));
  const read = (/** @type {number} */ at) => (size === 2 ? view.getInt16(at, true) : view.getUint16(at, true) + 65536 * view.getInt8(at + 2));
  for (let sample = 0; sample < samples; sample++) {
    const from = first + sample * channels * size;
    terms.forEach((side, place) => {
      const sum = side.reduce((value, { gain, channel }) => value + gain * read(from + channel * size), 0);
      const value = clamp(Math.round(sum), -most, most - 1);
      const to = 44 + (2 * sample + place) * size;
      out.setInt16(to, value & 0xffff, true);
      if (size === 3) out.setInt8(to + 2, value >> 16);
    });
  }
  return bytes;
}

/** What is played of the file: all of it where it has two channels, else what was chosen.
 *  @param {Uint8Array} file @param {number} choice @returns {Uint8Array} */
function played(file, choice) {
  const { choices, order } = data.sound ?? { choices: [], order: [] };
  if (!choices.length) return file;
  const gains = choices[choice].gains.map((side) => {
    const placed = side.map(() => 0);
    side.forEach((gain, channel) => { placed[order[channel]] = gain; });
    return placed;
  });
  return mixedWav(wavHead(file), gains);
}

/** What gives the WAV file of all channels.
 *  @type {() => Uint8Array} */
let soundOf = () => new Uint8Array(0);

function startSound() {
  const audio = by("audio");
  if (!audio || !data.sound) return;
  const file = soundOf();
  const urlOf = (/** @type {Uint8Array} */ bytes) => URL.createObjectURL(new Blob([bytes], { type: "audio/wav" }));
  const choose = (/** @type {number} */ choice) => {
    if (audio.src) URL.revokeObjectURL(audio.src);
    audio.src = urlOf(played(file, choice));
  };
  choose(0);
  if (by("sound-choice")) {
    by("sound-choice").onchange = () => {
      const [at, wasPlaying] = [audio.currentTime, !audio.paused];
      choose(Number(by("sound-choice").value));
      audio.currentTime = at;
      if (wasPlaying) audio.play();
    };
  }
  by("sound-save").onclick = () => save(file, "audio/wav", `${data.name}.wav`);
  const wave = by("wave");
  const { width, height } = wave.viewBox.baseVal;
  const show = () => {
    const x = audio.duration ? (audio.currentTime / audio.duration) * width : 0;
    by("playing").setAttribute("d", `M${x} 0V${height}`);
    if (!audio.paused) requestAnimationFrame(show);
  };
  for (const event of ["play", "seeked", "timeupdate"]) audio.addEventListener(event, show);
  wave.addEventListener("click", (event) => {
    const box = wave.getBoundingClientRect();
    audio.currentTime = ((event.clientX - box.left) / box.width) * (audio.duration || 0);
  });
}
