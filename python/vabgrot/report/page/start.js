"use strict";

/* ---- a report, which has its data and its pictures within it ---- */

/** @typedef {Omit<Data, "periods" | "lines"> & {periods: Packed, lines: {of: number[], texts: string[]}}} PackedData
 *  @typedef {{unlike: number[][], of: number[], at: [number, number][], line: [number, number][]}} Packed */

/** @param {string} id @returns {string} the text of an element */
function textIn(id) {
  return by(id).textContent ?? "";
}

/** @param {string} text @returns {Promise<PackedData>} */
async function unpacked(text) {
  const stream = new Blob([bytesOf(text)]).stream().pipeThrough(new DecompressionStream("deflate"));
  return JSON.parse(await new Response(stream).text());
}

/** Numbers that follow one another by these steps, but for those whose place and value are given.
 *  @param {number[]} steps @param {[number, number][]} given @returns {number[]} */
function following(steps, given) {
  /** @type {number[]} */
  const found = [];
  let next = 0;
  let used = 0;
  steps.forEach((step, place) => {
    if (used < given.length && given[used][0] === place) next = given[used++][1];
    found.push(next);
    next += step;
  });
  return found;
}

/** The columns of the table of periods, of which each unlike one stands there once.
 *  @param {Packed} packed @returns {Periods} */
function periodsOf({ unlike, of, at, line }) {
  const [kind, columns, value] = [0, 1, 2].map((field) => of.map((number) => unlike[number][field]));
  return { kind, at: following(columns, at), columns, line: following(of.map(() => 1), line), value };
}

async function start() {
  const { periods, lines, ...rest } = await unpacked(textIn("data"));
  data = { ...rest, periods: periodsOf(periods), lines: lines.of.map((number) => lines.texts[number]) };
  pictureOf = (number) => {
    const name = `picture-${number}`;
    return new Blob([bytesOf(textIn(name))], { type: by(name).dataset.kind });
  };
  soundOf = () => bytesOf(textIn("sound-file"));
  if (data.columns) await startReport();
  document.documentElement.dataset.ready = "yes";
  performance.mark("ready");
}

start();
