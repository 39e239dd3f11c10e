// Tables of whole numbers, a list a column. They go from the worker to the page without a copy.

const FIRST = 1 << 10; // rows for which a table has room at first

/** @typedef {Record<string, Int32Array>} Columns */

/** A table of which the rows are taken out that came since the last time. */
export class Rows {
  /** @param {string[]} names of its columns */
  constructor(names) {
    this.names = names;
    this.size = 0; // with the rows that were taken out
    this.count = 0; // of those that are there
    this.columns = names.map(() => new Int32Array(FIRST));
  }

  /** @param {number[]} row a number a column */
  add(row) {
    if (this.count === this.columns[0].length) this.columns = this.columns.map(doubled);
    for (let at = 0; at < row.length; at++) this.columns[at][this.count] = row[at];
    this.count += 1;
    this.size += 1;
  }

  /** @returns {Columns} the rows since the last call */
  taken() {
    const found = Object.fromEntries(this.names.map((name, at) => [name, this.columns[at].slice(0, this.count)]));
    this.count = 0;
    return found;
  }
}

/** @param {Int32Array} column @returns {Int32Array} the same in twice the room */
function doubled(column) {
  const found = new Int32Array(2 * column.length);
  found.set(column);
  return found;
}

/** @param {Columns[]} tables @returns {ArrayBufferLike[]} their memory, which can be given to another thread */
export function memoryOf(...tables) {
  return tables.flatMap((columns) => Object.values(columns).map((column) => column.buffer));
}
