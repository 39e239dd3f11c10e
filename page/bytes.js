// Bytes and numbers in words.

/** @param {Iterable<number>} bytes @returns {string} their hexadecimal digits */
export function hex(bytes) {
  let text = "";
  for (const byte of bytes) text += DIGITS[byte];
  return text;
}

/** @param {number} rgb a colour of 24 bits @returns {string} its six digits; "" of a negative number */
export function hexOf(rgb) {
  return rgb < 0 ? "" : DIGITS[rgb >> 16] + DIGITS[rgb >> 8 & 255] + DIGITS[rgb & 255];
}

const DIGITS = Array.from({ length: 256 }, (_, byte) => byte.toString(16).padStart(2, "0"));

/** @param {Iterable<number>} bytes @returns {number} what they sum to */
export function sum(bytes) {
  let total = 0;
  for (const byte of bytes) total += byte;
  return total;
}

/** @param {number} value up to 32 bits @returns {number} how many of its bits are ones */
export function ones(value) {
  let count = 0;
  for (let left = value; left; left &= left - 1) count += 1;
  return count;
}

/** @param {number} value @returns {string} a whole number with a comma between thousands */
export function thousands(value) {
  return COMMAS.format(value);
}

const COMMAS = new Intl.NumberFormat("en-US"); // much faster than toLocaleString

/** @param {number} bytes @returns {string} how many millions they are */
export function megabytes(bytes) {
  return (bytes / 1e6).toLocaleString("en-US", { minimumFractionDigits: 1, maximumFractionDigits: 1 });
}

/** @param {number} value @param {string} name @returns {string} a number with what it counts */
export function counted(value, name) {
  return `${thousands(value)} ${name}${value === 1 ? "" : "s"}`;
}
