// What is wrong with a plan, in words; and the nearest known name. Tested, not proved.

/** A plan that is none: where, and what is wrong there. */
export class PlanError extends Error {
  /**
   * @param {string} where the file, the line, the table and the row
   * @param {string} what
   */
  constructor(where, what) {
    super(where ? `${where}: ${what}` : what);
    this.where = where;
    this.what = what;
  }
}

/**
 * How many letters have to be changed, put in, taken away, or swapped.
 * @param {string} one
 * @param {string} other
 */
function apart(one, other) {
  let [before, last] = [/** @type {number[]} */ ([]), Array.from({ length: other.length + 1 }, (_, place) => place)];
  for (let row = 1; row <= one.length; row++) {
    const line = [row];
    for (let column = 1; column <= other.length; column++) {
      const same = one[row - 1] === other[column - 1] ? 0 : 1;
      line[column] = Math.min(last[column] + 1, line[column - 1] + 1, last[column - 1] + same);
      if (row > 1 && column > 1 && one[row - 1] === other[column - 2] && one[row - 2] === other[column - 1]) {
        line[column] = Math.min(line[column], before[column - 2] + 1);
      }
    }
    [before, last] = [last, line];
  }
  return last[other.length];
}

/**
 * The known word that is nearest to one, as the end of a message, or an empty text.
 * @param {string} word
 * @param {Iterable<string>} known
 */
export function didYouMean(word, known) {
  const asked = word.slice(0, 60).toLowerCase();
  let [best, least] = ["", Infinity];
  for (const one of known) {
    const steps = apart(asked, one.slice(0, 60).toLowerCase());
    if (steps < least) [best, least] = [one, steps];
  }
  return best && least <= Math.max(1, Math.floor(Math.max(asked.length, best.length) / 3)) ? `; did you mean ${best}?` : "";
}

/**
 * A number with commas between thousands, with at most so many digits.
 * @param {number} value
 * @param {number} [digits]
 */
export function shownNumber(value, digits = 6) {
  if (!Number.isFinite(value)) return Number.isNaN(value) ? "no number" : value > 0 ? "infinite" : "minus infinite";
  return Number(value.toPrecision(digits)).toLocaleString("en", { maximumFractionDigits: 12 });
}

/**
 * What sorts names as people do: L-2 before L-10.
 * @param {string} one
 * @param {string} other
 */
export function byName(one, other) {
  const [left, right] = [one, other].map((name) => name.match(/\d+|\D+/g) ?? []);
  for (let place = 0; place < Math.min(left.length, right.length); place++) {
    const [a, b] = [left[place], right[place]];
    const digits = [/^\d/.test(a), /^\d/.test(b)];
    if (digits[0] !== digits[1]) return digits[0] ? -1 : 1;
    const [x, y] = digits[0] ? [BigInt(a), BigInt(b)] : [a.toLowerCase(), b.toLowerCase()];
    if (x !== y) return x < y ? -1 : 1;
  }
  return left.length - right.length || (one < other ? -1 : one > other ? 1 : 0);
}
