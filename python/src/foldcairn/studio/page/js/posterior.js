// Quantiles of Beta(received + 1/2, sent - received + 1/2) by the table of foldcairn.propagation.posterior: the logarithm of the odds at
// 97 places, with monotone cubic pieces between (Fritsch and Carlson, 1980). Tested, not proved.
import { betaLogOdds, normalBelow, normalQuantile } from "./special.js";

const ENDS = 8.25, COUNT = 97, STEP = (2 * ENDS) / (COUNT - 1);
/** @type {Map<string, Float64Array>} */
const tables = new Map();

/** @param {Float64Array} table @param {number} place @param {number} received @param {number} sent */
function odds(table, place, received, sent) {
  if (Number.isNaN(table[place])) {
    const z = -ENDS + place * STEP, [arrived, lost] = [received + 0.5, sent - received + 0.5];
    table[place] = z <= 0 ? betaLogOdds(arrived, lost, normalBelow(z)) : -betaLogOdds(lost, arrived, normalBelow(-z));
  }
  return table[place];
}

/** The slope at a place of the monotone pieces.
 * @param {(place: number) => number} at @param {number} place */
function slope(at, place) {
  if (place === 0) return edge((at(1) - at(0)) / STEP, (at(2) - at(1)) / STEP);
  if (place === COUNT - 1) return edge((at(COUNT - 1) - at(COUNT - 2)) / STEP, (at(COUNT - 2) - at(COUNT - 3)) / STEP);
  const [before, after] = [(at(place) - at(place - 1)) / STEP, (at(place + 1) - at(place)) / STEP];
  return before * after > 0 ? 2 / (1 / before + 1 / after) : 0;
}

/** @param {number} near @param {number} far */
function edge(near, far) {
  const found = (3 * near - far) / 2;
  if (Math.sign(found) !== Math.sign(near)) return 0;
  return Math.sign(near) !== Math.sign(far) && Math.abs(found) > 3 * Math.abs(near) ? 3 * near : found;
}

/** The ratio of which a share of the probability lies below.
 * @param {number} received @param {number} sent @param {number} share between 0 and 1 */
export function countedQuantile(received, sent, share) {
  const key = `${received} ${sent}`;
  let table = tables.get(key);
  if (!table) {
    table = new Float64Array(COUNT).fill(NaN);
    tables.set(key, table);
  }
  const known = table, at = (/** @type {number} */ place) => odds(known, place, received, sent);
  const z = normalQuantile(share);
  const left = Math.min(COUNT - 2, Math.max(0, Math.floor((z + ENDS) / STEP)));
  const beyond = z - (-ENDS + left * STEP);
  const rise = (at(left + 1) - at(left)) / STEP, [first, last] = [slope(at, left), slope(at, left + 1)];
  const cubic = (first + last - 2 * rise) / (STEP * STEP), square = (3 * rise - 2 * first - last) / STEP;
  return 1 / (1 + Math.exp(-(((cubic * beyond + square) * beyond + first) * beyond + at(left))));
}
