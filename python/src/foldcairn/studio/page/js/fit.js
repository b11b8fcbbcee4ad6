// The exponent, the deviation and the noise that fit what was measured, as foldcairn.propagation.fit has it. Tested, not proved.
import { ratioOfSnr } from "./curve.js";
import { normalBelow } from "./special.js";

// From which to which ratio a link tells its signal to noise ratio.
export const LOW = 0.05;
export const HIGH = 0.95;
const LEAST_LINKS = 10, LEAST_PARTIAL = 5;

/** 10 log10 of a distance, at least 1 m.
 * @param {number} metres */
export function decades(metres) {
  return 10 * Math.log10(Math.max(metres, 1));
}

/** The logarithm of the normal distribution function.
 * @param {number} z */
function logNormalBelow(z) {
  return z > -37 ? Math.log(normalBelow(z)) : (-z * z) / 2 - Math.log(-z * Math.sqrt(2 * Math.PI)) + Math.log1p(-1 / (z * z));
}

/**
 * The decades in dB, and what is lost beyond the reference: from the least to the most.
 * @typedef {{ along: number, least: number, most: number, metres: number }} Loss
 */

/**
 * The exponent and the deviation in dB that fit losses; of some a bound is known only.
 * @param {Loss[]} losses
 * @param {number | null} fixed an exponent that is kept
 * @returns {{ exponent: number, deviation: number } | null} null where too little is known
 */
export function fitExponent(losses, fixed) {
  const known = losses.filter((one) => one.least === one.most);
  const squares = known.reduce((sum, one) => sum + one.along ** 2, 0);
  if (losses.length < LEAST_LINKS || known.length < LEAST_PARTIAL || !known.some((one) => one.metres > 1)) return null;
  const slope = fixed ?? known.reduce((sum, one) => sum + one.along * one.least, 0) / squares;
  const left = known.reduce((sum, one) => sum + (one.least - slope * one.along) ** 2, 0);
  const deviation = Math.sqrt(left / (known.length - (fixed === null ? 1 : 0)));
  if (known.length === losses.length || deviation === 0) return { exponent: slope, deviation };
  return likeliest(losses, slope, deviation, fixed !== null);
}

/** Those of the greatest likelihood.
 * @param {Loss[]} losses @param {number} slope @param {number} deviation @param {boolean} isFixed */
function likeliest(losses, slope, deviation, isFixed) {
  const unlikely = (/** @type {number} */ exponent, /** @type {number} */ logarithm) => {
    const spread = Math.exp(logarithm);
    let sum = 0;
    for (const { along, least, most } of losses) {
      if (least === most) sum += ((least - exponent * along) / spread) ** 2 / 2 + logarithm;
      else if (most === Infinity) sum -= logNormalBelow((exponent * along - least) / spread);
      else sum -= logNormalBelow((most - exponent * along) / spread);
    }
    return sum;
  };
  let best = [slope, Math.log(deviation)], likely = unlikely(best[0], best[1]);
  // By turns along both, with steps that halve: two numbers need nothing better.
  for (let step = 0.5; step > 1e-8; step /= 2) {
    for (let moved = true; moved;) {
      moved = false;
      for (const [x, y] of isFixed ? [[0, 1], [0, -1]] : [[1, 0], [-1, 0], [0, 1], [0, -1], [1, 1], [-1, -1], [1, -1], [-1, 1]]) {
        const next = [best[0] + x * step, best[1] + y * step], value = unlikely(next[0], next[1]);
        if (value < likely) [best, likely, moved] = [next, value, true];
      }
    }
  }
  return { exponent: best[0], deviation: Math.exp(best[1]) };
}

/**
 * The noise in dBm that fits ratios that were measured with their received power, or null where too few were.
 * @param {{ rssi: number, ratio: number }[]} measured
 * @param {number} bits
 */
export function fitNoise(measured, bits) {
  const partial = measured.filter((one) => one.ratio >= LOW && one.ratio <= HIGH).length;
  if (measured.length < LEAST_LINKS || partial < LEAST_PARTIAL) return null;
  const error = (/** @type {number} */ noise) => measured.reduce((sum, one) => sum + (ratioOfSnr(one.rssi - noise, bits) - one.ratio) ** 2, 0);
  let step = 4, candidates = Array.from({ length: 21 }, (_, place) => -120 + place * step);
  for (;;) {
    const errors = candidates.map(error);
    const best = candidates[errors.indexOf(Math.min(...errors))];
    if (step < 0.02) return best;
    const width = step;
    candidates = Array.from({ length: 17 }, (_, place) => best - width + (place * width) / 8);
    step /= 8;
  }
}
