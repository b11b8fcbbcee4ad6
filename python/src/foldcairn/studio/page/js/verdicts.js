// Verdicts on requirements by what was counted in each draw, by the rules and intervals of foldcairn.requirements. Tested, not proved.
import { betaQuantile, studentQuantile } from "./special.js";

export const MET = "met";
export const NOT_MET = "not met";
export const NOT_DECIDED = "not decided";
const FIRST_LOOK = 8, LAST_LEAST = 0.5, DRAWS_LEAST = 30, NEEDS_MOST = 10_000_000, LITTLE = 1e-12;

/** @typedef {[number, number]} Ends */
/** @typedef {{ wanted: number, isShare: boolean, atLeast: boolean, part: number | null, confidence: number, most: number, ownNetworks: boolean }} Rule */
/** @typedef {{ name: string, values: (number | null)[], packets: number[] }} Unit */
/** @typedef {{ draws: number, mean: number, variance: number, packets: number }} Spread */
/** @typedef {{ verdict: string, value: number, low: number, high: number, worst: string, draws: number, packets: number, needs: number | null }} Judgement */

/** After how many draws is looked.
 * @param {number} most */
export function looksAt(most) {
  const found = [];
  for (let draws = FIRST_LOOK; draws <= most * (1 - LAST_LEAST); draws *= 2) found.push(draws);
  return [...found, most];
}

/** Which part of the error the look after so many draws may make.
 * @param {number} draws @param {number} most */
export function spentAt(draws, most) {
  const before = Math.max(0, ...looksAt(most).filter((look) => look < draws));
  return (draws - before) / most;
}

/** @param {number[]} values */
function sumOf(values) {
  // Neumaier's sum, whose error does not grow with the number of values.
  let sum = 0, rest = 0;
  for (const one of values) {
    const next = sum + one;
    rest += Math.abs(sum) >= Math.abs(one) ? sum - next + one : one - next + sum;
    sum = next;
  }
  return sum + rest;
}

/** @param {number[]} values @param {number} [packets] @returns {Spread} */
export function spreadOf(values, packets = 0) {
  const mean = sumOf(values) / values.length;
  const variance = values.length > 1 ? sumOf(values.map((one) => (one - mean) ** 2)) / (values.length - 1) : 0;
  return { draws: values.length, mean, variance, packets };
}

/** The interval of Clopper and Pearson.
 * @param {number} share @param {number} count @param {number} error of each end @returns {Ends} */
function ofCounts(share, count, error) {
  const hits = share * count;
  return [hits > 0 ? betaQuantile(hits, count - hits + 1, error) : 0, count > hits ? 1 - betaQuantile(count - hits, hits + 1, error) : 1];
}

/** How many independent packets these are worth.
 * @param {Spread} spread @param {number} error */
function worth({ mean, variance, draws, packets: all }, error) {
  const between = variance / draws;
  const packets = between * all > mean * (1 - mean) ? (mean * (1 - mean)) / between : all;
  if (all <= draws) return packets;
  return packets * (studentQuantile(all - 1, 1 - error) / studentQuantile(draws - 1, 1 - error)) ** 2;
}

/** The interval of a mean share.
 * @param {Spread} spread @param {number} error @param {boolean} ownNetworks @returns {Ends} */
export function ofShare(spread, error, ownNetworks) {
  if (spread.draws < 2) return [0, 1];
  if (!ownNetworks) return ofCounts(spread.mean, worth(spread, error), error);
  const [low, high] = ofCounts(spread.mean, worth(spread, error / 2), error / 2);
  const seen = (error / 2) ** (1 / spread.draws);
  return [low * seen, 1 - (1 - high) * seen];
}

/** The interval of a mean, which may be below 0.
 * @param {Spread} spread @param {number} error @returns {Ends} */
export function ofDifference(spread, error) {
  if (spread.draws < 2) return [-Infinity, Infinity];
  const half = studentQuantile(spread.draws - 1, 1 - error) * Math.sqrt(spread.variance / spread.draws);
  return [spread.mean - half, spread.mean + half];
}

/** The interval of a mean of times, which are not below 0.
 * @param {Spread} spread @param {number} error @returns {Ends} */
export function ofMean(spread, error) {
  const [low, high] = ofDifference(spread, error);
  return [Math.max(0, low), high];
}

/** Whether a value is as it is wanted.
 * @param {Rule} rule @param {number} value */
function holds(rule, value) {
  return rule.atLeast ? value >= rule.wanted - LITTLE : value <= rule.wanted + LITTLE;
}

/** @param {Unit} unit @returns {number[]} */
function known(unit) {
  return /** @type {number[]} */ (unit.values.filter((one) => one !== null));
}

/**
 * @typedef {{ value: number, worst: string, ends: (draws: number, error: number) => Ends,
 *   verdict: (draws: number, low: number, high: number) => string }} Seen
 */

/** The part of the draws in which all units hold.
 * @param {Rule} rule @param {Unit[]} units @param {number} draws @returns {Seen} */
function seenPart(rule, units, draws) {
  const part = rule.part ?? 0;
  let hold = 0;
  for (let draw = 0; draw < draws; draw++) {
    hold += units.every(({ values }) => values[draw] === null || holds(rule, /** @type {number} */ (values[draw]))) ? 1 : 0;
  }
  const order = units.map((unit) => {
    const values = known(unit);
    const mean = values.length ? spreadOf(values).mean * (rule.atLeast ? 1 : -1) : NaN;
    return { name: unit.name, fails: values.filter((one) => !holds(rule, one)).length, mean };
  });
  order.sort((one, other) => other.fails - one.fails || Number(Number.isNaN(one.mean)) - Number(Number.isNaN(other.mean)) || (one.mean - other.mean || 0));
  return {
    value: hold / draws,
    worst: order[0].name,
    ends: (count, error) => ofCounts(hold / draws, count, error),
    verdict: (_, low, high) => (low >= part ? MET : high < part ? NOT_MET : NOT_DECIDED),
  };
}

/** The means over the draws of all units.
 * @param {Rule} rule @param {Unit[]} units @param {number} draws @returns {Seen} */
function seenMeans(rule, units, draws) {
  const spreads = units.filter((unit) => known(unit).length).map((unit) => ({ name: unit.name, spread: spreadOf(known(unit), sumOf(unit.packets)) }));
  const unknown = units.filter((unit) => !known(unit).length);
  const sign = rule.atLeast ? 1 : -1;
  const worst = spreads.reduce(
    (/** @type {typeof spreads[0] | null} */ least, one) => (!least || sign * one.spread.mean < sign * least.spread.mean ? one : least), null,
  );
  const of = (/** @type {Spread} */ spread, /** @type {number} */ count, /** @type {number} */ error) => {
    const scaled = { ...spread, draws: (spread.draws * count) / draws, packets: (spread.packets * count) / draws };
    return rule.isShare ? ofShare(scaled, error, rule.ownNetworks) : ofMean(scaled, error);
  };
  return {
    value: unknown.length || !worst ? NaN : worst.spread.mean,
    worst: unknown.length ? unknown[0].name : worst?.name ?? "",
    ends(count, error) {
      if (unknown.length) return [0, rule.isShare ? 1 : Infinity];
      const [met, failed] = rule.atLeast ? [0, 1] : [1, 0], least = rule.atLeast ? Math.min : Math.max;
      const inner = least(...spreads.map(({ spread }) => of(spread, count, error)[met]));
      const outer = least(...spreads.map(({ spread }) => of(spread, count, error / spreads.length)[failed]));
      return rule.atLeast ? [inner, outer] : [outer, inner];
    },
    verdict(count, low, high) {
      const [good, bad] = rule.atLeast ? [low >= rule.wanted, high < rule.wanted] : [high <= rule.wanted, low > rule.wanted];
      return good && count >= DRAWS_LEAST ? MET : bad ? NOT_MET : NOT_DECIDED;
    },
  };
}

/**
 * The verdict of units with the same number of draws, from 1 on.
 * @param {Rule} rule
 * @param {Unit[]} units
 * @param {boolean} [isLast] whether it is worked out how many draws a decision takes, which takes long
 * @returns {Judgement}
 */
export function judged(rule, units, isLast = true) {
  const draws = units[0].values.length;
  const seen = rule.part !== null ? seenPart(rule, units, draws) : seenMeans(rule, units, draws);
  const [low, high] = seen.ends(draws, ((1 - rule.confidence) / 2) * spentAt(draws, Math.max(draws, rule.most)));
  const verdict = seen.verdict(draws, low, high);
  const needs = verdict !== NOT_DECIDED ? draws : isLast ? needed(rule, seen, draws) : null;
  return { verdict, value: seen.value, low, high, worst: seen.worst, draws, packets: sumOf(units.flatMap((unit) => unit.packets)), needs };
}

/** How many draws a decision takes if they go on as they were, or null.
 * @param {Rule} rule @param {Seen} seen @param {number} draws */
function needed(rule, seen, draws) {
  const error = ((1 - rule.confidence) / 2) * LAST_LEAST;
  const isDecided = (/** @type {number} */ count) => seen.verdict(count, ...seen.ends(count, error)) !== NOT_DECIDED;
  let low = draws, high = 2 * draws;
  while (!isDecided(high)) {
    [low, high] = [high, 2 * high];
    if (low > NEEDS_MOST) return null;
  }
  while (high - low > 1) {
    const middle = Math.floor((low + high) / 2);
    if (isDecided(middle)) high = middle;
    else low = middle;
  }
  return high;
}

/** The rule of a requirement, of which so many draws may be made.
 * @param {Record<string, any>} requirement @param {number} most @param {boolean} ownNetworks @returns {Rule} */
export function ruleOf(requirement, most, ownNetworks) {
  const share = requirement.share ?? requirement.ratio, atMost = requirement.joined ?? requirement.outage;
  return {
    wanted: share ?? atMost ?? requirement.years ?? 0, isShare: share !== null, atLeast: atMost === null, part: requirement.in,
    confidence: requirement.confidence, most, ownNetworks,
  };
}
