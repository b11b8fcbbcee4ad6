// What a seed draws for a pair of nodes, or for one thing of a plan: a hash of the seed, of what is drawn and of names, as
// foldcairn.propagation.draws has it. Tested, not proved.
import { normalQuantile } from "./special.js";

// What is drawn of ratios: shadowing of both directions, of one direction, and of a measured ratio (of a series the numbers from here on).
export const BOTH = 0;
export const ONE_WAY = 1;
export const MEASURED = 2;
// What the page draws itself where Python takes numpy's generators: other numbers of the same distributions.
export const PACKETS = 1_000_000;
export const PHASES = 2_000_000;
export const EVENTS = 3_000_000;
export const IDS = 4_000_000;
const WORD = 64;

/** FNV-1a with 64 bits of a text in UTF-8.
 * @param {string} name @returns {bigint} */
export function nameHash(name) {
  let number = 0xcbf29ce484222325n;
  for (const byte of new TextEncoder().encode(name)) number = BigInt.asUintN(WORD, (number ^ BigInt(byte)) * 0x100000001b3n);
  return number;
}

/** The first output of SplitMix64.
 * @param {bigint} state */
export function mix(state) {
  let word = BigInt.asUintN(WORD, state + 0x9e3779b97f4a7c15n);
  word = BigInt.asUintN(WORD, (word ^ (word >> 30n)) * 0xbf58476d1ce4e5b9n);
  word = BigInt.asUintN(WORD, (word ^ (word >> 27n)) * 0x94d049bb133111ebn);
  return word ^ (word >> 31n);
}

/** A number between 0 and 1, both excluded.
 * @param {number} seed @param {number} purpose @param {bigint} one @param {bigint} other */
export function uniform(seed, purpose, one, other) {
  const word = mix(mix(mix(mix(BigInt(seed)) ^ BigInt(purpose)) ^ one) ^ other);
  return (Number(word >> 12n) + 0.5) / 2 ** 52;
}

/** A standard normal number for a pair of names.
 * @param {number} seed @param {number} purpose @param {string} one @param {string} other */
export function normal(seed, purpose, one, other) {
  return normalQuantile(uniform(seed, purpose, hashOf(one), hashOf(other)));
}

/** The same in both directions of a pair.
 * @param {number} seed @param {string} one @param {string} other */
export function normalOfPair(seed, one, other) {
  return hashOf(one) < hashOf(other) ? normal(seed, BOTH, one, other) : normal(seed, BOTH, other, one);
}

/** @typedef {{ both: number, own: number, snr: number, bits: number, ratio: number }} Pair the normal numbers of a direction, and its last ratio */

/** What a seed draws for the pairs of a plan. It is kept for the next plan, where most nodes are at the same places. */
export class PairDraws {
  /** @param {number} seed */
  constructor(seed) {
    this.seed = seed;
    /** @type {Map<string, Map<string, Pair>>} */
    this.pairs = new Map();
  }

  /** @param {string} from @param {string} to @returns {Pair} */
  of(from, to) {
    let ours = this.pairs.get(from);
    if (!ours) this.pairs.set(from, (ours = new Map()));
    let found = ours.get(to);
    if (!found) {
      const both = this.pairs.get(to)?.get(from)?.both ?? normalOfPair(this.seed, from, to);
      ours.set(to, (found = { both, own: normal(this.seed, ONE_WAY, from, to), snr: NaN, bits: 0, ratio: 0 }));
    }
    return found;
  }
}

/** @type {Map<number, PairDraws>} those that were asked for last */
const kept = new Map();
const SEEDS_MOST = 12, PAIRS_MOST = 64;

/** What a seed draws for pairs.
 * @param {number} seed */
export function pairDrawsOf(seed) {
  let found = kept.get(seed);
  kept.delete(seed);
  // Names that are no more would stay for ever.
  if (!found || found.pairs.size > PAIRS_MOST) found = new PairDraws(seed);
  kept.set(seed, found);
  if (kept.size > SEEDS_MOST) kept.delete(/** @type {number} */ (kept.keys().next().value));
  return found;
}

/** @type {Map<string, bigint>} */
const hashes = new Map();

/** @param {string} name */
export function hashOf(name) {
  let found = hashes.get(name);
  if (found === undefined) {
    found = nameHash(name);
    hashes.set(name, found);
  }
  return found;
}
