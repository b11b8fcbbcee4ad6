// The ratios of a plan's links: their means, and what each seed draws, as foldcairn.propagation has them. Tested, not proved.
import { packetBits, expectedRatio, ratioOfSnr, snrOfRatio, tabledRatio } from "./curve.js";
import { MEASURED, hashOf, pairDrawsOf, uniform } from "./draws.js";
import { HIGH, LOW, decades, fitExponent, fitNoise } from "./fit.js";
import { PlanError, didYouMean } from "./plan_words.js";
import { countedQuantile } from "./posterior.js";
import { pairKey, readSurvey, rowsOf } from "./survey.js";

/** @typedef {import("./types.js").Plan} Plan */
/** @typedef {import("./types.js").Row} Row */
/** @typedef {{ from: string, to: string, snr: number, shared: number, own: number }} Modelled */
/** @typedef {{ from: string, to: string, pieces: [number, number][] }} Ratios from which seconds on which ratio */
/** @typedef {{ modelled: Modelled[], measured: import("./survey.js").Measured[], bits: number, least: number, noise: number, exponent: number | null,
 *   deviation: number | null, unheard: number }} Links */

export const PRESETS = /** @type {Record<string, number[]>} exponent, deviation, first floor, further floors */ ({
  office: [3, 12, 15, 4], residential: [2.8, 8, 4, 4], commercial: [2.2, 10, 6, 3], "factory-in-sight": [1.8, 4.5, 15, 4],
  "factory-light-clutter": [2.4, 4.7, 15, 4], "factory-heavy-clutter": [2.8, 8.1, 15, 4], "open-ground": [2.4, 4, 15, 4],
});
const WALL_DB = 6.9, TOUCH = 1e-9;

/** @param {number[]} along @param {number[]} to */
function side(along, to) {
  const product = along[0] * to[1] - along[1] * to[0];
  return Math.abs(product) < TOUCH ? 0 : product;
}

/** What walls take of a line of sight, in dB.
 * @param {number[]} one x, y, floor @param {number[]} other @param {number[][]} walls @param {number} [wallDb] */
export function wallsDb(one, other, walls, wallDb = WALL_DB) {
  let loss = 0;
  for (const [x0, y0, x1, y1, db, floor] of walls) {
    const along = [x1 - x0, y1 - y0], sight = [other[0] - one[0], other[1] - one[1]];
    const first = side(along, [one[0] - x0, one[1] - y0]), last = side(along, [other[0] - x0, other[1] - y0]);
    const near = side(sight, [x0 - one[0], y0 - one[1]]), far = side(sight, [x1 - one[0], y1 - one[1]]);
    if ((first === last && near === far) || first * last > 0 || near * far > 0) continue;
    const part = first === last ? 0 : first / (first - last);
    if (floor === undefined || floor === Math.floor(one[2] + part * (other[2] - one[2]) + 0.5)) loss += db ?? wallDb;
  }
  return loss;
}

/** @param {number[]} one x, y, floor @param {number[]} other @param {number} height */
export function metresApart(one, other, height) {
  return Math.sqrt((one[0] - other[0]) ** 2 + (one[1] - other[1]) ** 2 + ((one[2] - other[2]) * height) ** 2);
}

/** @param {number} floors @param {number} first @param {number} further */
export function floorsDb(floors, first, further) {
  return floors > 0 ? first + further * (floors - 1) : 0;
}

/** @param {Row} losses */
function presetOf(losses) {
  if (!losses.preset) return null;
  if (!Object.hasOwn(PRESETS, losses.preset)) {
    throw new PlanError(
      "[losses]",
      `\`preset\` is ${losses.preset}, and not one of ${Object.keys(PRESETS).join(", ")}${didYouMean(losses.preset, Object.keys(PRESETS))}`,
    );
  }
  return PRESETS[losses.preset];
}

/** What takes the place of the path between nodes. */
class Site {
  /** @param {Plan} plan @param {Map<string, number[]>} places */
  constructor(plan, places) {
    const { losses } = plan;
    const preset = presetOf(losses);
    this.losses = losses;
    this.places = places;
    this.height = plan.floor.height;
    this.floors = losses.floor_db !== null ? [losses.floor_db, losses.floor_db] : preset ? [preset[2], preset[3]] : null;
  }

  /** @param {string} from @param {string} to @returns {[number, number]} the distance, and what walls and floors take */
  between(from, to) {
    const [one, other] = [this.place(from), this.place(to)];
    const floors = Math.abs(one[2] - other[2]);
    if (floors && !this.floors) {
      throw new PlanError(
        "[losses]", `nodes are on several floors: \`floor_db\` is not given, nor a \`preset\` (${Object.keys(PRESETS).join(", ")})`,
      );
    }
    const through = wallsDb(one, other, this.losses.walls, this.losses.wall_db ?? WALL_DB);
    return [metresApart(one, other, this.height), through + (floors && this.floors ? floorsDb(floors, this.floors[0], this.floors[1]) : 0)];
  }

  /** @param {string} name @returns {number[]} */
  place(name) {
    const found = this.places.get(name);
    if (!found || !Number.isFinite(found[0])) {
      throw new PlanError("[[node]]", `${name} has no place, \`x\` and \`y\`, and ratios of its links come from places`);
    }
    return found;
  }

  /** @param {string} name */
  hasPlace(name) {
    return Number.isFinite(this.places.get(name)?.[0] ?? NaN);
  }

  /** The mean received power in dBm.
   * @param {string} from @param {string} to @param {number} exponent */
  received(from, to, exponent) {
    const [metres, through] = this.between(from, to);
    return this.losses.transmit_dbm - this.losses.reference_db - exponent * decades(metres) - through;
  }

  /** What the path loses beyond the reference, walls and floors, by bounds of the received power in dBm.
   * @param {string} from @param {string} to @param {number} weakest @param {number} strongest */
  lost(from, to, weakest, strongest) {
    const [metres, through] = this.between(from, to), above = this.losses.transmit_dbm - this.losses.reference_db - through;
    return { along: decades(metres), least: above - strongest, most: above - weakest, metres };
  }
}

/**
 * What the ratios between the nodes of a plan are drawn from. Throws `PlanError` where the plan does not say them.
 * @param {Plan} plan
 * @param {string[]} names the nodes, in the order of their ids
 * @param {number} bytes the length of the packets that count
 * @param {Set<string> | null} [only] nodes, of whose pairs alone the path is looked at
 * @returns {Links}
 */
export function linksOf(plan, names, bytes, only = null) {
  const { losses } = plan;
  const bits = packetBits(losses.bytes ?? bytes);
  const survey = surveyOf(plan, names, bits);
  const places = new Map(plan.node.map((node) => [node.name, [node.x ?? NaN, node.y ?? NaN, node.floor]]));
  const site = new Site(plan, places);
  const { wanted, unheard } = pairsWanted(losses, names, survey, only);
  const powers = new Map();
  for (const [key, { samples }] of survey.links) if (samples.length === 1 && samples[0].rssi !== null) powers.set(key, samples[0].rssi);
  const fitted = wanted.length && losses.from === "both" && losses.fit ? fittedOf(site, survey, unheard, survey.noise, bits) : null;
  const preset = presetOf(losses);
  const exponent = losses.exponent ?? fitted?.exponent ?? preset?.[0] ?? null;
  const deviation = losses.deviation_db ?? fitted?.deviation ?? preset?.[1] ?? null;
  if (wanted.length && (exponent === null || deviation === null)) {
    throw new PlanError(
      "[losses]",
      `ratios by positions need \`${exponent === null ? "exponent" : "deviation_db"}\`, or a \`preset\` (${Object.keys(PRESETS).join(", ")})`,
    );
  }
  const modelled = wanted.map(([from, to]) => modelledOf(site, from, to, exponent ?? 0, deviation ?? 0, powers.get(pairKey(to, from)), survey.noise));
  return { modelled, measured: [...survey.links.values()], bits, least: losses.least, noise: survey.noise, exponent, deviation, unheard: unheard.length };
}

/** @param {Site} site @param {string} from @param {string} to @param {number} exponent @param {number} deviation
 * @param {number | undefined} rssi of the other direction @param {number} noise */
function modelledOf(site, from, to, exponent, deviation, rssi, noise) {
  const { correlation } = site.losses;
  const mean = site.received(from, to, exponent);
  if (rssi === undefined) return { from, to, snr: mean - noise, shared: deviation * Math.sqrt(correlation), own: deviation * Math.sqrt(1 - correlation) };
  // Of what the other direction's power says of the shadowing, this direction has the part that both share.
  return { from, to, snr: mean + correlation * (rssi - mean) - noise, shared: 0, own: deviation * Math.sqrt(1 - correlation ** 2) };
}

/** @param {Plan} plan @param {string[]} names @param {number} bits */
function surveyOf(plan, names, bits) {
  const { losses } = plan;
  const noise = losses.noise_dbm;
  if (losses.from === "positions") return { links: new Map(), unknown: new Map(), noise };
  const rows = rowsOf(plan.link, new Set(names));
  if (losses.from === "none") {
    const all = rows.map((row) => ({ ...row, ratio: 1, sent: null, received: null, rssi: null, at: null }));
    return { ...readSurvey(all, noise, bits), noise };
  }
  let found = readSurvey(rows, noise, bits);
  const both = [...found.links.values()].flatMap((link) => link.samples).filter((one) => one.rssi !== null && one.isCounted);
  const fitted = losses.fit ? fitNoise(both.map((one) => ({ rssi: one.rssi ?? 0, ratio: one.ratio })), bits) : null;
  if (fitted !== null) found = readSurvey(rows, fitted, bits);
  const [first] = found.unknown.values();
  if (first && losses.unknown === "error") {
    throw new PlanError(
      "[[link]]",
      `from ${first[0]} to ${first[1]} nothing is given that was measured; write a ratio, \`sent\` and \`received\`, or an RSSI, or set [losses] \`unknown\``,
    );
  }
  return { ...found, noise: fitted ?? noise };
}

/** The pairs that come from the path loss, and those over which nothing came.
 * @param {Row} losses @param {string[]} names @param {import("./survey.js").Survey} survey @param {Set<string> | null} only
 * @returns {{ wanted: [string, string][], unheard: [string, string][] }} */
function pairsWanted(losses, names, survey, only) {
  /** @type {[string, string][]} */
  const wanted = losses.unknown === "positions" ? [...survey.unknown.values()] : [];
  /** @type {[string, string][]} */
  const unheard = [];
  if (losses.from !== "positions" && losses.from !== "both") return { wanted, unheard };
  const senders = new Set([...survey.links.values()].map((link) => link.from)), receivers = new Set([...survey.links.values()].map((link) => link.to));
  wanted.length = 0;
  for (const from of names) {
    for (const to of names) {
      if (from === to || (only && !only.has(from) && !only.has(to))) continue;
      const key = survey.links.size || survey.unknown.size ? pairKey(from, to) : "";
      if (survey.links.has(key)) continue;
      if (survey.unknown.has(key)) {
        if (losses.unknown === "positions") wanted.push([from, to]);
      } else if (losses.unheard === "none" && senders.has(from) && receivers.has(to)) unheard.push([from, to]);
      else wanted.push([from, to]);
    }
  }
  return { wanted, unheard };
}

/** What fits a survey: received powers that are known, by their RSSI or by a ratio from 5 to 95 %; of other ratios, and of pairs over which
 * nothing came, a bound is known.
 * @param {Site} site @param {import("./survey.js").Survey} survey @param {[string, string][]} unheard @param {number} noise in dBm @param {number} bits */
function fittedOf(site, survey, unheard, noise, bits) {
  const single = [...survey.links.values()].filter(({ samples }) => samples.length === 1);
  const weak = noise + snrOfRatio(LOW, bits), strong = noise + snrOfRatio(HIGH, bits);
  const powers = /** @type {[string, string, number, number][]} */ (single.map(({ from, to, samples: [{ rssi, ratio }] }) => {
    const power = rssi ?? (ratio >= LOW && ratio <= HIGH ? noise + snrOfRatio(ratio, bits) : null);
    return power !== null ? [from, to, power, power] : ratio < LOW ? [from, to, -Infinity, weak] : [from, to, strong, Infinity];
  }));
  const least = single.reduce((low, { samples: [{ rssi }] }) => (rssi === null ? low : Math.min(low, rssi)), Infinity);
  powers.push(.../** @type {[string, string, number, number][]} */ (unheard.map(([from, to]) => [from, to, -Infinity, least === Infinity ? weak : least])));
  return fitExponent(
    powers.filter(([from, to]) => site.hasPlace(from) && site.hasPlace(to)).map(
      ([from, to, weakest, strongest]) => site.lost(from, to, weakest, strongest)
    ),
    site.losses.exponent,
  );
}

/** @param {import("./draws.js").Pair} pair @param {Modelled} link @param {number} bits */
function drawnRatio(pair, { snr, shared, own }, bits) {
  const drawn = snr + pair.both * shared + pair.own * own;
  if (drawn !== pair.snr || bits !== pair.bits) Object.assign(pair, { snr: drawn, bits, ratio: ratioOfSnr(drawn, bits) });
  return pair.ratio;
}

/**
 * The ratios of the links that have at least the least one: what a seed draws, or without one their means.
 * @param {Links} links
 * @param {number | null} seed
 * @param {boolean} [isRough] whether means may come from a table
 * @returns {Ratios[]}
 */
export function ratiosOf(links, seed, isRough = false) {
  /** @type {Ratios[]} */
  const found = [];
  const drawn = seed === null ? null : pairDrawsOf(seed);
  for (const one of links.modelled) {
    const { from, to, snr, shared, own } = one;
    const ratio = drawn ? drawnRatio(drawn.of(from, to), one, links.bits) : (isRough ? tabledRatio : expectedRatio)(snr, Math.hypot(shared, own), links.bits);
    if (ratio >= links.least) found.push({ from, to, pieces: [[0, ratio]] });
  }
  for (const { from, to, samples } of links.measured) {
    /** @type {[number, number][]} */
    const pieces = samples.map((one, place) => {
      const isDrawn = seed !== null && one.sent !== null && one.received !== null;
      return [
        place ? one.seconds : 0,
        isDrawn ? countedQuantile(one.received ?? 0, one.sent ?? 0, uniform(seed, MEASURED + place, hashOf(from), hashOf(to))) : one.ratio,
      ];
    });
    if (pieces.some(([, ratio]) => ratio >= links.least)) found.push({ from, to, pieces });
  }
  return found;
}
