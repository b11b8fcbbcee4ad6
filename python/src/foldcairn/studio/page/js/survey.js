// What was measured of links: ratios, counts, received power, and series of them, as foldcairn.propagation.survey has it.
// Tested, not proved.
import { ratioOfSnr } from "./curve.js";
import { PlanError } from "./plan_words.js";

/** @typedef {import("./types.js").Row} Row */
/** @typedef {{ seconds: number, ratio: number, received: number | null, sent: number | null, rssi: number | null, isCounted: boolean }} Sample */
/** @typedef {{ from: string, to: string, samples: Sample[] }} Measured */
/** @typedef {{ links: Map<string, Measured>, unknown: Map<string, [string, string]> }} Survey */

/** A pair of names as one text.
 * @param {string} from @param {string} to */
export function pairKey(from, to) {
  return `${from}\n${to}`;
}

/** The mean ratio of counts, by Jeffreys.
 * @param {number} received @param {number} sent */
export function countedRatio(received, sent) {
  return (received + 0.5) / (sent + 1);
}

/** What a row measured, or null.
 * @param {Row} row @param {number} seconds @param {number} noise in dBm @param {number} bits @returns {Sample | null} */
function sampleOf(row, seconds, noise, bits) {
  const { ratio, sent, rssi } = row;
  const rest = { seconds, received: null, sent: null, rssi, isCounted: true };
  if (sent !== null && (row.received !== null || ratio !== null)) {
    const received = row.received ?? Math.round(ratio * sent);
    return { ...rest, ratio: countedRatio(received, sent), received, sent };
  }
  if (ratio !== null) return { ...rest, ratio };
  return rssi === null ? null : { ...rest, ratio: ratioOfSnr(rssi - noise, bits), isCounted: false };
}

/** The time of each row in seconds of the run, or null.
 * @param {Row[]} rows @returns {(number | null)[]} */
function times(rows) {
  const stamps = rows.map((row) => (typeof row.at === "string" ? Date.parse(zoned(row.at)) : null));
  const known = /** @type {number[]} */ (stamps.filter((one) => one !== null));
  if (!known.length) return rows.map((row) => row.at);
  if (rows.some((row) => typeof row.at === "number")) {
    throw new PlanError("[[link]]", "`at` of some rows is a number and of others a time stamp; write all times alike");
  }
  const start = known.reduce((least, one) => Math.min(least, one), Infinity);
  return stamps.map((one) => (one === null ? null : (one - start) / 1000));
}

/** A time stamp with a zone, so that no browser takes its own.
 * @param {string} stamp */
function zoned(stamp) {
  const text = stamp.trim().replace(" ", "T");
  return /(Z|[+-]\d\d:?\d\d)$/i.test(text) ? text : text.includes("T") ? `${text}Z` : text;
}

/**
 * What rows measured. Throws `PlanError` where two rows of a link disagree, or times are of two kinds.
 * @param {Row[]} rows
 * @param {number} noise in dBm
 * @param {number} bits
 * @returns {Survey}
 */
export function readSurvey(rows, noise, bits) {
  /** @type {Map<string, { from: string, to: string, at: Map<number | null, Sample> }>} */
  const found = new Map();
  /** @type {Map<string, [string, string]>} */
  const unknown = new Map();
  const when = times(rows);
  rows.forEach((row, place) => {
    const one = sampleOf(row, when[place] ?? 0, noise, bits);
    for (const [from, to] of row.both ? [[row.from, row.to], [row.to, row.from]] : [[row.from, row.to]]) {
      const key = pairKey(from, to);
      if (!one) {
        if (!unknown.has(key)) unknown.set(key, [from, to]);
        continue;
      }
      const link = found.get(key) ?? { from, to, at: new Map() };
      found.set(key, link);
      link.at.set(when[place], merged(link.at.get(when[place]), one, row));
    }
  });
  const links = new Map();
  for (const [key, { from, to, at }] of found) {
    const samples = [...at].sort(([one], [other]) => (one ?? 0) - (other ?? 0)).map(([, sample]) => sample);
    links.set(key, { from, to, samples });
  }
  return { links, unknown: new Map([...unknown].filter(([key]) => !links.has(key))) };
}

/** @param {Sample | undefined} earlier @param {Sample} one @param {Row} row @returns {Sample} */
function merged(earlier, one, row) {
  if (!earlier || (one.sent === null && earlier.sent === null && earlier.ratio === one.ratio && earlier.rssi === one.rssi)) return one;
  if (one.sent === null || one.received === null || earlier.sent === null || earlier.received === null) {
    throw new PlanError(
      `[[link]] from ${row.from} to ${row.to}`,
      `it has two ratios at one time, ${earlier.ratio.toPrecision(4)} and ${one.ratio.toPrecision(4)}; write one row, counts, or a time for each`,
    );
  }
  const [received, sent] = [earlier.received + one.received, earlier.sent + one.sent];
  return { ...one, ratio: countedRatio(received, sent), received, sent, rssi: earlier.rssi ?? one.rssi };
}

/** The rows between these nodes; a link with a series is known by that alone.
 * @param {Row[]} links @param {Set<string>} names @returns {Row[]} */
export function rowsOf(links, names) {
  const ours = links.filter((row) => names.has(row.from) && names.has(row.to));
  const pairs = (/** @type {Row} */ row) => [pairKey(row.from, row.to), ...(row.both ? [pairKey(row.to, row.from)] : [])];
  const series = new Set(ours.filter((row) => row.at !== null).flatMap(pairs));
  return ours.flatMap((row) => {
    if (row.at !== null || !pairs(row).some((key) => series.has(key))) return [row];
    const ends = [[row.from, row.to], ...(row.both ? [[row.to, row.from]] : [])];
    return ends.filter(([from, to]) => !series.has(pairKey(from, to))).map(([from, to]) => ({ ...row, from, to, both: false }));
  });
}
