// What draws say of streams, nodes and requirements, as numbers for the page. Tested, not proved.
import { casesFor } from "./engine.js";
import { intervalOf } from "./network.js";
import { ofShare, ofMean, spreadOf, judged, ruleOf, NOT_DECIDED } from "./verdicts.js";

/** @typedef {import("./types.js").Plan} Plan */
/** @typedef {import("./types.js").Row} Row */
/** @typedef {import("./engine.js").Found} Found */
/** @typedef {import("./measure.js").Draw} Draw */
/**
 * @typedef {{ name: string, share: number | null, low: number, high: number, median: number | null, most: number | null, wanted: number,
 *   draws: number, packets: number }} Figure
 */

// By how much a period is to be longer than the interval that is requested, so that what waits is sent.
const SPARE = 1.15;
const ERROR = 0.025, USUAL = 0.99, MOST_LATE = 0.95, CLOSE = 1e-9;
export const PLANNED = " 0";

/** The share that a stream is wanted to have: that of the strictest requirement that is about it.
 * @param {Plan} plan @param {Row} stream */
export function wantedOf(plan, stream) {
  const tags = [...stream.tags, ...(plan.node.find((node) => node.name === stream.from)?.tags ?? [])];
  const about = plan.requirement.filter((one) => (one.share ?? one.ratio) !== null && one.when === "as planned"
    && (one.streams.length ? one.streams.includes(stream.name) : !one.tag || tags.includes(one.tag)));
  return about.length ? Math.max(...about.map((one) => one.share ?? one.ratio)) : USUAL;
}

/** The latency that a part of all deliveries of some draws had at most, or null without any. The least that so many had is looked for between
 * two others, since all of them in one order would be millions.
 * @param {import("./measure.js").Late[]} draws @param {number} part */
export function latencyOf(draws, part) {
  const there = draws.filter(({ seconds }) => seconds.length);
  const wanted = Math.ceil(part * there.reduce((sum, { counts }) => sum + counts[counts.length - 1], 0));
  const countTo = (/** @type {number} */ most) => there.reduce((sum, { seconds, counts }) => sum + (counts[placeAfter(seconds, most) - 1] ?? 0), 0);
  let low = -1, high = there.reduce((most, { seconds }) => Math.max(most, seconds[seconds.length - 1]), 0);
  while (high - low > CLOSE) {
    const middle = (low + high) / 2;
    if (countTo(middle) >= wanted) high = middle;
    else low = middle;
  }
  return there.length ? there.reduce((least, { seconds }) => Math.min(least, seconds[placeAfter(seconds, low)] ?? Infinity), Infinity) : null;
}

/** Where the numbers begin that are above one.
 * @param {Float64Array} sorted @param {number} one */
function placeAfter(sorted, one) {
  let low = 0, high = sorted.length;
  while (low < high) {
    const middle = (low + high) >> 1;
    if (sorted[middle] > one) high = middle;
    else low = middle + 1;
  }
  return low;
}

/** What draws say of each stream.
 * @param {Found} found @returns {Figure[]} */
export function streamFigures(found) {
  const { plan, own } = found, draws = found.draws.get(PLANNED) ?? [];
  return plan.stream.map((stream) => {
    const values = /** @type {number[]} */ (draws.map((draw) => draw.streams[stream.name]?.[0]).filter((one) => one !== null && one !== undefined));
    const packets = draws.reduce((sum, draw) => sum + (draw.streams[stream.name]?.[1] ?? 0), 0);
    const late = draws.flatMap((draw) => draw.latencies[stream.name] ?? []);
    const spread = values.length ? spreadOf(values, packets) : null;
    const [low, high] = spread ? ofShare(spread, ERROR, own) : [0, 1];
    return {
      name: stream.name, share: spread ? spread.mean : null, low, high, median: latencyOf(late, 0.5), most: latencyOf(late, MOST_LATE),
      wanted: wantedOf(plan, stream), draws: draws.length, packets,
    };
  });
}

/** What draws say of each node: the years of its battery, and when it was a member.
 * @param {Found} found */
export function nodeFigures(found) {
  const draws = found.draws.get(PLANNED) ?? [];
  return found.plan.node.filter((node) => !node.candidate).map((node) => {
    const years = draws.map((draw) => draw.years[node.name]).filter((one) => one !== undefined);
    const joined = draws.map((draw) => draw.joined[node.name] ?? 0);
    const isFinite = years.length > 0 && years.every(Number.isFinite);
    const spread = isFinite ? spreadOf(years) : null;
    const [low, high] = spread ? ofMean(spread, ERROR) : [NaN, NaN];
    return {
      name: node.name, years: spread ? spread.mean : years.length ? Infinity : null, low: Math.max(0, low), high,
      joined: joined.length ? joined.reduce((sum, one) => sum + one, 0) / joined.length : null,
    };
  });
}

/** The verdicts on the requirements, in their order.
 * @param {Found} found */
export function verdictsOf(found) {
  const { plan, own } = found;
  return plan.requirement.map((requirement) => {
    const cases = casesFor(plan, requirement);
    const units = cases.flatMap(({ failed, seconds }) => unitsOf(found, requirement, failed, `${failed} ${seconds}`, cases.length > 1));
    const counts = new Set(units.map((unit) => unit.values.length));
    const least = Math.min(...counts);
    if (!units.length || !Number.isFinite(least) || least === 0) {
      return { requirement, verdict: NOT_DECIDED, value: NaN, low: NaN, high: NaN, worst: "", draws: 0, packets: 0, needs: null };
    }
    // Failures are drawn one after another: what all have counts.
    const level = units.map((unit) => ({ ...unit, values: unit.values.slice(0, least), packets: unit.packets.slice(0, least) }));
    return { requirement, ...judged(ruleOf(requirement, plan.plan.seeds, own), level, found.done >= found.wanted) };
  });
}

/** @param {Found} found @param {Row} requirement @param {string} failed @param {string} key @param {boolean} isOfSeveral */
function unitsOf(found, requirement, failed, key, isOfSeveral) {
  const place = found.plan.requirement.indexOf(requirement);
  const asked = found.cases?.get(key)?.indexOf(place) ?? -1;
  const rows = (found.draws.get(key) ?? []).map((draw) => draw.requirements[asked] ?? {});
  const names = new Set(rows.flatMap((row) => Object.keys(row)));
  if (!rows.length && asked >= 0) return [{ name: failed, values: [], packets: [] }];
  return [...names].map((name) => ({
    name: isOfSeveral ? `${name} without ${failed}` : name,
    values: rows.map((row) => row[name]?.[0] ?? null),
    packets: rows.map((row) => row[name]?.[1] ?? 0),
  }));
}

/** The share of each stream, without what takes long.
 * @param {Found} found */
function quickShares(found) {
  const draws = found.draws.get(PLANNED) ?? [];
  return found.plan.stream.map((stream) => {
    let sum = 0, count = 0;
    for (const draw of draws) {
      const value = draw.streams[stream.name]?.[0];
      if (value === null || value === undefined) continue;
      sum += value;
      count += 1;
    }
    return { share: count ? sum / count : null, wanted: wantedOf(found.plan, stream) };
  });
}

/** For the map: the worst share of each node's streams.
 * @param {Found} found @returns {Map<string, import("./map.js").Grade>} */
export function gradesOf(found) {
  const grades = new Map();
  quickShares(found).forEach((figure, place) => {
    const node = found.plan.stream[place].from, before = grades.get(node);
    if (!before || (figure.share !== null && (before.share === null || figure.share - figure.wanted < before.share - before.wanted))) {
      grades.set(node, { share: figure.share, wanted: figure.wanted });
    }
  });
  return grades;
}

/** @param {string[]} names */
function listed(names) {
  return `${names.slice(0, 5).join(", ")}${names.length > 5 ? ` and ${names.length - 5} more` : ""}`;
}

/** What of a plan is hardly as it was meant.
 * @param {Plan} plan @param {import("./propagation.js").Ratios[]} links */
export function cautionsOf(plan, links) {
  const told = [], slow = /** @type {string[]} */ ([]), nodes = plan.node.filter((node) => !node.candidate);
  const reached = new Set(plan.host.filter((host) => host.rank === 0).map((host) => host.node));
  const hosts = plan.host.length;
  for (let size = -1; size !== reached.size;) {
    size = reached.size;
    for (const link of links) if (reached.has(link.from) && Math.max(...link.pieces.map(([, ratio]) => ratio)) >= 0.1) reached.add(link.to);
  }
  const apart = nodes.filter((node) => !reached.has(node.name)).map((node) => node.name);
  if (hosts && apart.length) told.push(`${listed(apart)}: no path of links with a ratio of 0.1 leads there from the host.`);
  if (hosts === 1) told.push("There is one host: if it fails, nothing arrives.");
  if (plan.plan.hours * 3600 < 900) told.push("A run is shorter than 15 minutes: searching at the start counts much.");
  for (const stream of plan.stream) {
    const interval = intervalOf(stream);
    if (stream.every === null || interval * SPARE <= stream.every) continue;
    slow.push(stream.name);
  }
  if (slow.length) {
    const part = 100 - Math.ceil(100 * (1 - 1 / SPARE));
    told.push(
      `${listed(slow)}: the interval that is requested is as long as the period, or nearly, so packets that wait at the start wait to the end.`
        + ` An interval of ${part} % of the period leaves slots to catch up.`
    );
  }
  if (plan.stream.some((stream) => stream.sporadic !== null || stream.start === "drawn") || plan.event.some((event) => event.between) || plan.plan.vary_ids) {
    told.push(
      "Times of sporadic packets, phases, times of events and ids are draws of this page: Python draws others for the same seed, of the same distribution."
    );
  }
  return told;
}
