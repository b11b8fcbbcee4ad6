// Plans side by side: each is kept with what its draws say, and the differences of the same seeds have intervals. Tested, not proved.
import { button, h, percent, tableOf } from "./dom.js";
import { PLANNED } from "./figures.js";
import { ofDifference, spreadOf } from "./verdicts.js";

/** @typedef {import("./engine.js").Found} Found */
/** @typedef {{ name: string, found: Found }} Kept */

const ERROR = 0.025;

/** The values of one measure in each draw, by its seed.
 * @param {Found} found @param {(draw: import("./measure.js").Draw) => number | null | undefined} measure */
function bySeed(found, measure) {
  const values = new Map();
  for (const draw of found.draws.get(PLANNED) ?? []) {
    const value = measure(draw);
    if (value !== null && value !== undefined && Number.isFinite(value)) values.set(draw.seed, value);
  }
  return values;
}

/** The difference of a measure between two plans: the mean over the seeds that both have, and its interval.
 * @param {Map<number, number>} one @param {Map<number, number>} other */
export function differenceOf(one, other) {
  const pairs = [...one].filter(([seed]) => other.has(seed)).map(([seed, value]) => (other.get(seed) ?? 0) - value);
  if (pairs.length < 2) return null;
  const spread = spreadOf(pairs), [low, high] = ofDifference(spread, ERROR);
  return { mean: spread.mean, low, high, draws: pairs.length };
}

/** @param {number} value @param {(value: number) => string} shown */
function signed(value, shown) {
  const text = shown(Math.abs(value));
  return text === shown(0) ? text : `${value < 0 ? "−" : "+"}${text}`;
}

/** What is compared: each stream's share, and the least battery.
 * @param {Found[]} all */
function measures(all) {
  const names = [...new Set(all.flatMap((found) => found.plan.stream.map((stream) => stream.name)))];
  /** @type {{ name: string, of: (draw: import("./measure.js").Draw) => number | null | undefined, shown: (value: number) => string }[]} */
  const found = names.map((name) => ({ name, of: (draw) => draw.streams[name]?.[0], shown: (value) => `${(100 * value).toFixed(1)} %` }));
  found.unshift({ name: "all streams", shown: (value) => `${(100 * value).toFixed(1)} %`, of: (draw) => {
    const known = /** @type {number[]} */ (Object.values(draw.streams).map(([value]) => value).filter((value) => value !== null));
    return known.length ? known.reduce((sum, value) => sum + value, 0) / known.length : null;
  } });
  found.push({ name: "shortest battery", shown: (value) => `${value.toFixed(2)} years`, of: (draw) => Math.min(...Object.values(draw.years)) });
  return found;
}

/**
 * @param {Kept[]} kept
 * @param {Found | null} now
 * @param {{ keep: () => void, back: (place: number) => void, drop: (place: number) => void }} means
 */
export function compareView(kept, now, means) {
  const keep = button("Keep this plan", means.keep);
  const list = h(
    "ul", {},
    kept.map(
      (one, place) => h(
        "li", {}, h("b", {}, one.name), ` ${one.found.plan.node.length} nodes, ${one.found.plan.stream.length} streams `,
        button(`Go back to ${one.name}`, () => means.back(place)), button(`Forget ${one.name}`, () => means.drop(place)),
      )
    ),
  );
  if (!kept.length || !now) {
    return h(
      "section", {}, h("h2", {}, "Plans side by side"),
      h("p", { class: "quiet" }, "Keep a plan as A, change it, and see what differs, with intervals. The same seeds draw both."), keep,
    );
  }
  const all = [...kept, { name: "now", found: now }];
  const rows = measures(all.map((one) => one.found)).map(({ name, of, shown }) => {
    const drawn = all.map((one) => bySeed(one.found, of));
    const values = drawn.map((one) => new Map([...one].filter(([seed]) => drawn.every((other) => !other.size || other.has(seed)))));
    return [h("th", { scope: "row" }, name), ...values.map(
      (one) => (one.size ? (name === "shortest battery" ? shown(spreadOf([...one.values()]).mean) : percent(spreadOf([...one.values()]).mean)) : "–")
    ),
      ...kept.map((_, place) => {
        const found = differenceOf(values[place], values[values.length - 1]);
        if (!found) return h("td", {}, "–");
        const kind = found.low > 0 ? "good" : found.high < 0 ? "bad" : "";
        return h(
          "td", { class: kind }, signed(found.mean, shown), " ",
          h("span", { class: "quiet" }, `${signed(found.low, shown)} to ${signed(found.high, shown)}`),
        );
      })];
  });
  return h("section", {}, h("h2", {}, "Plans side by side"), list, keep,
    tableOf(
      "Means over the seeds that all have, and what differs now from each kept plan, with an interval of 95 %",
      ["", ...all.map((one) => one.name), ...kept.map((one) => `now less ${one.name}`)], rows,
    ));
}
