// What holds: requirements, streams at their receivers, batteries, cautions. Tested, not proved.
import { h, percent, tableOf } from "./dom.js";
import { nodeFigures, streamFigures, verdictsOf } from "./figures.js";
import { shownNumber } from "./plan_words.js";
import { MET, NOT_MET } from "./verdicts.js";

/** @typedef {import("./engine.js").Found} Found */
/** @typedef {import("./types.js").Row} Row */

const SIGNS = /** @type {Record<string, string>} */ ({ [MET]: "✓", [NOT_MET]: "✗" });

/** A number with its interval.
 * @param {string} value @param {string} low @param {string} high */
function withInterval(value, low, high) {
  return h("td", {}, value, " ", h("span", { class: "quiet" }, `${low} to ${high}`));
}

/** @param {number | null} value */
function seconds(value) {
  return value === null ? "–" : `${value.toFixed(1)} s`;
}

/** What a requirement asks for, in words.
 * @param {Row} one */
export function asked(one) {
  const about = one.streams.length ? one.streams.join(", ") : one.tag ? `tag ${one.tag}` : "all streams";
  const when = one.when === "as planned" ? "" : `, ${one.when}`;
  const part = one.in !== null ? `, in ${percent(one.in)} of draws` : "";
  if (one.share !== null) return `${percent(one.share)} in time${one.deadline !== null ? ` (${one.deadline} s)` : ""}, ${about}${when}${part}`;
  if (one.ratio !== null) return `${percent(one.ratio)} arrive, ${about}${when}${part}`;
  if (one.years !== null) return `batteries last ${shownNumber(one.years)} years${part}`;
  if (one.joined !== null) return `members within ${shownNumber(one.joined)} s${part}`;
  return `at most ${shownNumber(one.outage)} s without service${when}${part}`;
}

/** @param {Row} one @param {number} value */
function inUnit(one, value) {
  if (Number.isNaN(value)) return "–";
  if (one.in !== null || one.share !== null || one.ratio !== null) return percent(value);
  if (!Number.isFinite(value)) return value > 0 ? "no end" : "–";
  return one.years !== null ? `${value.toFixed(2)} years` : `${value.toFixed(0)} s`;
}

/** @param {Found} found */
export function requirementsView(found) {
  const verdicts = verdictsOf(found);
  if (!verdicts.length) return h("p", { class: "quiet" }, "No requirement yet: add one under Plan, and it is judged here.");
  return h("ul", { class: "verdicts", "aria-label": "Requirements" }, verdicts.map((one) => {
    const kind = one.verdict === MET ? "good" : one.verdict === NOT_MET ? "bad" : "open";
    const [middle, low, high] = [one.value, one.low, one.high].map((number) => inUnit(one.requirement, number));
    const value = one.draws ? `${middle} (${low} to ${high})${one.worst ? `, ${one.worst}` : ""}` : "";
    const isOpen = one.verdict !== MET && one.verdict !== NOT_MET;
    const more = isOpen && one.needs ? `${one.draws} draws, it takes some ${shownNumber(one.needs, 2)}` : `${one.draws} draws`;
    return h("li", { class: kind, "data-verdict": one.verdict },
      h("span", { class: "sign", "aria-hidden": "true" }, SIGNS[one.verdict] ?? "…"),
      h(
        "div", {}, h("b", {}, one.requirement.name), h("span", { class: "said" }, ` ${one.verdict}`),
        h("div", { class: "quiet" }, asked(one.requirement)), h("div", { class: "quiet" }, value ? `${value}; ${more}` : ""),
      ));
  }));
}

/** @param {Found} found */
export function streamsView(found) {
  if (!found.plan.stream.length) return h("p", { class: "quiet" }, "No stream yet: select a node, and give it one.");
  const rows = streamFigures(found).map((figure, place) => {
    const stream = found.plan.stream[place], lack = figure.wanted - (figure.share ?? 0);
    const kind = figure.share === null ? "" : lack <= 0 ? "good" : lack <= 0.1 ? "fair" : "bad";
    const to = Array.isArray(stream.to) ? stream.to.join(", ") : stream.to;
    return { kind, name: figure.name, cells: [
      h("th", { scope: "row" }, figure.name), to, stream.deadline === null ? "any" : `${shownNumber(stream.deadline)} s`,
      h("td", {}, h("span", { class: `bar ${kind}`, "aria-hidden": "true" }, bar(figure.share)), " ", h("b", {}, percent(figure.share)),
        figure.share === null ? null : h(
          "span", { class: "quiet" }, ` ${percent(figure.low)} to ${percent(figure.high)}`,
        )), seconds(figure.median), seconds(figure.most),
    ] };
  });
  return tableOf("Packets that come in time at their receivers, with an interval of 95 %; latency of those that arrive: median, and 95 % within",
    ["stream", "to", "deadline", "in time", "median", "95 %"], rows.map((row) => row.cells), (place) => (
      { "data-stream": rows[place].name, class: rows[place].kind }
    ));
}

/** @param {number | null} share */
function bar(share) {
  const fill = h("i");
  fill.style.width = `${Math.round(100 * (share ?? 0))}%`;
  return fill;
}

/** @param {Found} found */
export function nodesView(found) {
  const rows = nodeFigures(found).map((one) => [
    h("th", { scope: "row" }, one.name),
    one.years === null ? "–" : Number.isFinite(one.years) ? withInterval(`${one.years.toFixed(2)} years`, one.low.toFixed(2), one.high.toFixed(2)) : "mains",
    seconds(one.joined),
  ]);
  return tableOf(
    "Battery life at the pace after the start, with an interval of 95 %; searching for a host in the run, on average",
    ["node", "battery", "searching"], rows,
  );
}

/** How far the draws are.
 * @param {Found} found */
export function progressText(found) {
  if (found.error) return "";
  return found.done < found.wanted ? `${found.done} of ${found.wanted} draws` : `${found.done} draws`;
}
