// Whether the tables of a plan fit together, as foldcairn.plan.checks and demands have it. Tested, not proved.
import { streamsOf } from "./measure.js";
import { intervalOf, keepAliveOf } from "./network.js";
import { PlanError, didYouMean, shownNumber } from "./plan_words.js";

/** @typedef {import("./types.js").Plan} Plan */
/** @typedef {import("./types.js").Row} Row */

const EMPTY_SLOTS = 16;
const MEASURES = ["share", "ratio", "years", "joined", "outage"];
const WHENS = ["as planned", "any one node fails", "any one host fails"];

/** @param {string} where @param {string} key @param {string[]} names @param {Iterable<string>} known @param {string} [kind] */
function isThere(where, key, names, known, kind = "node") {
  const there = [...known];
  for (const name of names) {
    if (!there.includes(name)) throw new PlanError(where, `\`${key}\` is ${name}, and no ${kind} has this name${didYouMean(name, there)}`);
  }
}

/** @param {string} where @param {string} what @param {Row} row @param {string[]} keys */
function oneOf(where, what, row, keys) {
  const given = keys.filter((key) => row[key] !== null && !(Array.isArray(row[key]) && !row[key].length));
  if (given.length !== 1) {
    throw new PlanError(
      where, given.length ? `${what} has ${given.join(" and ")}; keep one of these` : `${what} has none of ${keys.join(", ")}; give one`,
    );
  }
  return given[0];
}

/** Throws `PlanError` where the plan contradicts itself or names what is not there.
 * @param {Plan} plan */
export function checkPlan(plan) {
  const names = plan.node.map((node) => node.name), run = plan.plan.hours * 3600;
  if (plan.plan.contend && plan.plan.profile === 1) throw new PlanError("[plan]", "`contend` is given, and profile 1 has one contention slot; take profile 2");
  for (const node of plan.node) if ((node.x === null) !== (node.y === null)) throw new PlanError(`[[node]] ${node.name}`, "a place has `x` and `y`");
  plan.link.forEach((link) => checkLink(link, names));
  plan.stream.forEach((stream) => checkStream(plan, stream, names, run));
  checkHosts(plan, names);
  plan.event.forEach((event, place) => checkEvent(event, `[[event]] ${event.name || place + 1}`, names, run));
  const seen = new Set();
  for (const one of plan.requirement) {
    if (seen.has(one.name)) throw new PlanError(`[[requirement]] ${one.name}`, "two have this name; names have to differ");
    seen.add(one.name);
    checkRequirement(plan, one, names, run);
  }
}

/** @param {Row} link @param {string[]} names */
function checkLink(link, names) {
  const where = `[[link]] from ${link.from} to ${link.to}`;
  isThere(where, "from", [link.from], names);
  isThere(where, "to", [link.to], names);
  if (link.from === link.to) throw new PlanError(where, "a link has two ends that differ");
  if (link.received !== null && link.sent === null) throw new PlanError(where, "`received` is given, and `sent` is not");
  if (link.sent !== null && link.received === null && link.ratio === null) throw new PlanError(where, "`sent` is given, and neither `received` nor `ratio`");
  if (link.sent !== null && link.received > link.sent) {
    throw new PlanError(where, `\`received\` is ${link.received}, and has to be at most ${link.sent}, the number that was sent`);
  }
}

/** @param {Plan} plan @param {Row} stream @param {string[]} names @param {number} run */
function checkStream(plan, stream, names, run) {
  const where = `[[stream]] ${stream.name}`;
  isThere(where, "from", [stream.from], names);
  isThere(where, "to", [stream.to].flat(), [...names, "all", "hosts"]);
  oneOf(where, "it", stream, ["every", "sporadic", "at"]);
  for (const key of ["every", "deadline"]) {
    if (stream[key] !== null && stream[key] >= run) {
      throw new PlanError(where, `\`${key}\` is ${shownNumber(stream[key])}, and the run has ${shownNumber(run)} s; times are in seconds`);
    }
  }
  if (typeof stream.start === "number" && stream.start >= Math.min(run, stream.until ?? run)) {
    throw new PlanError(where, `\`start\` is ${shownNumber(stream.start)}, and has to be before its end and that of the run`);
  }
  const most = plan.plan.profile === 1 ? 32 : 96;
  if (stream.bytes !== null && stream.bytes > most) {
    throw new PlanError(where, `\`bytes\` is ${stream.bytes}, and a payload has at most ${most} bytes in profile ${plan.plan.profile}`);
  }
  const every = keepAliveOf(stream, plan.plan), limit = EMPTY_SLOTS * intervalOf(stream);
  if (every >= limit) {
    throw new PlanError(
      where,
      `\`keep_alive\` is ${shownNumber(every)} s, and has to be below ${shownNumber(limit)} s, ${EMPTY_SLOTS} intervals, or its host takes it away`,
    );
  }
}

/** @param {Plan} plan @param {string[]} names */
function checkHosts(plan, names) {
  const ranks = plan.host.map((host) => host.rank).sort();
  for (const host of plan.host) isThere("[[host]]", "node", [host.node], names);
  if (new Set(ranks).size < ranks.length || new Set(plan.host.map((host) => host.node)).size < ranks.length) {
    throw new PlanError("[[host]]", "two hosts have one rank, or one node has two");
  }
  if (ranks.some((rank, place) => rank !== place)) throw new PlanError("[[host]]", `the ranks are ${ranks.join(", ")}, and have to be 0, 1, .. without a gap`);
}

/** @param {Row} event @param {string} where @param {string[]} names @param {number} run */
function checkEvent(event, where, names, run) {
  const what = oneOf(where, "it", event, ["node", "link", "area"]);
  oneOf(where, "it", event, ["at", "between"]);
  if (what !== "area") isThere(where, what, [event[what]].flat(), names);
  const last = event.at ?? Math.max(...event.between);
  if (last >= run) throw new PlanError(where, `it is at ${shownNumber(last)} s, and the run ends at ${shownNumber(run)} s`);
  if (event.ratio !== null && event.off) throw new PlanError(where, "it has `off` and `ratio`; keep one of these");
  if (event.ratio === null && event.off === false) throw new PlanError(where, "`off` is false, and there is no `ratio`: nothing happens");
  if (event.every !== null && event.for === null) throw new PlanError(where, "`every` is given, and `for` is not: it does not end before it happens again");
  if (event.every !== null && event.every <= event.for) throw new PlanError(where, `\`every\` is ${event.every}, and has to be above ${event.for}, \`for\``);
}

/** @param {Plan} plan @param {Row} one @param {string[]} names @param {number} run */
function checkRequirement(plan, one, names, run) {
  const where = `[[requirement]] ${one.name}`;
  const asked = oneOf(where, "it", one, MEASURES), isOfPackets = ["share", "ratio", "outage"].includes(asked);
  isThere(where, "streams", one.streams, plan.stream.map((stream) => stream.name), "stream");
  if (one.to !== null) isThere(where, "to", [one.to].flat(), [...names, "all", "hosts"]);
  if (one.streams.length && one.tag) throw new PlanError(where, "it has `streams` and `tag`; keep one of these");
  const found = isOfPackets ? streamsOf(plan, one) : [];
  if (isOfPackets && !found.length) throw new PlanError(where, one.tag ? `no stream has the tag ${one.tag}, itself or by its node` : "the plan has no stream");
  const lacking = asked === "share" && one.deadline === null ? found.find((stream) => stream.deadline === null) : undefined;
  if (lacking) throw new PlanError(where, `\`deadline\` is not given, and the stream ${lacking.name} has none either`);
  const fails = /^(.+) fails$/.exec(one.when);
  if (!WHENS.includes(one.when) && !fails) {
    throw new PlanError(where, `\`when\` is ${one.when}, and has to be ${WHENS.join(", ")}, or the name of a node and fails`);
  }
  if (!WHENS.includes(one.when) && fails) isThere(where, "when", [fails[1]], names);
  if (asked === "outage" && one.when === "as planned") throw new PlanError(where, "`outage` is after a failure: write `when`");
  for (const key of ["deadline", "at", "joined", "outage"]) {
    if (one[key] !== null && one[key] >= run) throw new PlanError(where, `\`${key}\` is ${shownNumber(one[key])}, and the run has ${shownNumber(run)} s`);
  }
}

/** Why nothing can be drawn of a plan, as a sentence; empty where it can.
 * @param {Plan} plan */
export function problemOf(plan) {
  if (!plan.node.length) return "The plan is empty: double-click the map to add a node, or open a plan file.";
  try {
    checkPlan(plan);
  } catch (error) {
    if (!(error instanceof PlanError)) throw error;
    return error.message;
  }
  return plan.stream.length ? "" : "No node has a stream yet: select a node, and give it one.";
}
