// What the events of a plan do, by frames, as foldcairn.plan.happening has it. Tested, not proved.
import { EVENTS, hashOf, uniform } from "./draws.js";

/** @typedef {import("./types.js").Plan} Plan */
/** @typedef {import("./types.js").Row} Row */
/** @typedef {{ first: number, end: number, restart: boolean }} Cut from a frame on, to another one (not with it), a node has no power */
/** @typedef {{ first: number, end: number, ratio: number }} Cap */

const TICKS_A_SECOND = 64_000_000;

/** The frame that a time lies in.
 * @param {number} seconds @param {number} frame its length in seconds */
export function frameOf(seconds, frame) {
  return Math.floor(Math.round(seconds * TICKS_A_SECOND) / (frame * TICKS_A_SECOND));
}

/** The first frame that starts at a time or after it.
 * @param {number} seconds @param {number} frame */
export function frameFrom(seconds, frame) {
  return Math.ceil(Math.round(seconds * TICKS_A_SECOND) / (frame * TICKS_A_SECOND));
}

/** When an event begins first, in seconds.
 * @param {Row} event @param {number} place among the events @param {number | null} seed */
function begin(event, place, seed) {
  if (!event.between) return event.at ?? 0;
  const [low, high] = event.between;
  return low + (high - low) * (seed === null ? 0.5 : uniform(seed, EVENTS + place, hashOf(event.name), 0n));
}

/** Whether an event takes the power of nodes.
 * @param {Row} event */
export function isOff(event) {
  return event.link === null && (event.off ?? event.ratio === null);
}

/** What links pass at most, or null.
 * @param {Row} event */
function capOf(event) {
  if (event.ratio !== null) return event.ratio;
  return event.link !== null && event.off !== false ? 0 : null;
}

/** Whether a node lies in the area of an event.
 * @param {Row} node @param {Row} event */
function isIn(node, event) {
  if (!event.area || node.x === null || node.y === null) return false;
  const [left, lower, right, upper] = event.area;
  return left <= node.x && node.x <= right && lower <= node.y && node.y <= upper && (event.floor === null || event.floor === node.floor);
}

/** Whether a link is one to which an event happens.
 * @param {Map<string, Row>} nodes @param {Row} event @param {string} from @param {string} to */
function touches(nodes, event, from, to) {
  if (event.node !== null) return event.node === from || event.node === to;
  if (event.link !== null) return event.link.includes(from) && event.link.includes(to);
  return [from, to].some((name) => isIn(/** @type {Row} */ (nodes.get(name)), event));
}

/**
 * What the events do to nodes, and to links between them.
 * @param {Plan} plan
 * @param {{ from: string, to: string }[]} links
 * @param {number} frame in seconds
 * @param {number} frames
 * @param {number | null} seed
 * @returns {{ cuts: Map<string, Cut[]>, caps: Map<object, Cap[]> }} by names of nodes, and by links
 */
export function happenings(plan, links, frame, frames, seed) {
  const cuts = new Map(), caps = new Map();
  const nodes = new Map(plan.node.map((node) => [node.name, node]));
  plan.event.forEach((event, place) => {
    const spans = spansOf(event, begin(event, place, seed), frame, frames);
    for (const name of nodesOff(plan, event)) cuts.set(name, [...(cuts.get(name) ?? []), ...spans.map((span) => ({ ...span, restart: event.restart }))]);
    const ratio = capOf(event);
    for (const link of ratio === null ? [] : links.filter(({ from, to }) => touches(nodes, event, from, to))) {
      caps.set(link, [...(caps.get(link) ?? []), ...spans.map((span) => ({ ...span, ratio }))]);
    }
  });
  return { cuts, caps };
}

/** @param {Row} event @param {number} start @param {number} frame @param {number} frames */
function spansOf(event, start, frame, frames) {
  const found = [], seconds = frames * frame;
  for (let at = start; at < seconds; at += event.every) {
    const end = event.for === null ? seconds : Math.min(seconds, at + event.for);
    found.push({ first: frameOf(at, frame), end: Math.min(frames, frameFrom(end, frame)) });
    if (event.every === null) break;
  }
  return found;
}

/** @param {Plan} plan @param {Row} event @returns {string[]} */
function nodesOff(plan, event) {
  if (!isOff(event)) return [];
  return event.node !== null ? [event.node] : plan.node.filter((node) => !node.candidate && isIn(node, event)).map((node) => node.name);
}

/** The cuts in their order; those that touch are one.
 * @param {Cut[]} cuts @returns {Cut[]} */
export function mergedCuts(cuts) {
  /** @type {Cut[]} */
  const found = [];
  for (const one of [...cuts].sort((left, right) => left.first - right.first || left.end - right.end)) {
    const last = found.at(-1);
    if (last && one.first <= last.end) found.splice(-1, 1, { first: last.first, end: Math.max(last.end, one.end), restart: last.restart || one.restart });
    else found.push(one);
  }
  return found;
}

/** The ratio of a link by the frames from which on it holds.
 * @param {[number, number][]} base @param {Cap[]} caps @param {number} frames @returns {[number, number][]} */
export function piecesOf(base, caps, frames) {
  const turns = [...new Set([0, ...base.map(([frame]) => frame), ...caps.flatMap((cap) => [cap.first, cap.end])])].sort((one, other) => one - other);
  /** @type {[number, number][]} */
  const found = [];
  for (const frame of turns.filter((turn) => turn < frames)) {
    const own = base.filter(([start]) => start <= frame).slice(-1)[0][1];
    const ratio = Math.min(own, ...caps.filter((cap) => cap.first <= frame && frame < cap.end).map((cap) => cap.ratio));
    if (!found.length || found[found.length - 1][1] !== ratio) found.push([frame, ratio]);
  }
  return found;
}

/** Samples of a link by frames: each frame has the least ratio of its time.
 * @param {[number, number][]} samples @param {number} frame @param {number} frames @returns {[number, number][]} */
export function byFrames(samples, frame, frames) {
  if (samples.length === 1) return [[0, samples[0][1]]];
  const found = new Map([[0, samples[0][1]]]);
  let current = samples[0][1];
  for (let place = 1; place < samples.length;) {
    const at = frameOf(samples[place][0], frame);
    let least = frameFrom(samples[place][0], frame) > at ? current : 1;
    for (; place < samples.length && frameOf(samples[place][0], frame) === at; place++) {
      current = samples[place][1];
      least = Math.min(least, current);
    }
    for (const [when, ratio] of [[at, least], [at + 1, current]]) if (when < frames) found.set(Math.max(0, when), ratio);
  }
  const turns = [...found].sort(([one], [other]) => one - other);
  return turns.filter(([, ratio], place) => place === 0 || ratio !== turns[place - 1][1]);
}
