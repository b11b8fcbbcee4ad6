// The network text of a plan and a seed, for `outcome` and the other commands, as foldcairn.plan makes it. Ratios are those that Python
// draws for the seed; times of sporadic packets, phases, times of events and ids are draws of the page's own. Tested, not proved.
import { IDS, PACKETS, PHASES, hashOf, uniform } from "./draws.js";
import { byFrames, frameFrom, frameOf, happenings, mergedCuts, piecesOf } from "./happening.js";
import { PlanError } from "./plan_words.js";
import { linksOf, ratiosOf } from "./propagation.js";

/** @typedef {import("./types.js").Plan} Plan */
/** @typedef {import("./types.js").Row} Row */
/** @typedef {import("./happening.js").Cut} Cut */
/** @typedef {{ frame: number, node: number, stream: number, kind: string, text: string, seconds: number, isPacket: boolean }} Line of the script */
/** @typedef {{ text: string, script: Line[], ids: Map<string, number>, hosts: Map<number, number>, frames: number, frame: number, late: number }} Network */

const FRAMES_MOST = 4096, NODES_MOST = 64, SCRIPT_MOST = 262_144, RATIOS_MOST = 100_000, INTERVAL_MOST = 120;

// So many draws are compared, and so far a ratio may be from another one where all draws have one network.
const COMPARED = 4, APART = 0.1;

/** The length of a frame in seconds.
 * @param {Plan} plan */
export function frameSeconds(plan) {
  return plan.plan.profile === 1 ? 4 : 5;
}

/** The nodes that a network has, by their ids.
 * @param {Plan} plan */
export function nodesOf(plan) {
  return plan.node.filter((node) => !node.candidate).sort((one, other) => one.id - other.id);
}

/** The interval that a stream requests, in seconds.
 * @param {Row} stream */
export function intervalOf(stream) {
  return stream.interval ?? Math.max(1, Math.min(INTERVAL_MOST, Math.floor(stream.every || stream.deadline || stream.sporadic || INTERVAL_MOST)));
}

/** How often a stream sends a packet of no bytes, in seconds; 0 for never.
 * @param {Row} stream @param {Row} settings */
export function keepAliveOf(stream, settings) {
  if (stream.keep_alive !== null) return stream.keep_alive;
  const isOften = stream.every !== null && settings.keep_alive !== null && stream.every <= settings.keep_alive;
  return settings.keep_alive === null || isOften ? 0 : settings.keep_alive;
}

/** The bytes of the longest packet: of data, or of a schedule with all streams.
 * @param {Plan} plan */
export function longestPacket(plan) {
  const payload = plan.stream.reduce((most, one) => Math.max(most, one.bytes ?? 3), 0);
  const ids = new Map(plan.node.map((node) => [node.name, node.id]));
  const codes = plan.stream.map((one) => (ids.get(one.from) ?? 200) * 4 + one.stream).sort((one, other) => one - other).slice(0, 40);
  const widest = codes.slice(1).reduce((most, code, place) => Math.max(most, code - codes[place]), 0);
  const width = widest ? Math.floor(Math.log2(widest)) + 1 : 0;
  const owners = codes.length ? 3 + Math.ceil(((codes.length - 1) * width) / 8) : 1;
  return Math.max(8 + payload, (plan.plan.contend ? 6 : 9) + owners);
}

/** What no seed changes of the networks of a plan.
 * @param {Plan} plan @param {import("./propagation.js").Links} [known] its links, where they are known */
export function prepared(plan, known) {
  const frame = frameSeconds(plan), frames = frameOf(plan.plan.hours * 3600, frame), nodes = nodesOf(plan);
  if (!(frames >= 1 && frames <= FRAMES_MOST)) {
    throw new PlanError(
      "[plan]", `\`hours\` is ${plan.plan.hours}, and has to be from ${(frame / 3600).toFixed(4)} to ${((FRAMES_MOST * frame) / 3600).toFixed(2)}`,
    );
  }
  if (nodes.length < 2 || nodes.length > NODES_MOST) throw new PlanError("", `the plan has ${nodes.length} nodes, and a network has from 2 to ${NODES_MOST}`);
  if (!plan.host.length) throw new PlanError("", "no node is a host: make one the host of rank 0");
  const links = known ?? linksOf(plan, nodes.map((node) => node.name), longestPacket(plan));
  return { plan, frame, frames, nodes, links };
}

/** @typedef {ReturnType<typeof prepared>} Prepared */

/**
 * The network of a seed, or without one that of the means. Throws `PlanError` where there is none.
 * @param {Prepared} made
 * @param {number | null} seed
 * @returns {Network}
 */
export function networkOf({ plan, frame, frames, nodes, links }, seed) {
  const ids = idsOf(plan, nodes, seed);
  const idOf = (/** @type {string} */ name) => {
    const id = ids.get(name);
    if (id === undefined) throw new PlanError("", `${name} is no node of the network, or a candidate yet`);
    return id;
  };
  const ratios = ratiosOf(links, seed);
  const { cuts, caps } = happenings(plan, ratios, frame, frames, seed);
  /** @type {Map<string, Cut[]>} */
  const off = new Map(nodes.map((node) => {
    const first = frameFrom(node.on, frame);
    return [node.name, mergedCuts([...(first ? [{ first: 0, end: first, restart: true }] : []), ...(cuts.get(node.name) ?? [])])];
  }));
  const script = nodes.flatMap((node) => powerLines(idOf(node.name), off.get(node.name) ?? [], frames));
  for (const stream of plan.stream) script.push(...streamLines(plan, stream, idOf(stream.from), off.get(stream.from) ?? [], frames, frame, seed));
  script.sort((one, other) => one.frame - other.frame);
  const hosts = new Map(plan.host.map((host) => [host.rank, idOf(host.node)]));
  const ratioLines = ratios.flatMap(
    (link) => linkPieces(link, caps.get(link) ?? [], frame, frames).map(([at, ratio]) => ({ at, from: idOf(link.from), to: idOf(link.to), ratio }))
  );
  check(script.length, ratioLines.length, plan.plan.hours);
  const slowest = nodes.reduce((most, node) => Math.max(most, -node.clock), 0);
  const text = textOf(plan, nodes, ids, hosts, ratios.map((link) => [idOf(link.from), idOf(link.to)]), script, ratioLines, frames);
  return { text, script, ids, hosts, frames, frame, late: Math.max(0, (frames * frame * slowest) / (1_000_000 - slowest)) };
}

/** @param {number} lines @param {number} ratios @param {number} hours */
function check(lines, ratios, hours) {
  if (lines > SCRIPT_MOST) {
    const fitting = Math.floor((100 * hours * SCRIPT_MOST) / lines) / 100, most = SCRIPT_MOST.toLocaleString("en");
    const what = `packets and events are ${lines.toLocaleString("en")} lines, and a run has at most ${most}`;
    throw new PlanError("[plan]", `${what}: take \`hours = ${fitting}\` or less`);
  }
  if (ratios > RATIOS_MOST) {
    throw new PlanError(
      "[losses]", `links have ${ratios.toLocaleString("en")} ratios over time, and a run has at most ${RATIOS_MOST.toLocaleString("en")}`,
    );
  }
}

/** @param {Plan} plan @param {Row[]} nodes @param {number | null} seed */
function idsOf(plan, nodes, seed) {
  const given = nodes.map((node) => node.id);
  if (seed !== null && plan.plan.vary_ids) {
    for (let place = given.length - 1; place > 0; place--) {
      const other = Math.floor(uniform(seed, IDS, BigInt(place), 0n) * (place + 1));
      [given[place], given[other]] = [given[other], given[place]];
    }
  }
  return new Map(nodes.map((node, place) => [node.name, /** @type {number} */ (given[place])]));
}

/** @param {import("./propagation.js").Ratios} link @param {import("./happening.js").Cap[]} caps @param {number} frame @param {number} frames
 * @returns {[number, number][]} */
function linkPieces(link, caps, frame, frames) {
  const base = byFrames(link.pieces, frame, frames);
  const found = caps.length || base.length > 1 ? piecesOf(base, caps, frames) : base;
  return Math.round(found[0][1] * 1_000_000) < 1_000_000 ? found : found.slice(1);
}

/** @param {number} node @param {Cut[]} off @param {number} frames @returns {Line[]} */
function powerLines(node, off, frames) {
  const line = (/** @type {number} */ frame, /** @type {string} */ kind) => (
    { frame, node, stream: -1, kind, text: `${kind} ${frame} ${node}`, seconds: -1, isPacket: false }
  );
  const found = off.length && off[0].first === 0 ? [] : [line(0, "on")];
  for (const one of off) {
    if (one.first > 0) found.push(line(one.first, "off"));
    if (one.end < frames) found.push(line(one.end, "on"));
  }
  return found;
}

/** @param {Plan} plan @param {Row} stream @param {number} node @param {Cut[]} off @param {number} frames @param {number} frame
 * @param {number | null} seed @returns {Line[]} */
function streamLines(plan, stream, node, off, frames, frame, seed) {
  const start = startOf(stream, seed), first = frameFrom(start, frame), asked = intervalOf(stream), number = stream.stream;
  const line = (/** @type {number} */ at, /** @type {string} */ kind, /** @type {string} */ rest, seconds = -1, isPacket = false) =>
    ({ frame: at, node, stream: number, kind, text: `${kind} ${at} ${node} ${number} ${rest}`, seconds, isPacket });
  const request = (/** @type {number} */ at) => line(at, "stream", String(asked));
  const cut = off.find((one) => one.first <= first && first < one.end);
  const found = !cut && first < frames ? [request(first)] : [];
  for (const one of off) if (first < one.end && one.end < frames && (one.restart || one === cut)) found.push(request(one.end));
  const every = keepAliveOf(stream, plan.plan);
  for (let count = 0; every > 0 && first * frame + count * every < frames * frame; count++) {
    const seconds = first * frame + count * every, at = frameFrom(seconds, frame);
    if (at < frames) found.push(line(at, "put", "-", seconds, false));
  }
  const end = Math.min(frames * frame, stream.until ?? Infinity), size = stream.bytes ?? 3;
  packetTimes(stream, start, end, seed).forEach((seconds, count) => {
    const at = frameFrom(seconds, frame);
    const bytes = [node, (count >> 8) & 0xff, count & 0xff, ...Array(Math.max(0, size - 3)).fill(0)].slice(0, size);
    const payload = bytes.map((byte) => byte.toString(16).padStart(2, "0")).join("") || "-";
    // A packet of no bytes counts too, unless packets of no bytes keep the stream.
    if (at < frames) found.push(line(at, "put", payload, seconds, size > 0 || every === 0));
  });
  return found;
}

/** When a stream begins, in seconds.
 * @param {Row} stream @param {number | null} seed */
function startOf(stream, seed) {
  if (stream.start !== "drawn") return stream.start;
  return (stream.every || stream.sporadic || 0) * (seed === null ? 0.5 : uniform(seed, PHASES, hashOf(stream.name), 0n));
}

/** @param {Row} stream @param {number} start @param {number} end @param {number | null} seed @returns {number[]} */
function packetTimes(stream, start, end, seed) {
  if (stream.at.length) return [...stream.at].sort((one, other) => one - other).filter((one) => one < end);
  const found = [];
  if (stream.sporadic !== null) {
    let at = start;
    for (let count = 1; found.length <= SCRIPT_MOST; count++) {
      at = seed === null ? start + count * stream.sporadic : at - stream.sporadic * Math.log(uniform(seed, PACKETS + count, hashOf(stream.name), 0n));
      if (at >= end) break;
      found.push(at);
    }
    return found;
  }
  for (let count = 0; stream.every && start + count * stream.every < end && count <= SCRIPT_MOST; count++) found.push(start + count * stream.every);
  return found;
}

/** @param {Plan} plan @param {Row[]} nodes @param {Map<string, number>} ids @param {Map<number, number>} hosts @param {number[][]} links @param {Line[]} script
 *  @param {{ at: number, from: number, to: number, ratio: number }[]} ratios @param {number} frames */
function textOf(plan, nodes, ids, hosts, links, script, ratios, frames) {
  const byId = nodes.map((node) => /** @type {Row} */ ({ ...node, id: ids.get(node.name) ?? 0 })).sort((one, other) => one.id - other.id);
  const lines = [
    `profile ${plan.plan.profile}`, ...(plan.plan.contend ? [`contend ${plan.plan.contend}`] : []), `frames ${frames}`, `sends ${plan.plan.sends}`,
  ];
  for (const node of byId) lines.push(`node ${node.id} ${node.offset}`);
  for (const node of byId) if (node.clock) lines.push(`rate ${node.id} 0 ${node.clock}`);
  for (const [rank, node] of [...hosts].sort(([one], [other]) => one - other)) lines.push(`host ${rank} ${node}`);
  for (const [from, to] of [...links].sort((one, other) => one[0] - other[0] || one[1] - other[1])) lines.push(`link ${from} ${to}`);
  for (const line of script) lines.push(line.text);
  if (ratios.length) {
    lines.push("ratios");
    for (const { at, from, to, ratio } of [...ratios].sort((one, other) => one.at - other.at || one.from - other.from || one.to - other.to)) {
      lines.push(`ratio ${at} ${from} ${to} ${Math.round(ratio * 1_000_000)}`);
    }
  }
  return `${lines.join("\n")}\n`;
}

/** The network text of a plan and a seed.
 * @param {Plan} plan @param {number | null} seed */
export function networkText(plan, seed) {
  return networkOf(prepared(plan), seed).text;
}

/** Whether each draw has a network of its own: links or ids of some draws are others, or the ratio of a link at the start differs by more than 0.1.
 * @param {Prepared} made @returns {boolean} */
export function hasOwnNetworks({ plan, links }) {
  if (plan.plan.vary_ids) return true;
  /** @type {Map<string, Map<string, [number, number, number]>>} */
  const seen = new Map();
  for (let seed = 1; seed <= COMPARED; seed++) {
    for (const { from, to, pieces: [[, ratio]] } of ratiosOf(links, seed)) {
      const ours = seen.get(from) ?? new Map(), [least, most, count] = ours.get(to) ?? [1, 0, 0];
      const [low, high] = [Math.min(least, ratio), Math.max(most, ratio)];
      if (high - low > APART) return true;
      seen.set(from, ours.set(to, [low, high, count + 1]));
    }
  }
  return [...seen.values()].some((ours) => [...ours.values()].some(([, , count]) => count < COMPARED));
}
