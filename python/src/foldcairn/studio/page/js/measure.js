// What is measured of one draw of a plan: for the table of streams, for the nodes, and for each requirement, as foldcairn.requirements
// measures it. It runs in a worker. Tested, not proved.
import { frameOf } from "./happening.js";
import { networkOf, nodesOf } from "./network.js";
import { cameOf, costsOf, countAt, isAnywhere, maskOf, streamKey } from "./outcome.js";

/** @typedef {import("./types.js").Plan} Plan */
/** @typedef {import("./types.js").Row} Row */
/** @typedef {import("./network.js").Network} Network */
/** @typedef {import("./network.js").Prepared} Prepared */
/** @typedef {import("./outcome.js").Came} Came */
/** @typedef {{ failed: string, seconds: number }} Case what fails, and when; nobody where it is empty */
/** @typedef {Record<string, [number | null, number]>} Values of each unit its value, or null, and of how many packets it is */
/** @typedef {{ seconds: Float64Array, counts: Uint32Array }} Late latencies in their order, and how many deliveries had each or less */
/** @typedef {(words: string[], input: string) => Uint8Array} Run a command of the programs */
/**
 * @typedef {{ seed: number, streams: Values, latencies: Record<string, Late>, years: Record<string, number>, joined: Record<string, number>,
 *   requirements: Values[] }} Draw
 */

const LITTLE = 1e-9, WAITING_FRAMES = 12, HOURS_A_YEAR = 24 * 365.25;
// As foldcairn.requirements.membership has them: the start of a run, how long is watched, and how far rounds are apart at most, in frames.
const START_PART = 0.1, START_FRAMES = 36, WATCHED = 4, GAP = 4;

/** The plan in a case.
 * @param {Plan} plan @param {Case} one @param {Row} event an event with its defaults @returns {Plan} */
export function planIn(plan, one, event) {
  return one.failed ? { ...plan, event: [...plan.event, { ...event, node: one.failed, at: one.seconds, off: true }] } : plan;
}

/** The streams that a requirement is about.
 * @param {Plan} plan @param {Row} requirement @returns {Row[]} */
export function streamsOf(plan, requirement) {
  if (requirement.streams.length) return plan.stream.filter((one) => requirement.streams.includes(one.name));
  const tagged = new Set(plan.node.filter((node) => node.tags.includes(requirement.tag)).map((node) => node.name));
  return plan.stream.filter((one) => !requirement.tag || one.tags.includes(requirement.tag) || tagged.has(one.from));
}

/** The nodes that a requirement is about.
 * @param {Plan} plan @param {Row} requirement @returns {Row[]} */
export function nodesFor(plan, requirement) {
  const given = requirement.nodes ?? (requirement.years !== null ? "battery" : "all");
  const there = nodesOf(plan), one = there.find((node) => node.name === given);
  const chosen = Array.isArray(given) ? there.filter((node) => given.includes(node.name))
    : given === "all" || given === "battery" ? there : one ? [one] : there.filter((node) => node.tags.includes(given));
  return requirement.years === null ? chosen : chosen.filter((node) => node.powered !== "mains");
}

/** The charge of a node's battery in mAh, or null.
 * @param {Plan} plan @param {Row} node @param {Record<string, number>} capacities */
export function capacityOf(plan, node, capacities) {
  if (node.powered === "mains") return null;
  return typeof node.powered === "number" ? node.powered : { ...capacities, ...plan.battery.capacity_mah }[node.powered] ?? null;
}

/** One draw, of which what is needed is measured once. */
class Drawn {
  /** @param {Prepared} prepared @param {number} seed @param {Case} one @param {Run} run @param {Record<string, number>} capacities
   * @param {Row[]} requirements */
  constructor(prepared, seed, one, run, capacities, requirements) {
    this.prepared = prepared;
    this.plan = prepared.plan;
    this.seed = seed;
    this.case = one;
    this.run = run;
    this.capacities = capacities;
    this.network = networkOf(prepared, seed);
    this.nodes = new Set(this.network.ids.values());
    this.came = cameOf(this.network, this.run(["outcome", String(seed)], this.network.text), this.plan.plan.profile, this.wanted(requirements));
    this.hosts = [0, 1, 2, 3].map((rank) => this.network.hosts.get(rank) ?? -1);
    this.hostMasks = this.hosts.map((host) => maskOf(this.came, host < 0 ? [] : [host]));
    /** @type {Map<number, number> | undefined} */
    this.lives = undefined;
  }

  /** The nodes whose deliveries count. That a host hosted its own packet is seen by any delivery.
   * @param {Row[]} requirements */
  wanted(requirements) {
    const found = new Set(this.network.hosts.values()), hosts = new Set(found), { ids } = this.network;
    const asked = [null, ...requirements.filter((one) => one.to !== null).map((one) => one.to)];
    for (const stream of this.plan.stream) {
      const all = hosts.has(ids.get(stream.from) ?? -1) ? this.nodes : [];
      for (const to of asked) for (const node of this.receivers(stream, to) ?? all) found.add(node);
    }
    found.delete(-1);
    return found;
  }

  /** The receivers of a stream, or null for whichever host serves.
   * @param {Row} stream @param {any} to @returns {Set<number> | null} */
  receivers(stream, to) {
    const given = to ?? stream.to;
    if (given === "hosts") return null;
    const names = given === "all" ? [...this.network.ids.keys()] : [given].flat();
    return new Set(names.filter((name) => name !== stream.from && name !== this.case.failed).map((name) => this.network.ids.get(name) ?? -1));
  }

  /** The packets of a stream that are meant for somebody, each with at how many of its receivers it came.
   * @param {Row} stream @param {Set<number> | null} receivers @returns {[number, number][]} */
  arrived(stream, receivers) {
    const { came, hosts, hostMasks, network } = this, source = network.ids.get(stream.from) ?? -1, mask = receivers && maskOf(came, receivers);
    /** @type {[number, number][]} */
    const found = [];
    for (const packet of came.streams.get(streamKey(source, stream.stream)) ?? []) {
      // What its source hosts itself is meant for nobody.
      if (!mask && isAnywhere(came, packet) && hosts[came.rank[packet]] === source) continue;
      found.push([packet, countAt(came, packet, mask ?? hostMasks[came.rank[packet]])]);
    }
    return found;
  }

  /** The part of the packets that came in time, or at all without a deadline; and of all packets the latencies, each with how many deliveries had it.
   * @param {Row} stream @param {Set<number> | null} receivers @param {number | null} deadline */
  share(stream, receivers, deadline) {
    const { came, network } = this, latest = network.frames * network.frame - (deadline ?? WAITING_FRAMES * network.frame) + LITTLE;
    const ours = this.arrived(stream, receivers), late = (/** @type {number} */ packet) => came.seconds[packet] - came.put[packet];
    const due = ours.filter(([packet]) => came.put[packet] <= latest && came.put[packet] >= this.case.seconds);
    const arrived = due.reduce((sum, [packet, count]) => sum + (deadline === null || late(packet) <= deadline + LITTLE ? count : 0), 0);
    return {
      value: due.length ? arrived / (due.length * (receivers ? receivers.size : 1)) : null, packets: due.length,
      latencies: ours.filter(([, count]) => count).map(([packet, count]) => /** @type {[number, number]} */ ([late(packet), count])),
    };
  }

  /** How long nothing arrived after the failure.
   * @param {Row} stream @param {Set<number> | null} receivers @returns {[number | null, number]} */
  outage(stream, receivers) {
    const { came, network } = this, failure = this.case.seconds, ours = this.arrived(stream, receivers);
    const puts = ours.map(([packet]) => came.put[packet]).filter((seconds) => seconds >= failure);
    if (!puts.length) return [null, 0];
    const start = Math.max(failure, puts.reduce((least, one) => Math.min(least, one), Infinity)), end = network.frames * network.frame;
    const after = ours.filter(([packet, count]) => count && came.seconds[packet] >= start).map(([packet]) => packet);
    const first = (/** @type {number[]} */ packets) => packets.reduce((least, packet) => Math.min(least, came.seconds[packet]), Infinity);
    const masks = receivers ? [...receivers].map((node) => maskOf(came, [node])) : [];
    const firsts = receivers ? masks.map((mask) => first(after.filter((packet) => countAt(came, packet, mask)))) : [first(after)];
    return [Math.max(...firsts.map((one) => (one === Infinity ? end : one))) - start, 0];
  }

  /** The first frames of the run, and what radios cost in them.
   * @param {number} count */
  begun(count) {
    const frames = Math.min(count, this.network.frames);
    const made = networkOf({ ...this.prepared, frames }, this.seed);
    return { network: made, costs: costsOf(this.run(["outcome", String(this.seed)], made.text)) };
  }

  /** In how many of the first frames each node searched for a host.
   * @param {number} count @returns {(node: number) => number} */
  scanned(count) {
    const costs = count > 0 ? this.begun(count).costs : new Map();
    return (node) => costs.get(node)?.scanned ?? 0;
  }

  /** How long each node searched until it was a member, in seconds after it was switched on first. One that did not join in time is watched longer.
   * @param {number} wanted @returns {Map<number, number>} */
  joined(wanted) {
    const { network } = this, frames = Math.ceil(wanted / network.frame);
    /** @type {Map<number, number>} */
    const firsts = new Map();
    for (const line of network.script) if (line.kind === "on" && !firsts.has(line.node)) firsts.set(line.node, line.frame);
    const last = Math.max(0, ...firsts.values()) + frames, searched = this.scanned(last);
    const isLate = (/** @type {number} */ node) => searched(node) >= last - (firsts.get(node) ?? 0);
    const longer = [...firsts.keys()].some(isLate) ? this.scanned(last + (WATCHED - 1) * frames) : searched;
    return new Map([...this.nodes].map((node) => [node, firsts.has(node) ? (isLate(node) ? longer : searched)(node) * network.frame : Infinity]));
  }

  /** How long after the failure each node was a member again, in seconds: 0 where it did not search for a host, else also the time in which it does
   * not notice that its host is gone.
   * @param {number} wanted @returns {Map<number, number>} */
  back(wanted) {
    const { network } = this, begin = frameOf(this.case.seconds, network.frame);
    const before = this.scanned(begin), after = this.scanned(begin + GAP + WATCHED * Math.ceil(wanted / network.frame));
    return new Map([...this.nodes].map((node) => {
      const count = after(node) - before(node);
      return [node, count ? (GAP + count) * network.frame : 0];
    }));
  }

  /** How long each node had power, transmitted and was on, in seconds.
   * @param {Network} network @param {Came["costs"]} costs */
  spent(network, costs) {
    const powered = new Map(), since = new Map();
    const add = (/** @type {number} */ node, /** @type {number} */ end) => powered.set(
      node, (powered.get(node) ?? 0) + (end - since.get(node)) * network.frame,
    );
    for (const line of network.script) {
      if (line.kind === "on" && !since.has(line.node)) since.set(line.node, line.frame);
      else if (line.kind === "off" && since.has(line.node)) {
        add(line.node, line.frame);
        since.delete(line.node);
      }
    }
    for (const node of since.keys()) add(node, network.frames);
    return new Map([...costs].map(([node, cost]) => [node, [powered.get(node) ?? 0, cost.transmit, cost.on + cost.scanned * network.frame]]));
  }

  /** How many years the battery of each node lasts, if all its time is as that after its start.
   * @returns {Map<number, number>} */
  years() {
    const { network, plan } = this;
    const count = Math.min(Math.floor(network.frames / 2), Math.max(START_FRAMES, Math.floor(START_PART * network.frames)));
    const early = count ? this.begun(count) : null;
    const whole = this.spent(network, this.came.costs), start = early ? this.spent(early.network, early.costs) : new Map();
    const { receive_ma: receive, transmit_ma: transmit, sleep_ma: sleep } = plan.battery;
    const capacities = new Map(plan.node.map((node) => [network.ids.get(node.name) ?? -1, capacityOf(plan, node, this.capacities)]));
    return new Map([...whole].map(([node, [allPowered, allSent, allOn]]) => {
      const [powered, sent, on] = (start.get(node) ?? [0, 0, 0]).map(
        (/** @type {number} */ one, /** @type {number} */ place) => [allPowered, allSent, allOn][place] - one
      );
      const current = (sent * (transmit ?? 17.4) + Math.max(0, on - sent) * (receive ?? 18.8) + (powered - on) * (sleep ?? 0)) / powered;
      const capacity = capacities.get(node) ?? null;
      return [node, capacity !== null && current > 0 ? capacity / current / HOURS_A_YEAR : Infinity];
    }));
  }

  /** @param {Row} requirement @returns {Values} */
  values(requirement) {
    const named = (
      /** @type {Map<number, number>} */ values
    ) => Object.fromEntries(nodesFor(this.plan, requirement).filter((node) => node.name !== this.case.failed)
      .map((node) => [node.name, /** @type {[number, number]} */ ([values.get(this.network.ids.get(node.name) ?? -1) ?? Infinity, 0])]));
    if (requirement.joined !== null) return named(this.case.failed ? this.back(requirement.joined) : this.joined(requirement.joined));
    if (requirement.years !== null) return named((this.lives ??= this.years()));
    /** @type {Values} */
    const found = {};
    for (const stream of streamsOf(this.plan, requirement)) {
      const receivers = this.receivers(stream, requirement.to);
      if (stream.from === this.case.failed || (receivers && !receivers.size)) continue;
      if (requirement.outage !== null) found[stream.name] = this.outage(stream, receivers);
      else {
        const { value, packets } = this.share(stream, receivers, requirement.share === null ? null : requirement.deadline ?? stream.deadline);
        found[stream.name] = [value, packets];
      }
    }
    return found;
  }
}

/** @param {[number, number][]} late @returns {Late} */
function lateOf(late) {
  late.sort(([one], [other]) => one - other);
  let sum = 0;
  return { seconds: Float64Array.from(late, ([seconds]) => seconds), counts: Uint32Array.from(late, ([, count]) => (sum += count)) };
}

/**
 * What is measured of a seed in a case, for these requirements.
 * @param {Prepared} prepared of the plan in the case
 * @param {number} seed
 * @param {Case} one
 * @param {Row[]} requirements
 * @param {Run} run
 * @param {Record<string, number>} capacities
 * @returns {Draw}
 */
export function drawnOf(prepared, seed, one, requirements, run, capacities) {
  const drawn = new Drawn(prepared, seed, one, run, capacities, requirements);
  /** @type {Draw} */
  const found = { seed, streams: {}, latencies: {}, years: {}, joined: {}, requirements: [] };
  if (!one.failed) {
    for (const stream of prepared.plan.stream) {
      const { value, packets, latencies } = drawn.share(stream, drawn.receivers(stream, null), stream.deadline);
      found.streams[stream.name] = [value, packets];
      found.latencies[stream.name] = lateOf(latencies);
    }
    drawn.lives = drawn.years();
    for (const [name, id] of drawn.network.ids) {
      found.years[name] = drawn.lives.get(id) ?? Infinity;
      found.joined[name] = (drawn.came.costs.get(id)?.scanned ?? 0) * drawn.network.frame;
    }
  }
  found.requirements = requirements.map((requirement) => drawn.values(requirement));
  return found;
}
