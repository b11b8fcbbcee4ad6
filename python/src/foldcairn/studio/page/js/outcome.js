// What came of one draw: the packets that were put, and their deliveries, by the output of `outcome`. Tested, not proved.
import { Deliveries } from "./deliveries.js";

/** @typedef {import("./network.js").Network} Network */

/**
 * Packets, without those that keep a stream alive. Of each: when it was put, and when the slot ended in which it came, in a round of which rank and
 * at which nodes. A packet is sent once, so whoever delivers it does so in that slot. `at` has two words of bits a packet, one bit a node by `bits`.
 * @typedef {{ streams: Map<string, number[]>, put: number[], seconds: Float64Array, rank: Uint8Array, at: Uint32Array, bits: Uint8Array,
 *   costs: Map<number, Cost> }} Came
 */
/** @typedef {{ transmit: number, on: number, scanned: number }} Cost how long a radio transmitted and was on, in seconds, and searched, in frames */

const TICKS = 64_000_000, ROUND_SECONDS = 1, NEWLINE = 10;

/** A stream as one text.
 * @param {number} node @param {number} stream */
export function streamKey(node, stream) {
  return `${node}.${stream}`;
}

/** @param {number} source @param {number} boot @param {number} stream @param {number} number */
function codeOf(source, boot, stream, number) {
  return ((source * 256 + boot) * 4 + stream) * 65_536 + number;
}

/** Some nodes as two words of bits.
 * @param {Came} came @param {Iterable<number>} nodes @returns {[number, number]} */
export function maskOf(came, nodes) {
  /** @type {[number, number]} */
  const mask = [0, 0];
  for (const node of nodes) if (node >= 0) mask[came.bits[node] >> 5] |= 1 << (came.bits[node] & 31);
  return mask;
}

/** How many of some nodes delivered a packet.
 * @param {Came} came @param {number} packet @param {[number, number]} mask of the nodes */
export function countAt(came, packet, mask) {
  return onesOf(came.at[2 * packet] & mask[0]) + onesOf(came.at[2 * packet + 1] & mask[1]);
}

/** Whether a packet came at any of the nodes that were asked for.
 * @param {Came} came @param {number} packet */
export function isAnywhere(came, packet) {
  return came.at[2 * packet] !== 0 || came.at[2 * packet + 1] !== 0;
}

/** @param {number} word of 32 bits */
function onesOf(word) {
  const pairs = word - ((word >>> 1) & 0x55555555), fours = (pairs & 0x33333333) + ((pairs >>> 2) & 0x33333333);
  return Math.imul((fours + (fours >>> 4)) & 0x0f0f0f0f, 0x01010101) >>> 24;
}

/** What radios cost.
 * @param {Uint8Array} output @returns {Came["costs"]} */
export function costsOf(output) {
  return restOf(output).costs;
}

/**
 * What came, at these nodes.
 * @param {Network} network
 * @param {Uint8Array} output
 * @param {number} profile
 * @param {Set<number>} nodes
 * @returns {Came}
 */
export function cameOf(network, output, profile, nodes) {
  const { drops, costs } = restOf(output);
  const { streams, put, places } = packetsOf(network, drops);
  const bits = new Uint8Array(256), wanted = new Uint8Array(256);
  [...network.ids.values()].forEach((node, place) => (bits[node] = place));
  for (const node of nodes) wanted[node] = 1;
  /** @type {Came} */
  const came = { streams, put, seconds: new Float64Array(put.length), rank: new Uint8Array(put.length), at: new Uint32Array(2 * put.length), bits, costs };
  const slotSeconds = profile === 1 ? 0.033 : 0.056, lines = new Deliveries(output), numbers = new Float64Array(8);
  let place = -1;
  while (lines.isMore) {
    let node = lines.again();
    if (node < 0) {
      lines.line(numbers);
      place = placeOf(places, numbers);
      node = numbers[3];
      if (place >= 0) {
        came.seconds[place] = numbers[0] * network.frame + ROUND_SECONDS + (numbers[2] + 1) * slotSeconds + network.late;
        came.rank[place] = numbers[1];
      }
    }
    if (place >= 0 && wanted[node]) came.at[2 * place + (bits[node] >> 5)] |= 1 << (bits[node] & 31);
  }
  return came;
}

/** The place of the packet of a line, or -1 where it does not count.
 * @param {Map<number, number>} places @param {Float64Array} numbers of the line */
function placeOf(places, numbers) {
  const found = places.get(codeOf(numbers[4], numbers[5], numbers[6], numbers[7]));
  if (found === undefined) throw new Error("the output has a packet that the plan has not");
  return found;
}

/** The lines of drops and costs, which come last.
 * @param {Uint8Array} output */
function restOf(output) {
  let end = output.length, start = end;
  /** @type {string[]} */
  const lines = [];
  const decoder = new TextDecoder();
  while (start > 0) {
    start = output.lastIndexOf(NEWLINE, end - 2) + 1;
    const line = decoder.decode(output.subarray(start, end));
    if (line.startsWith("deliver ")) break;
    lines.push(line);
    end = start;
  }
  /** @type {Map<string, number>} */
  const drops = new Map();
  /** @type {Map<number, Cost>} */
  const costs = new Map();
  for (const line of lines) {
    const [kind, ...words] = line.trim().split(" ");
    const numbers = words.map(Number);
    if (kind === "cost") costs.set(numbers[0], { transmit: numbers[1] / TICKS, on: numbers[2] / TICKS, scanned: numbers[3] });
    else if (kind === "drop") drops.set(numbers.slice(0, 3).join(" "), (drops.get(numbers.slice(0, 3).join(" ")) ?? 0) + 1);
  }
  return { drops, costs };
}

/** @param {Network} network @param {Map<string, number>} drops */
function packetsOf(network, drops) {
  const left = droppedOf(network, drops);
  /** @type {Map<string, number[]>} */
  const streams = new Map();
  /** @type {number[]} */
  const put = [];
  /** @type {Map<number, number>} */
  const places = new Map();
  const boots = new Int32Array(256), isOn = new Uint8Array(256);
  /** @type {Map<string, number>} */
  const counts = new Map();
  for (const line of network.script) {
    if (line.kind === "put") {
      const key = streamKey(line.node, line.stream);
      if (!left.has(line)) {
        const number = counts.get(key) ?? 0;
        counts.set(key, number + 1);
        places.set(codeOf(line.node, boots[line.node], line.stream, number), line.isPacket ? put.length : -1);
      }
      if (line.isPacket) {
        const ours = streams.get(key) ?? [];
        streams.set(key, ours);
        ours.push(put.length);
        put.push(line.seconds);
      }
    } else if (line.kind === "on" && !isOn[line.node]) {
      isOn[line.node] = 1;
      boots[line.node] += 1;
      for (let stream = 0; stream < 4; stream++) counts.delete(streamKey(line.node, stream));
    } else if (line.kind === "off") isOn[line.node] = 0;
  }
  return { streams, put, places };
}

/** Which puts were dropped: those before their node is on and their stream requested, else of a frame the last.
 * @param {Network} network @param {Map<string, number>} drops */
function droppedOf(network, drops) {
  const found = new Set(), asked = new Set(), isOn = new Uint8Array(256);
  if (!drops.size) return found;
  const counts = new Map(drops);
  /** @type {Map<string, import("./network.js").Line[]>} */
  const waiting = new Map();
  for (const line of network.script) {
    const key = streamKey(line.node, line.stream), where = `${line.frame} ${line.node} ${line.stream}`;
    if (line.kind === "on") isOn[line.node] = 1;
    else if (line.kind === "off") {
      isOn[line.node] = 0;
      for (let stream = 0; stream < 4; stream++) asked.delete(streamKey(line.node, stream));
    } else if (line.kind === "stream" && isOn[line.node]) asked.add(key);
    else if (line.kind === "put" && counts.get(where)) {
      if (isOn[line.node] && asked.has(key)) waiting.set(where, [...(waiting.get(where) ?? []), line]);
      else {
        counts.set(where, (counts.get(where) ?? 0) - 1);
        found.add(line);
      }
    }
  }
  for (const [where, lines] of waiting) {
    const count = counts.get(where) ?? 0;
    for (const line of count ? lines.slice(-count) : []) found.add(line);
  }
  return found;
}
