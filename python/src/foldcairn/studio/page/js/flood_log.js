// The floods of a log, step by step: who transmitted, and who received from whom. Tested, not proved.

/** @typedef {{ step: number, start: number, senders: number[], heard: [number, number][] }} Step ids; heard as from and to */
/**
 * One flood: `node`, `stream` and `number` are those of its packet, where it has them, and `start` is in seconds.
 * @typedef {{ frame: number, rank: number, slot: number, kind: string, node: number, stream: number, number: number, start: number, steps: Step[] }} Flood
 */

const TICKS = 64_000_000;
const KINDS = /** @type {Record<string, string>} */ ({ "01": "schedule", "02": "data", "03": "request", "04": "schedule" });

/** @param {string} hex @param {number} place of a byte */
function byteAt(hex, place) {
  return parseInt(hex.slice(2 * place, 2 * place + 2), 16);
}

/**
 * The floods of the output of `log`, in the order in which they begin.
 * @param {string} log
 * @param {number} frame the length of a frame in seconds
 * @returns {Flood[]}
 */
export function floodsOf(log, frame) {
  /** @type {Map<string, Flood>} */
  const found = new Map();
  for (let at = 0, end = 0; at < log.length; at = end + 1) {
    end = log.indexOf("\n", at);
    if (end < 0) end = log.length;
    const isSent = log.startsWith("sent ", at);
    if (!isSent && !log.startsWith("heard ", at)) continue;
    const words = log.slice(at, end).split(" ");
    const start = Number(words[isSent ? 3 : 4]), hex = words[isSent ? 5 : 6], rank = Number(words[1]);
    const place = Math.floor(start / (frame * TICKS)), slot = byteAt(hex, 1), kind = KINDS[hex.slice(0, 2)] ?? "other";
    const key = `${place} ${rank} ${slot}`;
    let flood = found.get(key);
    if (!flood) {
      const isOfNode = kind === "data" || kind === "request";
      flood = { frame: place, rank, slot, kind, node: isOfNode ? byteAt(hex, 3) : -1, stream: isOfNode ? byteAt(hex, 5) : -1,
        number: kind === "data" ? byteAt(hex, 6) * 256 + byteAt(hex, 7) : -1, start: start / TICKS, steps: [] };
      found.set(key, flood);
    }
    const counter = byteAt(hex, 2);
    const step = (flood.steps[counter] ??= { step: counter, start: start / TICKS, senders: [], heard: [] });
    if (isSent) step.senders.push(Number(words[2]));
    else step.heard.push([Number(words[3]), Number(words[2])]);
  }
  return [...found.values()].map((flood) => ({ ...flood, steps: flood.steps.filter(Boolean) })).sort((one, other) => one.start - other.start);
}

/**
 * Which links lost something in a step: those from a node that transmits to one that has not the packet yet, and received nothing.
 * @param {Flood} flood
 * @param {number} place of the step
 * @param {[number, number][]} links
 * @returns {[number, number][]}
 */
export function lostIn(flood, place, links) {
  const has = new Set(flood.steps.slice(0, place + 1).flatMap((step) => [...step.senders, ...step.heard.map(([, to]) => to)]));
  const senders = new Set(flood.steps[place].senders);
  return links.filter(([from, to]) => senders.has(from) && !has.has(to));
}

/** Who has the packet after the last step, without who began.
 * @param {Flood} flood */
export function reachedBy(flood) {
  const first = new Set(flood.steps[0]?.senders ?? []);
  return new Set(flood.steps.flatMap((step) => step.heard.map(([, to]) => to)).filter((node) => !first.has(node)));
}
