// Bounds on the plan's hosts and nodes that the proved program finds to hold for every seed, in words. Tested, not proved.
import { h } from "./dom.js";

/** @typedef {{ text: string, names: [number, string][], frame: number }} Told what `bounds` wrote, the names of ids, and the seconds of a frame */

const REASONS = /** @type {Record<string, string>} */ ({
  power: "a host or the node is switched in a way that the bound does not allow", boots: "the host does not boot", rounds: "the run ends before",
  loss: "a line loses something in the first round", ratio: "a link may lose something in the first round",
  reach: "no chain of 12 links leads to it along nodes that are on",
});
/** @typedef {{ since: number, from: number, frames: number }} Held seconds from which it is counted and from which on it holds, and frames */
// What a bound says of its node where it holds, and what is without a bound where it is open. Others are told by their names.
const KNOWN = /** @type {Record<string, { holds: (held: Held) => string, open: string }>} */ ({
  first: {
    holds: ({ since, from, frames }) => `has its first round from ${from} s on, ${frames} frames after it boots at ${since} s: whatever is lost`,
    open: "its first round",
  },
  failover: {
    holds: ({ since, from, frames }) => `hosts from ${from} s on, ${frames} frames after the last host before it goes off at ${since} s: whatever is lost`,
    open: "its takeover",
  },
  joined: {
    holds: ({ since, from, frames }) => `is a member from ${from} s on, ${frames} frames after the host boots at ${since} s, as long as nothing is lost`,
    open: "its membership",
  },
  scanning: {
    holds: ({ from, frames }) => `scans from ${from} s on for at most ${frames} frames for each round with losses, up to three of them in a row`,
    open: "its scanning after rounds with losses",
  },
});

/**
 * A line `holds NAME NODE FRAME FROM FRAMES`, or `open NAME NODE FRAME REASON LINE`, in words. Of a bound that is not known here, its name and what
 * follows it are told as they are.
 * @param {Told} told @param {string} line @returns {string}
 */
export function boundText({ names, frame }, line) {
  const [verdict, bound = "", id = "", ...rest] = line.split(" "), [since, from, frames] = rest.map(Number);
  const name = new Map(names).get(Number(id)) ?? `node ${id}`, known = Object.hasOwn(KNOWN, bound) ? KNOWN[bound] : null;
  const called = known ? known.open : `the bound “${bound}”`, reason = rest.find((word) => Object.hasOwn(REASONS, word));
  if (verdict !== "holds") return `${name}: ${called} ${known ? "has no bound" : "is open"}, since ${reason ? REASONS[reason] : "a premise is not met"}.`;
  if (!known || !Number.isFinite(frames)) return `${name}: ${called} holds${rest.length ? ` (${rest.join(" ")})` : ""}.`;
  return `${name} ${known.holds({ since: since * frame, from: from * frame, frames })}.`;
}

/** The part of the answers with bounds, or null where the program told none.
 * @param {Told | null} told */
export function boundsView(told) {
  const lines = told ? told.text.split("\n").filter(Boolean) : [];
  if (!told || !lines.length) return null;
  const kinds = lines.map((line) => (line.startsWith("holds") ? "good" : "quiet"));
  return h(
    "section", { class: "bounds" }, h("h2", {}, "Bounds for every seed"),
    h("ul", {}, lines.map((line, place) => h("li", { class: kinds[place] }, boundText(told, line)))),
  );
}
