// The links of a plan by their mean ratios, for the map: while a node is moved those of that node alone are worked out. Tested, not proved.
import { longestPacket, nodesOf } from "./network.js";
import { PlanError } from "./plan_words.js";
import { linksOf, ratiosOf } from "./propagation.js";

/** @typedef {import("./types.js").Plan} Plan */
/** @typedef {import("./propagation.js").Ratios} Ratios */
/** @typedef {{ from: string, to: string, least: number, most: number }} Pair both directions, by the worse and the better ratio */

export class MeanLinks {
  constructor() {
    /** @type {Plan | null} */
    this.plan = null;
    /** @type {Ratios[]} */
    this.links = [];
    /** @type {Pair[]} */
    this.pairs = [];
    // Another one where other nodes are moved than before, or more is otherwise than the places of nodes.
    this.version = 0;
    this.moved = "";
  }

  /** Takes a plan; its links are none where it does not say them.
   * @param {Plan} plan */
  take(plan) {
    if (plan === this.plan) return;
    const moved = this.movedIn(plan);
    try {
      if (moved) this.move(plan, moved);
      else this.renew(linksIn(plan, null), plan);
    } catch (error) {
      if (!(error instanceof PlanError)) throw error;
      this.renew([], null);
    }
  }

  /** @param {Ratios[]} links @param {Plan | null} plan */
  renew(links, plan) {
    this.version += 1;
    this.plan = plan;
    this.links = links;
    this.pairs = pairsOf(links);
  }

  /** @param {Plan} plan @param {Set<string>} moved */
  move(plan, moved) {
    const { from, unknown } = plan.losses, names = [...moved].join("\n");
    this.plan = plan;
    if (names !== this.moved) this.version += 1;
    this.moved = names;
    // Of what was measured nothing depends on places.
    if (!moved.size || ((from === "survey" || from === "none") && unknown !== "positions")) return;
    const isOld = (/** @type {{ from: string, to: string }} */ link) => !moved.has(link.from) && !moved.has(link.to);
    const found = linksIn(plan, moved).filter((link) => !isOld(link));
    this.links = [...this.links.filter(isOld), ...found];
    this.pairs = [...this.pairs.filter(isOld), ...pairsOf(found)];
  }

  /** The nodes that are elsewhere than in the plan before, if nothing else is otherwise; else null.
   * @param {Plan} plan */
  movedIn(plan) {
    const old = this.plan;
    const tables = /** @type {(keyof Plan)[]} */ (["losses", "link", "floor", "stream", "plan"]);
    if (!old || old.node.length !== plan.node.length || plan.losses.from === "both" || tables.some((name) => old[name] !== plan[name])) return null;
    const moved = new Set();
    for (const [place, node] of plan.node.entries()) {
      const before = old.node[place];
      if (before === node) continue;
      if (before.name !== node.name || before.id !== node.id || before.candidate !== node.candidate) return null;
      moved.add(node.name);
    }
    return moved;
  }
}

/** The links of a plan by their mean ratios, or of some nodes.
 * @param {Plan} plan @param {Set<string> | null} only */
function linksIn(plan, only) {
  return ratiosOf(linksOf(plan, nodesOf(plan).map((node) => node.name), longestPacket(plan), only), null, true);
}

/** @param {Ratios[]} links @returns {Pair[]} */
function pairsOf(links) {
  const mean = (/** @type {Ratios} */ { pieces }) => (pieces.length === 1 ? pieces[0][1] : pieces.reduce((sum, [, ratio]) => sum + ratio, 0) / pieces.length);
  // By one name and then by the other: names of pairs would have to be put together each time.
  /** @type {Map<string, Map<string, number>>} */
  const means = new Map();
  for (const link of links) {
    let ours = means.get(link.from);
    if (!ours) means.set(link.from, (ours = new Map()));
    ours.set(link.to, mean(link));
  }
  const found = [];
  for (const [from, ours] of means) {
    for (const [to, there] of ours) {
      const back = means.get(to)?.get(from);
      if (back === undefined || from < to) found.push({ from, to, least: Math.min(there, back ?? 0), most: Math.max(there, back ?? 0) });
    }
  }
  return found;
}
