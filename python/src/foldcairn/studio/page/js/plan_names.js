// Ids of nodes, and numbers and names of streams, where the file leaves them out. Tested, not proved.
import { PlanError, byName } from "./plan_words.js";

/** @typedef {import("./types.js").Plan} Plan */
/** @typedef {import("./types.js").Row} Row */

const IDS_MOST = 200, STREAMS_MOST = 4;

/**
 * The plan with ids, numbers and names in the natural order of names. Throws `PlanError` where two are the same or there are too many.
 * @param {Plan} plan
 * @param {string} called
 * @returns {Plan}
 */
export function numbered(plan, called = "the plan") {
  const node = withIds(plan.node, called);
  const stream = withNumbers(plan.stream, called).map((one) => (one.name ? one : { ...one, name: one.stream === 0 ? one.from : `${one.from}/${one.stream}` }));
  unlike(stream, "stream", called);
  return { ...plan, node, stream };
}

/** @param {Row[]} rows @param {string} table @param {string} called */
function unlike(rows, table, called) {
  const seen = new Set();
  for (const row of rows) {
    if (seen.has(row.name)) throw new PlanError(`${called}, [[${table}]]`, `two have the name ${row.name}; names have to differ`);
    seen.add(row.name);
  }
}

/** @param {Row[]} nodes @param {string} called */
function withIds(nodes, called) {
  unlike(nodes, "node", called);
  const taken = new Map();
  for (const node of nodes.filter((one) => one.id !== null)) {
    if (taken.has(node.id)) {
      throw new PlanError(`${called}, [[node]]`, `\`id\` of ${node.name} is ${node.id}, which ${taken.get(node.id)} has too; ids have to differ`);
    }
    taken.set(node.id, node.name);
  }
  const lacking = nodes.filter((one) => one.id === null).sort((one, other) => Number(one.candidate) - Number(other.candidate) || byName(one.name, other.name));
  const given = new Map();
  let next = 1;
  for (const node of lacking) {
    while (taken.has(next)) next += 1;
    if (next > IDS_MOST) throw new PlanError(`${called}, [[node]]`, `all ids up to ${IDS_MOST} are taken, and a plan has no more nodes`);
    given.set(node.name, next++);
  }
  return nodes.map((node) => (node.id === null ? { ...node, id: given.get(node.name) } : node));
}

/** @param {Row[]} streams @param {string} called */
function withNumbers(streams, called) {
  /** @type {Map<string, Row[]>} */
  const bySource = new Map();
  for (const one of streams) bySource.set(one.from, [...(bySource.get(one.from) ?? []), one]);
  const given = new Map();
  for (const [source, ours] of bySource) {
    const taken = new Set();
    for (const one of ours.filter((stream) => stream.stream !== null)) {
      if (taken.has(one.stream)) throw new PlanError(`${called}, [[stream]]`, `two streams of ${source} have the number ${one.stream}`);
      taken.add(one.stream);
    }
    const lacking = ours.filter((stream) => stream.stream === null);
    const unnamed = lacking.filter((stream) => !stream.name);
    if (lacking.length > 1 && unnamed.length) {
      throw new PlanError(`${called}, [[stream]]`, `${source} has ${ours.length} streams, and one has neither a \`name\` nor a number, \`stream\``);
    }
    for (const one of [...lacking].sort((left, right) => byName(left.name, right.name))) {
      const free = [0, 1, 2, 3].find((number) => !taken.has(number));
      if (free === undefined) throw new PlanError(`${called}, [[stream]]`, `${source} has ${ours.length} streams, and a node has at most ${STREAMS_MOST}`);
      taken.add(free);
      given.set(one, free);
    }
  }
  return streams.map((one) => (one.stream === null ? { ...one, stream: given.get(one) } : one));
}
