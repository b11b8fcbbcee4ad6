// Changes of a plan, each of which makes a new plan. Tested, not proved.
import { newRow } from "./plan_file.js";

/** @typedef {import("./types.js").Plan} Plan */
/** @typedef {import("./types.js").Row} Row */
/** @typedef {import("./types.js").Schema} Schema */

/** Nodes by a step elsewhere.
 * @param {Plan} plan @param {string[]} names @param {number} dx in metres @param {number} dy @returns {Plan} */
export function moved(plan, names, dx, dy) {
  const chosen = new Set(names);
  const round = (/** @type {number} */ value) => Math.round(value * 100) / 100;
  const within = (/** @type {number} */ value, /** @type {number} */ side) => {
    const box = plan.floor.extent;
    return box ? Math.min(box[side + 2], Math.max(box[side], value)) : value;
  };
  return { ...plan, node: plan.node.map((node) => (chosen.has(node.name) && node.x !== null
    ? { ...node, x: round(within(node.x + dx, 0)), y: round(within(node.y + dy, 1)) } : node)) };
}

/** A new node at a place.
 * @param {Schema} schema @param {Plan} plan @param {number} x @param {number} y @param {number} floor @returns {{ plan: Plan, name: string }} */
export function withNode(schema, plan, x, y, floor) {
  const names = new Set(plan.node.map((node) => node.name)), ids = new Set(plan.node.map((node) => node.id));
  let count = 1;
  while (names.has(`Node-${count}`)) count += 1;
  let id = 1;
  while (ids.has(id)) id += 1;
  if (id > 200) throw new RangeError("all ids up to 200 are taken, and a plan has no more nodes");
  const round = (/** @type {number} */ value) => Math.round(value * 100) / 100;
  const node = newRow(schema.rows.node, { name: `Node-${count}`, id, x: round(x), y: round(y), floor });
  return {
    plan: { ...plan, node: [...plan.node, node], host: plan.host.length ? plan.host : [newRow(schema.rows.host, { node: node.name })] },
    name: node.name,
  };
}

/** Without these nodes, and without what names them.
 * @param {Plan} plan @param {string[]} names @returns {Plan} */
export function without(plan, names) {
  const gone = new Set(names);
  const stays = (/** @type {any} */ value) => (Array.isArray(value) ? value.filter((one) => !gone.has(one)) : value);
  const hosts = [...plan.host].sort((one, other) => one.rank - other.rank).filter((host) => !gone.has(host.node));
  const stream = plan.stream.filter(
    (one) => !gone.has(one.from) && !gone.has(one.to) && [stays(one.to)].flat().length
  ).map((one) => /** @type {Row} */ ({ ...one, to: stays(one.to) }));
  const streams = new Set(stream.map((one) => one.name));
  const requirement = plan.requirement.map(
    (one) => /** @type {Row} */ ({ ...one, streams: one.streams.filter((/** @type {string} */ name) => streams.has(name)), nodes: stays(one.nodes) })
  )
    .filter((one, place) => !(plan.requirement[place].streams.length && !one.streams.length) && !gone.has(one.to) && !gone.has(one.nodes)
      && !(Array.isArray(one.nodes) && !one.nodes.length) && !gone.has(one.when.replace(/ fails$/, "")));
  return {
    ...plan, stream, requirement,
    node: plan.node.filter((node) => !gone.has(node.name)),
    link: plan.link.filter((link) => !gone.has(link.from) && !gone.has(link.to)),
    host: hosts.map((host, rank) => ({ ...host, rank })),
    event: plan.event.filter((event) => !gone.has(event.node) && !(event.link && event.link.some((/** @type {string} */ end) => gone.has(end)))),
  };
}

/** A node with another name, everywhere.
 * @param {Plan} plan @param {string} old @param {string} name @returns {Plan} */
export function renamed(plan, old, name) {
  const now = (/** @type {any} */ value) => (value === old ? name : Array.isArray(value) ? value.map((one) => (one === old ? name : one)) : value);
  const names = new Map(plan.stream.filter((one) => one.from === old && (one.name === old || one.name === `${old}/${one.stream}`))
    .map((one) => [one.name, one.name === old ? name : `${name}/${one.stream}`]));
  return {
    ...plan,
    node: plan.node.map((node) => ({ ...node, name: now(node.name) })),
    link: plan.link.map((link) => ({ ...link, from: now(link.from), to: now(link.to) })),
    stream: plan.stream.map((one) => ({ ...one, from: now(one.from), to: now(one.to), name: names.get(one.name) ?? one.name })),
    host: plan.host.map((host) => ({ ...host, node: now(host.node) })),
    event: plan.event.map((event) => ({ ...event, node: now(event.node), link: now(event.link) })),
    requirement: plan.requirement.map((one) => ({
      ...one, to: now(one.to), nodes: now(one.nodes), when: one.when === `${old} fails` ? `${name} fails` : one.when,
      streams: one.streams.map((/** @type {string} */ stream) => names.get(stream) ?? stream),
    })),
  };
}

/** A row of a table with another value.
 * @param {Plan} plan @param {string} table @param {number} place @param {string} key @param {any} value @returns {Plan} */
export function withValue(plan, table, place, key, value) {
  const held = plan[/** @type {"node"} */ (table)];
  if (!Array.isArray(held)) return { ...plan, [table]: { .../** @type {any} */ (held), [key]: value } };
  return { ...plan, [table]: held.map((row, at) => (at === place ? { ...row, [key]: value } : row)) };
}

/** A node as host of a rank, or as none.
 * @param {Schema} schema @param {Plan} plan @param {string} name @param {number | null} rank @returns {Plan} */
export function withHost(schema, plan, name, rank) {
  const others = [...plan.host].sort((one, other) => one.rank - other.rank).filter((host) => host.node !== name);
  if (rank !== null) others.splice(rank, 0, newRow(schema.rows.host, { node: name }));
  return { ...plan, host: others.slice(0, 4).map((host, place) => ({ ...host, rank: place })) };
}

/** A plan with a new row.
 * @param {Schema} schema @param {Plan} plan @param {string} table @param {Row} given @returns {Plan} */
export function withRow(schema, plan, table, given) {
  return { ...plan, [table]: [...plan[/** @type {"node"} */ (table)], newRow(schema.rows[table], given)] };
}

/** A plan without a row.
 * @param {Plan} plan @param {string} table @param {number} place @returns {Plan} */
export function withoutRow(plan, table, place) {
  return { ...plan, [table]: plan[/** @type {"node"} */ (table)].filter((_, at) => at !== place) };
}
