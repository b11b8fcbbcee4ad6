// The panel of the plan: what is selected, and the tables of the file as fields. Tested, not proved.
import { asked } from "./answers.js";
import { button, h } from "./dom.js";
import { renamed, withHost, withRow, withValue, without, withoutRow } from "./edits.js";
import { field } from "./form.js";
import { kindOf } from "./map.js";

/** @typedef {import("./types.js").Plan} Plan */
/** @typedef {import("./types.js").Row} Row */
/** @typedef {import("./types.js").Schema} Schema */
/** @typedef {{ schema: Schema, change: (plan: Plan, done: string, selected?: string[]) => void, failed: (message: string) => void }} Means */

// Fields that are shown at once; the others are behind "more".
const FIRST = /** @type {Record<string, string[]>} */ ({
  node: [
    "name", "x", "y", "floor", "powered", "candidate", "tags",
  ], stream: ["to", "every", "deadline", "sporadic"], plan: ["hours", "seeds", "profile", "sends", "contend"],
  losses: ["from", "preset", "exponent", "transmit_dbm"], requirement: [
    "name", "share", "deadline", "tag", "when", "in",
  ], event: ["name", "node", "at", "for", "off"],
  floor: ["extent", "height"], battery: ["receive_ma", "transmit_ma", "sleep_ma"], link: ["from", "to", "ratio", "rssi", "both"],
});

/** The fields of a row.
 * @param {Means} means @param {Plan} plan @param {string} table @param {number} place @param {string[]} [left] keys that have no field */
export function rowFields(means, plan, table, place, left = []) {
  const keys = (means.schema.rows[table] ?? means.schema.single[table]).filter((key) => !left.includes(key.name));
  const held = plan[/** @type {"node"} */ (table)], row = Array.isArray(held) ? held[place] : /** @type {Row} */ (held);
  const one = (/** @type {import("./types.js").Key} */ key) => field(key, row[key.name], `${table}-${place}-${key.name}`, (value) => {
    const next = table === "node" && key.name === "name" ? renamed(plan, row.name, value) : withValue(plan, table, place, key.name, value);
    means.change(next, `${key.name} of ${row.name || row.from || table}`, table === "node" && key.name === "name" ? [value] : undefined);
  }, means.failed);
  const first = keys.filter((key) => FIRST[table].includes(key.name)), rest = keys.filter((key) => !FIRST[table].includes(key.name));
  const isUsed = rest.some((key) => JSON.stringify(row[key.name]) !== JSON.stringify(key.default) && !["id", "stream", "name", "from"].includes(key.name));
  return h(
    "div", { class: "fields" }, first.map(one),
    rest.length ? h("details", { open: isUsed, class: "more" }, h("summary", {}, "more"), h("div", { class: "fields" }, rest.map(one))) : null,
  );
}

/** What is selected.
 * @param {Means} means @param {Plan} plan @param {string[]} selected */
export function selectionView(means, plan, selected) {
  if (!selected.length) {
    return h(
      "section", {}, h("h2", {}, "Nothing is selected"),
      h("p", { class: "quiet" }, "Click a node, or draw a box with Shift held. Double-click the map to add a node."),
    );
  }
  const remove = button(
    selected.length === 1 ? "Delete node" : "Delete nodes", () => means.change(without(plan, selected), `${selected.join(", ")} deleted`, []),
    { class: "danger" },
  );
  if (selected.length > 1) return h("section", {}, h("h2", {}, `${selected.length} nodes`), h("p", {}, selected.join(", ")), remove);
  const [name] = selected, place = plan.node.findIndex((node) => node.name === name);
  const streams = plan.stream.map((stream, at) => ({ stream, at })).filter(({ stream }) => stream.from === name);
  const ranks = [...plan.host.map((_, rank) => rank), plan.host.length].filter(
    (rank) => rank < 4 && (rank < plan.host.length || !plan.host.some((host) => host.node === name))
  );
  const rank = plan.host.find((host) => host.node === name)?.rank ?? null;
  const list = /** @type {HTMLSelectElement} */ (h("select", {
    id: "host-rank", "data-key": "host-rank",
    onchange: () => means.change(withHost(means.schema, plan, name, list.value === "" ? null : Number(list.value)), `${name} as host`),
  },
    h("option", { value: "" }, "no host"), ranks.map((one) => h("option", { value: one }, one === 0 ? "host (rank 0)" : `backup (rank ${one})`))));
  list.value = rank === null ? "" : String(rank);
  return h("section", {}, h("h2", {}, `${name}`, h("span", { class: "quiet" }, ` ${kindOf(plan, plan.node[place])}`)),
    rowFields(means, plan, "node", place), h("div", { class: "field" }, h("label", { for: "host-rank" }, "serves as"), list),
    streams.map(({ stream, at }) => h("div", { class: "card" }, h("h3", {}, `Stream ${stream.name}`), rowFields(means, plan, "stream", at, ["from"]),
      button(`Delete stream ${stream.name}`, () => means.change(withoutRow(plan, "stream", at), `${stream.name} deleted`)))),
    h(
      "p", {},
      streams.length < 4 && !plan.node[place].candidate ? button(
        "Add a stream", () => means.change(withRow(means.schema, plan, "stream", newStream(plan, name)), `a stream of ${name}`),
      ) : null,
      remove,
    ));
}

/** @param {Plan} plan @param {string} from @returns {Row} */
function newStream(plan, from) {
  const taken = plan.stream.filter((one) => one.from === from).map((one) => one.stream);
  const stream = [0, 1, 2, 3].find((one) => !taken.includes(one)) ?? 3, names = new Set(plan.stream.map((one) => one.name));
  let name = stream === 0 ? from : `${from}/${stream}`;
  while (names.has(name)) name += "'";
  return { from, name, stream, to: "hosts", every: 30, deadline: 20 };
}

/** A table of rows, each to be opened.
 * @param {Means} means @param {Plan} plan @param {string} table @param {string} title @param {(row: Row, place: number) => string} called
 * @param {() => Row} made */
export function rowsView(means, plan, table, title, called, made) {
  const rows = plan[/** @type {"node"} */ (table)];
  return h("section", {}, h("h2", {}, title),
    rows.map((row, place) => h("details", { class: "card", "data-row": `${table}-${place}` }, h(
      "summary", { "data-key": `open-${table}-${place}` }, called(row, place),
    ), rowFields(means, plan, table, place),
      button(`Delete ${called(row, place)}`, () => means.change(withoutRow(plan, table, place), `${called(row, place)} deleted`)))),
    button(`Add to ${title.toLowerCase()}`, () => means.change(withRow(means.schema, plan, table, made()), `one more in ${title.toLowerCase()}`)));
}

/** The whole plan.
 * @param {Means} means @param {Plan} plan */
export function planView(means, plan) {
  const single = (/** @type {string} */ table, /** @type {string} */ title, /** @type {boolean} */ isOpen) => h(
    "details", { class: "card", open: isOpen, "data-row": table }, h("summary", {}, title), rowFields(means, plan, table, 0),
  );
  const free = (/** @type {string} */ base) => {
    const taken = new Set(plan.requirement.map((one) => one.name));
    let count = plan.requirement.length + 1;
    while (taken.has(`${base} ${count}`)) count += 1;
    return `${base} ${count}`;
  };
  return [
    single("plan", "Run and protocol", true),
    rowsView(
      means, plan, "requirement", "Requirements", (row) => `${row.name}: ${asked(row)}`,
      () => ({ name: free("Requirement"), share: 0.99, deadline: plan.stream.every((one) => one.deadline !== null) ? null : 30 }),
    ),
    rowsView(
      means, plan, "event", "What if", eventText,
      () => ({ node: (plan.host[0]?.node ?? plan.node[0]?.name) ?? null, at: Math.round((plan.plan.hours * 3600) / 3) }),
    ),
    rowsView(
      means, plan, "link", "Measured links", linkText,
      () => ({ from: plan.node[0]?.name ?? "", to: plan.node[1]?.name ?? "", ratio: 0.9, both: true }),
    ),
    single("losses", "Radio and surroundings", false), single("floor", "Floor plan", false), single("battery", "Battery", false),
  ];
}

/** What an event does, in words.
 * @param {Row} event */
export function eventText(event) {
  const what = event.node ?? (event.link ? event.link.join(" and ") : event.area ? `area ${event.area.join(", ")}` : "nothing");
  const does = event.ratio !== null ? `links pass at most ${event.ratio}` : "off";
  const when = event.between ? `between ${event.between.join(" and ")} s` : `at ${event.at} s`;
  const name = event.name ? `${event.name}: ` : "", length = event.for !== null ? ` for ${event.for} s` : "";
  return `${name}${what} ${does} ${when}${length}${event.every !== null ? `, each ${event.every} s` : ""}`;
}

/** What was measured of a link.
 * @param {Row} row */
function linkText(row) {
  const counts = row.sent !== null ? `${row.received} of ${row.sent}` : row.rssi !== null ? `${row.rssi} dBm` : "not known";
  return `${row.from} to ${row.to}: ${row.ratio ?? counts}`;
}
