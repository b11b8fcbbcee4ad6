// Writes plan files: in the text that the plan was read from, with its comments, where the changes fit into it; else anew, as TOML with
// all tables in it. Tested, not proved.
import { FILES, isUnknownMeasure, readPlan, sourceOf } from "./plan_file.js";
import { takenValue } from "./plan_values.js";
import { PlanError } from "./plan_words.js";
import { NotInPlace, TomlEdit } from "./toml_edit.js";
import { TomlError } from "./toml_read.js";
import { writeToml } from "./toml_write.js";

/** @typedef {import("./types.js").Key} Key */
/** @typedef {import("./types.js").Plan} Plan */
/** @typedef {import("./types.js").Row} Row */
/** @typedef {import("./types.js").Schema} Schema */

/** The text of a plan, with all tables in it: reading it gives the plan.
 * @param {Schema} schema @param {Plan} plan @returns {string} */
export function writePlan(schema, plan) {
  const source = sourceOf(plan);
  return (source === null ? null : inPlace(schema, plan, source)) ?? anew(schema, plan);
}

/** @param {Schema} schema @param {Plan} plan */
function anew(schema, plan) {
  const single = Object.entries(schema.single).map(([name, keys]) => [name, given(plan, name, keys, rowsOf(plan, name)[0])]);
  const rows = Object.entries(schema.rows).map(([name, keys]) => [name, rowsOf(plan, name).map((row) => given(plan, name, keys, row))]);
  return writeToml(Object.fromEntries([...single.filter(([, one]) => Object.keys(one).length), ...rows.filter(([, found]) => found.length)]));
}

/** The text with what differs in the plan; null where that has no place in it.
 * @param {Schema} schema @param {Plan} plan @param {string} source @returns {string | null} */
export function inPlace(schema, plan, source) {
  try {
    const edit = new TomlEdit(source);
    const { tables } = edit.document;
    for (const key of Object.keys(FILES)) if (tables?.[key] !== undefined) edit.drop(tables, key);
    for (const [name, keys] of Object.entries(schema.single)) {
      const [row] = rowsOf(plan, name), table = edit.document[name], wanted = given(plan, name, keys, row);
      if (table) update(edit, plan, name, keys, table, row);
      else if (Object.keys(wanted).length) edit.add(name, wanted, false);
    }
    for (const [name, keys] of Object.entries(schema.rows)) changeRows(edit, plan, name, keys);
    const text = edit.done();
    return JSON.stringify(readPlan(schema, text)) === JSON.stringify(plan) ? text : null;
  } catch (error) {
    if (error instanceof NotInPlace || error instanceof TomlError || error instanceof PlanError) return null;
    throw error;
  }
}

/** @param {Plan} plan @param {string} name @returns {Row[]} */
function rowsOf(plan, name) {
  return [plan[/** @type {"node"} */ (name)]].flat();
}

/** @param {TomlEdit} edit @param {Plan} plan @param {string} name @param {Key[]} keys */
function changeRows(edit, plan, name, keys) {
  /** @type {Row[]} */
  const old = edit.document[name] ?? [];
  const rows = rowsOf(plan, name);
  const { kept, gone, added } = matched(old.map((row) => calledOf(name, keys, row)), rows.map((row) => calledOf(name, keys, row)));
  for (const [before, after] of kept) update(edit, plan, name, keys, old[before], rows[after]);
  for (const place of gone) edit.cut(old[place]);
  const last = kept.length ? old[kept[kept.length - 1][0]] : undefined;
  for (const place of added) edit.add(name, given(plan, name, keys, rows[place]), true, last);
}

/** By what a row is known again: its name, or the keys that each has, with its time.
 * @param {string} name @param {Key[]} keys @param {Row} row @returns {string} */
function calledOf(name, keys, row) {
  if (name === "stream") return row.name || (row.stream ? `${row.from}/${row.stream}` : row.from);
  if (keys.some((key) => key.name === "name")) return row.name;
  const telling = keys.filter((key) => key.required || key.name === "at").map((key) => row[key.name] ?? null);
  return JSON.stringify(telling);
}

/**
 * Which rows stay, are gone and are added at the end. What stands between two that stay and has another name is the same row with another
 * name, as long as there are as many.
 * @param {string[]} old @param {string[]} now
 * @returns {{ kept: [number, number][], gone: number[], added: number[] }}
 */
function matched(old, now) {
  const stays = new Set(now), lastOf = new Map(old.map((called, before) => [called, before]));
  /** @type {[number, number][]} */
  const kept = [];
  const gone = [];
  let place = 0;
  for (const [before, called] of old.entries()) {
    const isRenamed = !stays.has(called) && !((lastOf.get(now[place]) ?? -1) > before) && old.length - before <= now.length - place;
    if (place < now.length && (now[place] === called || isRenamed)) kept.push([before, place++]);
    else gone.push(before);
  }
  return { kept, gone, added: [...now.keys()].slice(place) };
}

/** Lets a table of the text have the values of a row; what has them stays as it is written.
 * @param {TomlEdit} edit @param {Plan} plan @param {string} name @param {Key[]} keys @param {Row} table @param {Row} row */
function update(edit, plan, name, keys, table, row) {
  for (const key of keys) {
    const value = row[key.name], isThere = key.name in table, isPlain = isLeftOut(plan, name, key, row);
    if (!isThere && !isPlain) edit.put(table, key.name, value);
    if (!isThere || isSame(takenOf(key, table[key.name]), value)) continue;
    if (isPlain) edit.drop(table, key.name);
    else edit.put(table, key.name, value);
  }
}

/** @param {Key} key @param {any} value */
function takenOf(key, value) {
  return isUnknownMeasure(key.name, value) ? key.default : takenValue(key, value, false);
}

/** The keys of a row that have to be written, with their values.
 * @param {Plan} plan @param {string} name of its table @param {Key[]} keys @param {Row} row */
function given(plan, name, keys, row) {
  return Object.fromEntries(keys.filter((key) => !isLeftOut(plan, name, key, row)).map((key) => [key.name, row[key.name]]));
}

/** Whether a key need not be written, since a row without it has the same value.
 * @param {Plan} plan @param {string} name of its table @param {Key} key @param {Row} row */
function isLeftOut(plan, name, key, row) {
  const value = row[key.name];
  if (name === "stream" && key.name === "name") return value === (row.stream === 0 ? row.from : `${row.from}/${row.stream}`);
  if (name === "stream" && key.name === "stream") return value === 0 && plan.stream.filter((one) => one.from === row.from).length === 1;
  return value === null || isSame(value, key.default);
}

/** @param {any} one @param {any} other */
function isSame(one, other) {
  return JSON.stringify(one) === JSON.stringify(other);
}
