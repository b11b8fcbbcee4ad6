// Reads plan files: TOML with all tables in it, or with CSV files beside it. `plan_check` says whether they fit together, and `plan_write`
// writes them. Tested, not proved.
import { readCsv } from "./csv.js";
import { numbered } from "./plan_names.js";
import { isTextual, isUnknown, takenValue } from "./plan_values.js";
import { PlanError, didYouMean } from "./plan_words.js";
import { readToml, TomlError } from "./toml_read.js";

/** @typedef {import("./types.js").Key} Key */
/** @typedef {import("./types.js").Plan} Plan */
/** @typedef {import("./types.js").Row} Row */
/** @typedef {import("./types.js").Schema} Schema */

// The most that a file may have, in characters; larger ones are refused before they are read.
export const PLAN_CHARACTERS_MOST = 16_777_216;
export const FILES = /** @type {Record<string, string>} */ ({ nodes: "node", links: "link", streams: "stream" });
// The key of a plan for the text that it was read from. It is no text itself, so that workers and files get none of it.
const SOURCE = Symbol("source");
const MEASURES = new Set(["ratio", "sent", "received", "rssi"]);

/** A plan without anything.
 * @param {Schema} schema @returns {Plan} */
export function emptyPlan(schema) {
  const single = Object.entries(schema.single).map(([name, keys]) => [name, newRow(keys, {})]);
  return /** @type {Plan} */ (Object.fromEntries([...single, ...Object.keys(schema.rows).map((name) => [name, []])]));
}

/** A row with defaults where nothing is given.
 * @param {Key[]} keys @param {Row} given @returns {Row} */
export function newRow(keys, given) {
  return Object.fromEntries(keys.map((key) => [key.name, given[key.name] ?? structuredClone(key.default)]));
}

/**
 * The plan of a text. Throws `PlanError`, which names file, line, table, row, key, range and the nearest known name.
 * @param {Schema} schema
 * @param {string} text
 * @param {string} [called] the name of the file
 * @param {Record<string, string>} [files] the texts of CSV files, by their names
 * @returns {Plan}
 */
export function readPlan(schema, text, called = "the plan", files = {}) {
  if (text.length > PLAN_CHARACTERS_MOST) {
    throw new PlanError(called, `it has more than ${PLAN_CHARACTERS_MOST.toLocaleString("en")} characters, which are the most that are read`);
  }
  const reader = new PlanReader(schema, text, called);
  const plan = emptyPlan(schema);
  for (const name of Object.keys(schema.single)) plan[/** @type {"plan"} */ (name)] = reader.single(name);
  for (const name of Object.keys(schema.rows)) plan[/** @type {"node"} */ (name)] = reader.listed(name);
  reader.files(plan, files);
  return Object.assign(numbered(plan, called), { [SOURCE]: text });
}

/** The text that a plan was read from, before it was changed; null where it was read from none.
 * @param {Plan} plan @returns {string | null} */
export function sourceOf(plan) {
  return /** @type {any} */ (plan)[SOURCE] ?? null;
}

class PlanReader {
  /** @param {Schema} schema @param {string} text @param {string} called */
  constructor(schema, text, called) {
    this.schema = schema;
    this.called = called;
    try {
      this.toml = readToml(text);
    } catch (error) {
      if (error instanceof TomlError) throw new PlanError(called, `it is no TOML: ${error.message}`);
      throw error;
    }
    const known = [...Object.keys(schema.single), "tables", ...Object.keys(schema.rows)];
    for (const [name, value] of Object.entries(this.toml.document)) {
      const isList = Array.isArray(value);
      const isRows = name in schema.rows;
      if (!known.includes(name)) {
        throw new PlanError(
          this.where(this.toml.document, name, `[${name}]`), `a plan has no table ${name}; it has ${known.join(", ")}${didYouMean(name, known)}`,
        );
      }
      if (isRows && !(isList && value.every(isTable))) {
        throw new PlanError(this.where(this.toml.document, name, `[${name}]`), `it has to be a list of rows; write [[${name}]] above each`);
      }
      if (!isRows && !isTable(value)) {
        throw new PlanError(this.where(this.toml.document, name, `[${name}]`), `it has to be a table; write [${name}] above its keys`);
      }
    }
  }

  /** @param {object} table @param {string} key @param {string} shown */
  where(table, key, shown) {
    const lines = this.toml.lines.get(table);
    const line = lines?.keys[key] ?? lines?.line;
    return line ? `${this.called}, line ${line}, ${shown}` : `${this.called}, ${shown}`;
  }

  /** @param {string} name */
  single(name) {
    const table = this.toml.document[name] ?? Object.create(null);
    return madeRow(this.schema.single[name], table, (key) => this.where(table, key, `[${name}]`), false);
  }

  /** @param {string} name */
  listed(name) {
    /** @type {Row[]} */
    const rows = this.toml.document[name] ?? [];
    return rows.map((table, place) => madeRow(this.schema.rows[name], table, (key) => this.where(table, key, `[[${name}]], row ${place + 1}`), false));
  }

  /** Adds the rows of the CSV files that the plan names.
   * @param {Plan} plan @param {Record<string, string>} files */
  files(plan, files) {
    const given = this.toml.document.tables ?? {};
    const known = [...Object.keys(FILES), "ignore"];
    for (const key of Object.keys(given)) {
      if (!known.includes(key)) {
        throw new PlanError(this.where(given, key, "[tables]"), `it has no ${key}; it has ${known.join(", ")}${didYouMean(key, known)}`);
      }
    }
    const ignored = [given.ignore ?? []].flat();
    for (const [key, table] of Object.entries(FILES)) {
      if (given[key] === undefined) continue;
      const rows = plan[/** @type {"node"} */ (table)];
      if (rows.length) throw new PlanError(this.where(given, key, "[tables]"), `\`${key}\` names a file, so the plan file has no [[${table}]] of its own`);
      for (const name of [given[key]].flat()) {
        const text = Object.hasOwn(files, name) ? files[name] : undefined;
        if (typeof text !== "string") {
          throw new PlanError(this.where(given, key, "[tables]"), `\`${key}\` names ${name}: drop that file together with the plan`);
        }
        rows.push(...readRows(this.schema, table, text, name, ignored));
      }
    }
  }
}

/** @param {any} value */
function isTable(value) {
  return value !== null && typeof value === "object" && Object.getPrototypeOf(value) === null;
}

/**
 * The rows of a CSV file of nodes, links or streams. Throws `PlanError`.
 * @param {Schema} schema
 * @param {string} table
 * @param {string} text
 * @param {string} called
 * @param {string[]} [ignored] columns that are not read
 */
export function readRows(schema, table, text, called, ignored = []) {
  const keys = schema.rows[table];
  const { head, rows } = readCsv(text, called);
  const columns = columnsOf(keys, head, ignored, `${called}, [[${table}]]`);
  return rows.map((cells, place) => {
    const given = Object.create(null);
    head.forEach((column, number) => {
      const key = columns.get(column);
      const cell = cells[number] ?? "";
      if (key && !(isTextual(key.kind) ? cell.trim() === "" : isUnknown(cell))) given[key.name] = cell;
    });
    return madeRow(keys, given, () => `${called}, [[${table}]], row ${place + 1}`, true);
  });
}

/** A column's name without case, blanks, dashes and unit.
 * @param {string} column */
export function plainColumn(column) {
  const word = column.trim().toLowerCase().replace(/[\s-]+/g, "_");
  return word.replace(/_?[([]?(?<=[_([])(m|s|sec|seconds|dbm|db|ppm|mah|metres|meters|bytes)[)\]]?$/, "").replace(/^_+|_+$/g, "") || word;
}

/** @param {Key[]} keys @param {string[]} head @param {string[]} ignored @param {string} where */
function columnsOf(keys, head, ignored, where) {
  const known = new Map(keys.flatMap((key) => [...key.aliases, key.name].map((name) => [plainColumn(name), key])));
  const found = new Map();
  for (const column of head.filter((one) => one && !ignored.includes(one))) {
    const key = known.get(plainColumn(column));
    if (!key) {
      throw new PlanError(
        where, `the column ${column} is not read: it reads ${keys.map((one) => one.name).join(", ")}${didYouMean(plainColumn(column), known.keys())}`,
      );
    }
    const twice = [...found].find(([, one]) => one === key);
    if (twice) throw new PlanError(where, `the columns ${twice[0]} and ${column} are both ${key.name}`);
    found.set(column, key);
  }
  const lacking = keys.find((key) => key.required && ![...found.values()].includes(key));
  if (lacking) {
    throw new PlanError(
      where, `it lacks the column ${lacking.name}${lacking.aliases.length ? ` (or ${lacking.aliases.join(", ")})` : ""}; it has ${head.join(", ")}`,
    );
  }
  return found;
}

/** @param {Key[]} keys @param {Row} given @param {(key: string) => string} where @param {boolean} isCell @returns {Row} */
function madeRow(keys, given, where, isCell) {
  const found = Object.create(null);
  for (const [name, value] of Object.entries(given)) {
    const key = keys.find((one) => one.name === name);
    if (!key) throw new PlanError(where(name), unknownKey(keys, name, given));
    if (!isCell && isUnknownMeasure(name, value)) continue;
    try {
      found[name] = takenValue(key, value, isCell);
    } catch (error) {
      throw error instanceof PlanError ? new PlanError(where(name), error.what) : error;
    }
  }
  const lacking = keys.find((key) => key.required && !(key.name in found));
  if (lacking) throw new PlanError(where(""), `\`${lacking.name}\` is not given; it is ${lacking.about}`);
  return newRow(keys, found);
}

/** Whether a text stands for a measure that is not known.
 * @param {string} name of the key @param {any} value */
export function isUnknownMeasure(name, value) {
  return MEASURES.has(name) && typeof value === "string" && isUnknown(value);
}

/** @param {Key[]} keys @param {string} name @param {Row} given */
function unknownKey(keys, name, given) {
  const alias = keys.find((key) => key.aliases.includes(name));
  const near = alias ? `; do you mean ${alias.name}?` : didYouMean(name, keys.map((key) => key.name).filter((one) => !(one in given)));
  return `it has no key ${name}; it has ${keys.map((key) => key.name).join(", ")}${near}`;
}
