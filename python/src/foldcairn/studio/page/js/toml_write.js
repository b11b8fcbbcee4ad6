// Writes values as TOML 1.0. Tested, not proved.
import { TomlDate, isControlled } from "./toml_scan.js";

/**
 * A value on one line.
 * @param {any} value a text, a number, a truth, a date, a list or a table
 * @returns {string}
 */
export function tomlValue(value) {
  if (typeof value === "string") return tomlText(value);
  if (typeof value === "number") return tomlNumber(value);
  if (value instanceof TomlDate) return value.text;
  if (Array.isArray(value)) return `[${value.map(tomlValue).join(", ")}]`;
  if (value !== null && typeof value === "object") {
    const pairs = Object.entries(value).map(([key, one]) => `${tomlKey(key)} = ${tomlValue(one)}`);
    return pairs.length ? `{ ${pairs.join(", ")} }` : "{}";
  }
  return String(value);
}

/** @param {number} value */
function tomlNumber(value) {
  if (Number.isNaN(value)) return "nan";
  if (!Number.isFinite(value)) return value > 0 ? "inf" : "-inf";
  const text = String(value);
  // JavaScript has 1e+21 and 1e-7, which are floats of TOML too.
  return Object.is(value, -0) ? "-0.0" : text;
}

/** @param {string} value */
function tomlText(value) {
  if (!isControlled(value) && !value.includes("\t")) return `"${value.replaceAll("\\", "\\\\").replaceAll('"', '\\"')}"`;
  const escaped = [...value].map((letter) => {
    const code = letter.charCodeAt(0);
    if (letter === "\\" || letter === '"') return `\\${letter}`;
    return code < 32 || code === 127 ? `\\u${code.toString(16).padStart(4, "0")}` : letter;
  });
  return `"${escaped.join("")}"`;
}

/** @param {string} key */
export function tomlKey(key) {
  return /^[A-Za-z0-9_-]+$/.test(key) ? key : tomlText(key);
}

/**
 * A table, or a row of a list of tables, with its header.
 * @param {string} name @param {Record<string, any>} given @param {boolean} isRow
 */
export function tomlTable(name, given, isRow) {
  const head = isRow ? `[[${tomlKey(name)}]]` : `[${tomlKey(name)}]`;
  return [head, ...Object.entries(given).map(([key, one]) => `${tomlKey(key)} = ${tomlValue(one)}`), ""].join("\n");
}

/**
 * A document of tables and lists of tables: {plan: {..}, node: [{..}]}.
 * @param {Record<string, any>} document
 * @returns {string}
 */
export function writeToml(document) {
  const tables = Object.entries(document).flatMap(([name, value]) => [value].flat().map((table) => tomlTable(name, table, Array.isArray(value))));
  return tables.join("\n");
}
