// The values of a plan file, each by the kind of its key, from TOML or from a cell of a CSV file. Tested, not proved.
import { PlanError, didYouMean, shownNumber } from "./plan_words.js";
import { TomlDate } from "./toml_scan.js";

/** @typedef {import("./types.js").Key} Key */

const UNKNOWN = new Set(["", "-", "–", "—", "?", "n/a", "na", "nan", "none", "null", "unknown"]);
const YES = new Set(["yes", "y", "true", "t", "1"]), NO = new Set(["no", "n", "false", "f", "0"]);
const BETWEEN = ";";
const NUMBERS = new Set(["whole", "real", "power", "start", "wholes", "reals", "box", "span", "walls", "capacities"]);
const WORDS = /** @type {Record<string, string>} */ ({
  text: "a text on one line", file: "the name of a file", name: "a name, without a semicolon", node: "the name of a node",
  whole: "a whole number{range}", real: "a number{range}", truth: "true or false", choice: "one of {choices}",
  power: "one of {choices}, or a number{range}", start: "a number{range}, or {choices}",
  time: "a number of seconds{range}, or a date and a time, as 2026-01-31 14:05:00", texts: "a list of texts",
  to: "a name, or a list of names", wholes: "a list of whole numbers{range}", reals: "a list of numbers{range}",
  box: "four numbers, [left, lower, right, upper]",
  span: "two numbers, [from, to], the first below the second", pair: "two names of nodes that differ, [one, other]",
  walls: "a list of walls, each [x0, y0, x1, y1], then maybe its loss in dB and its floor",
  capacities: "a number{range}, or a table of such by kind of battery: {choices}",
});

/** Whether a cell says that nothing is known.
 * @param {any} value */
export function isUnknown(value) {
  return value === null || value === undefined || (typeof value === "string" && UNKNOWN.has(value.trim().toLowerCase()));
}

/** What the values of a key have to be, with range and unit.
 * @param {Key} key */
export function inWords(key) {
  const { low, high, above } = key;
  const upper = high === null ? "" : ` and at most ${shownNumber(high)}`;
  const range = above !== null ? ` above ${shownNumber(above)}${upper}`
    : low !== null && high !== null ? ` from ${shownNumber(low)} to ${shownNumber(high)}`
      : low !== null ? ` of at least ${shownNumber(low)}` : upper.replace(" and", " of");
  const words = WORDS[key.kind].replace("{range}", range).replace("{choices}", key.choices.join(", "));
  return words + (key.unit && NUMBERS.has(key.kind) ? `, in ${key.unit}` : "");
}

/** @param {Key} key @param {any} value @param {string} [more] */
function wrong(key, value, more = "") {
  const isPart = key.kind === "real" && key.high === 1 && typeof value === "number" && value > 1 && value <= 100;
  const near = typeof value === "string" && key.choices.length ? didYouMean(value, key.choices) : "";
  const shown = typeof value === "number" ? shownNumber(value) : JSON.stringify(value instanceof TomlDate ? value.text : String(value).slice(0, 80));
  const advice = more || (isPart ? `; write ${shownNumber(value / 100)} for ${shownNumber(value)} %` : near);
  return new PlanError("", `\`${key.name}\` is ${shown}, and has to be ${inWords(key)}${advice}`);
}

/** @param {string} text */
function isPrintable(text) {
  return !/[\p{Cc}\p{Cs}\u2028\u2029]/u.test(text);
}

/** @param {Key} key @param {number} number */
function isWithin(key, number) {
  return !((key.low !== null && number < key.low) || (key.high !== null && number > key.high) || (key.above !== null && number <= key.above));
}

/** @typedef {(key: Key, value: any, isCell: boolean) => any} Taker */

/** @type {Record<string, Taker>} */
const TAKERS = {
  text(key, value) {
    if (typeof value !== "string" || !isPrintable(value)) throw wrong(key, value);
    return value.trim();
  },
  name(key, value, isCell) {
    const found = takenNode(key, value, isCell);
    if (key.reserved.includes(found)) throw wrong(key, value, `; ${found} stands for several nodes, so none has this name`);
    return found;
  },
  node: takenNode,
  whole(key, value, isCell) {
    const number = isCell ? cellNumber(value) : value;
    if (typeof number !== "number" || !Number.isInteger(number) || !isWithin(key, number)) throw wrong(key, value);
    return number;
  },
  real: takenReal,
  truth(key, value, isCell) {
    if (typeof value === "boolean") return value;
    const said = String(value).trim().toLowerCase();
    if (!isCell || !(YES.has(said) || NO.has(said))) throw wrong(key, value);
    return YES.has(said);
  },
  choice(key, value) {
    if (typeof value !== "string" || !key.choices.includes(value)) throw wrong(key, value);
    return value;
  },
  power(key, value, isCell) {
    const found = typeof value === "string" ? key.choices.find((one) => one.toLowerCase() === value.trim().toLowerCase()) : undefined;
    if (found !== undefined) return found;
    if (typeof value === "string" && !(isCell && typeof cellNumber(value) === "number")) throw wrong(key, value);
    return takenReal(key, value, isCell);
  },
  start(key, value, isCell) {
    if (typeof value === "string" && key.choices.includes(value.trim())) return value.trim();
    if (typeof value === "string" && !(isCell && typeof cellNumber(value) === "number")) throw wrong(key, value);
    return takenReal(key, value, isCell);
  },
  time(key, value, isCell) {
    const text = value instanceof TomlDate ? value.text : value;
    if (typeof text !== "string" || (isCell && typeof cellNumber(text) === "number")) return takenReal(key, text, isCell);
    if (!/^\d{4}-\d\d-\d\d([T ]\d\d:\d\d(:\d\d(\.\d+)?)?(Z|[+-]\d\d:?\d\d)?)?$/i.test(text.trim())) throw wrong(key, text);
    return text.trim();
  },
  texts(key, value) {
    const found = typeof value === "string" ? value.split(BETWEEN) : value;
    if (!Array.isArray(found) || !found.every((one) => typeof one === "string" && isPrintable(one) && !one.includes(BETWEEN))) throw wrong(key, value);
    return found.map((one) => one.trim()).filter(Boolean);
  },
  to(key, value, isCell) {
    const several = typeof value === "string" && value.includes(BETWEEN) ? value.split(BETWEEN) : value;
    if (Array.isArray(several)) return several.filter((one) => one !== "").map((one) => takenNode(key, one, isCell));
    return takenNode(key, value, isCell);
  },
  wholes(key, value) {
    const found = numbers(key, value, []);
    if (!found.every((/** @type {number} */ one) => Number.isInteger(one))) throw wrong(key, value);
    return found;
  },
  reals(key, value, isCell) {
    const found = isCell && typeof value === "string" ? value.split(BETWEEN).map((one) => cellNumber(one.trim())) : value;
    return numbers(key, isCell && !Array.isArray(found) ? [found] : found, []);
  },
  box(key, value) {
    const found = numbers(key, value, [4]);
    if (!(found[0] < found[2] && found[1] < found[3])) throw wrong(key, value);
    return found;
  },
  span(key, value) {
    const found = numbers(key, value, [2]);
    if (!(found[0] < found[1])) throw wrong(key, value);
    return found;
  },
  pair(key, value, isCell) {
    if (!Array.isArray(value) || value.length !== 2) throw wrong(key, value);
    const found = value.map((one) => takenNode(key, one, isCell));
    if (found[0] === found[1]) throw wrong(key, value);
    return found;
  },
  walls(key, value) {
    if (!Array.isArray(value)) throw wrong(key, value);
    return value.map((one) => numbers(key, one, [4, 5, 6]));
  },
  capacities(key, value) {
    const given = value !== null && typeof value === "object" && !Array.isArray(value) ? value : { battery: value };
    for (const kind of Object.keys(given)) {
      if (!key.choices.includes(kind)) {
        throw new PlanError("", `\`${key.name}\` has ${kind}, and not one of ${key.choices.join(", ")}${didYouMean(kind, key.choices)}`);
      }
    }
    return Object.fromEntries(Object.entries(given).map(([kind, one]) => [kind, takenReal(key, one, false)]));
  },
};
TAKERS.file = TAKERS.text;

/** @type {Taker} */
function takenNode(key, value, isCell) {
  const isWhole = typeof value === "number" && Number.isInteger(value);
  let found = typeof value === "string" ? value.trim().split(/\s+/).join(" ") : isWhole ? String(value) : "";
  if (isCell && /^\d+\.0+$/.test(found)) found = found.replace(/\.0+$/, "");
  if (!found || !isPrintable(found) || found.includes(BETWEEN)) throw wrong(key, value);
  return found;
}

/** @type {Taker} */
function takenReal(key, value, isCell) {
  const number = isCell ? cellNumber(value) : typeof value === "bigint" ? Number(value) : value;
  if (typeof number !== "number" || !Number.isFinite(number) || !isWithin(key, number)) throw wrong(key, value);
  return number;
}

/** The number of a cell, or what it has.
 * @param {any} value */
function cellNumber(value) {
  const text = typeof value === "string" ? value.trim() : "";
  return /^[+-]?(\d+\.?\d*|\.\d+)([eE][+-]?\d+)?$/.test(text) ? Number(text) : value;
}

/** @param {Key} key @param {any} value @param {number[]} counts */
function numbers(key, value, counts) {
  if (!Array.isArray(value) || (counts.length && !counts.includes(value.length))) throw wrong(key, value);
  return value.map((one) => takenReal(key, one, false));
}

/**
 * The value of a key. Throws `PlanError` without a place where it is of another kind or out of range.
 * @param {Key} key
 * @param {any} value
 * @param {boolean} [isCell]
 */
export function takenValue(key, value, isCell = false) {
  return TAKERS[key.kind](key, value, isCell);
}

/** Whether cells of a kind are texts.
 * @param {string} kind */
export function isTextual(kind) {
  return ["text", "file", "name", "node", "texts", "to", "pair", "choice", "truth"].includes(kind);
}
