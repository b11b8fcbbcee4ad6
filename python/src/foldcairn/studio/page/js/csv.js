// Reads and writes CSV: commas or semicolons between cells, quotes around those that have them. Tested, not proved.
import { PlanError } from "./plan_words.js";

// The most rows that a table has; more are refused before they are looked at.
const ROWS_MOST = 200_000;

/**
 * The head and the rows of a table. Lines that are empty or begin with # are skipped. Throws `PlanError`.
 * @param {string} text
 * @param {string} called
 * @returns {{ head: string[], rows: string[][] }}
 */
export function readCsv(text, called) {
  const plain = text.replace(/^\uFEFF/, "").replaceAll("\r\n", "\n").replaceAll("\r", "\n");
  const first = plain.split("\n", 50).find((line) => line.trim() && !line.startsWith("#")) ?? "";
  const between = [",", ";", "\t"].sort((one, other) => first.split(other).length - first.split(one).length)[0];
  const table = cut(plain, between, called).filter((row) => row.some((cell) => cell.trim()) && !row[0].startsWith("#"));
  if (!table.length) throw new PlanError(called, "it has no line with the names of columns");
  const [head, ...rows] = table;
  const long = rows.findIndex((row) => row.length > head.length);
  if (long >= 0) throw new PlanError(`${called}, row ${long + 1}`, `it has ${rows[long].length} cells, and the head has ${head.length}`);
  return { head: head.map((cell) => cell.trim()), rows };
}

/** @param {string} text @param {string} between @param {string} called */
function cut(text, between, called) {
  const rows = [[""]];
  let isQuoted = false;
  for (let place = 0; place < text.length; place++) {
    const letter = text[place];
    const row = rows[rows.length - 1];
    if (isQuoted && letter === '"' && text[place + 1] === '"') row[row.length - 1] += text[place++];
    else if (letter === '"' && (isQuoted || row[row.length - 1].trim() === "")) isQuoted = !isQuoted;
    else if (!isQuoted && letter === between) row.push("");
    else if (!isQuoted && letter === "\n") rows.push([""]);
    else row[row.length - 1] += letter;
    if (rows.length > ROWS_MOST) throw new PlanError(called, `it has more than ${ROWS_MOST.toLocaleString("en")} rows`);
  }
  if (isQuoted) throw new PlanError(called, 'a quote " is opened and not closed');
  return rows;
}

/**
 * The text of a table. A cell that a spreadsheet would take for a formula is led by an apostrophe.
 * @param {string[]} head
 * @param {any[][]} rows
 */
export function writeCsv(head, rows) {
  const cell = (/** @type {any} */ value) => {
    const text = value === null || value === undefined ? "" : Array.isArray(value) ? value.join(";") : String(value);
    const safe = typeof value === "string" && /^[=+@\t]/.test(text) ? `'${text}` : text;
    return /[",;\n\r]/.test(safe) ? `"${safe.replaceAll('"', '""')}"` : safe;
  };
  return [head, ...rows].map((row) => `${row.map(cell).join(",")}\n`).join("");
}
