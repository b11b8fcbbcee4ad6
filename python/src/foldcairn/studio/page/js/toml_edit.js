// Changes a TOML text in places, so that comments, order and spelling of all that stays are kept. Tested, not proved.
import { readToml } from "./toml_read.js";
import { tomlKey, tomlValue, tomlTable } from "./toml_write.js";

/** @typedef {import("./toml_read.js").Table} Table */
/** @typedef {{ from: number, to: number, text: string }} Change */

/** A change that a text is not laid out for, as of a table in dotted keys. */
export class NotInPlace extends Error {}

export class TomlEdit {
  /** Throws `TomlError` where the text is none.
   * @param {string} text */
  constructor(text) {
    this.mark = text.startsWith("\uFEFF") ? "\uFEFF" : "";
    this.lineEnd = text.includes("\r\n") ? "\r\n" : "\n";
    this.text = text.slice(this.mark.length).replaceAll("\r\n", "\n");
    const { document, lines } = readToml(this.text);
    this.document = document;
    this.lines = lines;
    this.heads = [...lines.values()].flatMap(({ head }) => (head ? [head[0]] : [])).sort((one, other) => one - other);
    /** @type {Change[]} */
    this.changes = [];
    this.below = "";
  }

  /** The text with all changes. */
  done() {
    const pieces = [];
    let at = 0;
    for (const change of this.changes.sort((one, other) => one.from - other.from)) {
      if (change.from < at) throw new NotInPlace("two changes meet");
      pieces.push(this.text.slice(at, change.from), change.text);
      at = change.to;
    }
    pieces.push(this.text.slice(at));
    const above = pieces.join("").replace(/^\n+/, "").replace(/\n*$/, "\n");
    return this.mark + (above + this.below).replace(/^\n+/, "").replaceAll("\n", this.lineEnd);
  }

  /** Gives a key of a table a value: in its place, or below the other keys.
   * @param {Table} table @param {string} key @param {any} value */
  put(table, key, value) {
    const { spans } = this.placed(table), span = spans[key];
    if (span) this.changes.push({ from: span.from, to: span.to, text: tomlValue(value) });
    else this.insert(this.endOf(table), `\n${tomlKey(key)} = ${tomlValue(value)}`);
  }

  /** Takes a key away, with its line.
   * @param {Table} table @param {string} key */
  drop(table, key) {
    const { start, to } = this.placed(table).spans[key];
    this.changes.push({ from: this.lineFrom(start), to: this.lineTo(to) + 1, text: "" });
  }

  /** Takes a table away, with the comments directly above it.
   * @param {Table} table */
  cut(table) {
    const [start] = this.headOf(table);
    const next = this.heads.find((one) => one > start);
    this.changes.push({ from: this.commented(start), to: next === undefined ? this.text.length : this.commented(next), text: "" });
  }

  /** Adds a table or a row: below the last row of its list, or below all.
   * @param {string} name @param {Record<string, any>} given @param {boolean} isRow @param {Table} [last] the last row of its list */
  add(name, given, isRow, last) {
    const shown = `\n${tomlTable(name, given, isRow)}`;
    if (last) this.insert(this.endOf(last), `\n${shown.trimEnd()}`);
    else this.below += shown;
  }

  /** @param {number} at @param {string} text */
  insert(at, text) {
    this.changes.push({ from: at, to: at, text });
  }

  /** @param {Table} table */
  placed(table) {
    this.headOf(table);
    return /** @type {import("./toml_read.js").Lines} */ (this.lines.get(table));
  }

  /** @param {Table} table @returns {[number, number]} */
  headOf(table) {
    const head = this.lines.get(table)?.head;
    if (!head) throw new NotInPlace("a table has no header of its own");
    return head;
  }

  /** The end of a table's last line.
   * @param {Table} table */
  endOf(table) {
    const { head, spans } = this.placed(table);
    return this.lineTo(Math.max(/** @type {[number, number]} */ (head)[1], ...Object.values(spans).map(({ to }) => to)));
  }

  /** @param {number} at */
  lineFrom(at) {
    return this.text.lastIndexOf("\n", at - 1) + 1;
  }

  /** @param {number} at */
  lineTo(at) {
    const end = this.text.indexOf("\n", at);
    return end < 0 ? this.text.length : end;
  }

  /** The first line of the comments directly above a line.
   * @param {number} at */
  commented(at) {
    let from = this.lineFrom(at);
    while (from > 0 && this.text.slice(this.lineFrom(from - 1), from).trimStart().startsWith("#")) from = this.lineFrom(from - 1);
    return from;
  }
}
