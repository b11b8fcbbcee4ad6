// Reads TOML 1.0: the tables of a text, and the lines and places where they and their keys stand. Tested, not proved.
import { Scanner, TomlDate, TomlError } from "./toml_scan.js";

/** @typedef {Record<string, any>} Table */
/** @typedef {{ start: number, from: number, to: number }} Span where a key begins, and where its value begins and ends */
/**
 * Where a table stands: its line, the lines and places of its keys, and its header, from "[" to the end of the line.
 * @typedef {{ line: number, keys: Record<string, number>, spans: Record<string, Span>, head: [number, number] | null }} Lines
 */
/** @typedef {{ document: Table, lines: Map<object, Lines> }} Toml */

// How a table came about, which says what may be added to it.
const IMPLICIT = 0, BY_HEADER = 1, BY_DOTS = 2, CLOSED = 3;
// Tables or lists within each other; more are no plan.
const DEEPEST = 100;

/**
 * The tables of a TOML text. Throws `TomlError` where it is none.
 * @param {string} text
 * @returns {Toml}
 */
export function readToml(text) {
  return new TomlReader(text.replace(/^\uFEFF/, "").replaceAll("\r\n", "\n")).read();
}

class TomlReader {
  /** @param {string} text */
  constructor(text) {
    this.scanner = new Scanner(text);
    /** @type {Map<object, Lines>} */
    this.lines = new Map();
    /** @type {Map<object, number>} */
    this.kinds = new Map();
    this.depth = 0;
    this.line = 1;
    this.counted = 0;
    this.document = this.made(BY_HEADER);
  }

  /** @returns {Toml} */
  read() {
    const { scanner } = this;
    let table = this.document;
    for (scanner.space(); scanner.next !== ""; scanner.space()) {
      const start = scanner.at, isHeader = scanner.next === "[";
      if (isHeader) table = this.header();
      else this.pair(table, BY_DOTS);
      scanner.lineEnd();
      if (isHeader) this.linesOf(table).head = [start, scanner.at];
    }
    return { document: this.document, lines: this.lines };
  }

  /** The line that is read, counted on from the last time. */
  here() {
    for (; this.counted < this.scanner.at; this.counted++) if (this.scanner.text[this.counted] === "\n") this.line += 1;
    return this.line;
  }

  /** @param {number} kind @returns {Table} */
  made(kind) {
    const table = Object.create(null);
    this.kinds.set(table, kind);
    this.lines.set(table, this.unread());
    return table;
  }

  /** @returns {Lines} */
  unread() {
    return { line: this.here(), keys: Object.create(null), spans: Object.create(null), head: null };
  }

  /** @param {Table} table @returns {Lines} */
  linesOf(table) {
    return /** @type {Lines} */ (this.lines.get(table));
  }

  /** [table] or [[row]].
   * @returns {Table} */
  header() {
    const { scanner } = this;
    const isRow = scanner.takes("[[");
    if (!isRow) scanner.need("[");
    scanner.blanks();
    const names = scanner.keys();
    scanner.blanks();
    scanner.need(isRow ? "]]" : "]");
    const last = /** @type {string} */ (names.pop());
    const parent = names.reduce((table, name) => this.within(table, name), this.document);
    return isRow ? this.row(parent, last) : this.opened(parent, last);
  }

  /** @param {Table} parent @param {string} name @returns {Table} */
  opened(parent, name) {
    const there = parent[name];
    if (there === undefined) {
      this.note(parent, name);
      return (parent[name] = this.made(BY_HEADER));
    }
    if (Array.isArray(there) || this.kinds.get(there) !== IMPLICIT) this.scanner.fail(`the table ${name} is there already`);
    this.kinds.set(there, BY_HEADER);
    this.lines.set(there, this.unread());
    return there;
  }

  /** @param {Table} parent @param {string} name @returns {Table} */
  row(parent, name) {
    if (parent[name] === undefined) {
      this.note(parent, name);
      parent[name] = [];
      this.kinds.set(parent[name], IMPLICIT);
    }
    const rows = parent[name];
    if (!Array.isArray(rows) || this.kinds.get(rows) !== IMPLICIT) this.scanner.fail(`${name} is there already, and is no list of [[${name}]]`);
    const table = this.made(BY_HEADER);
    rows.push(table);
    return table;
  }

  /** The table of a name in another one, of a header.
   * @param {Table} parent @param {string} name @returns {Table} */
  within(parent, name) {
    if (parent[name] === undefined) {
      this.note(parent, name);
      parent[name] = this.made(IMPLICIT);
    }
    const there = Array.isArray(parent[name]) && this.kinds.get(parent[name]) === IMPLICIT ? parent[name].at(-1) : parent[name];
    if (!this.kinds.has(there) || Array.isArray(there) || this.kinds.get(there) === CLOSED) {
      this.scanner.fail(`${name} is no table to which anything can be added`);
    }
    return there;
  }

  /** @param {Table} table @param {string} name */
  note(table, name) {
    this.linesOf(table).keys[name] = this.here();
  }

  /** key = value.
   * @param {Table} outer @param {number} kind of the tables that dots make */
  pair(outer, kind) {
    const { scanner } = this;
    let table = outer;
    const start = scanner.at;
    const names = scanner.keys();
    const last = /** @type {string} */ (names.pop());
    for (const name of names) {
      if (table[name] === undefined) {
        this.note(table, name);
        table[name] = this.made(kind);
      }
      table = table[name];
      if (this.kinds.get(table) !== kind || Array.isArray(table)) scanner.fail(`${name} is there already, and nothing can be added to it`);
    }
    scanner.blanks();
    scanner.need("=");
    scanner.blanks();
    if (table[last] !== undefined) scanner.fail(`the key ${last} is there already`);
    this.note(table, last);
    const from = scanner.at;
    table[last] = this.value();
    this.linesOf(table).spans[last] = { start, from, to: scanner.at };
  }

  /** @returns {any} */
  value() {
    const { next } = this.scanner;
    if (next === '"' || next === "'") return this.scanner.string();
    if (next !== "[" && next !== "{") return this.scanner.scalar();
    if (++this.depth > DEEPEST) this.scanner.fail(`more than ${DEEPEST} lists are within each other`);
    const found = next === "[" ? this.list() : this.inline();
    this.depth -= 1;
    return found;
  }

  list() {
    const { scanner } = this;
    /** @type {any[]} */
    const found = [];
    this.kinds.set(found, CLOSED);
    scanner.need("[");
    for (scanner.space(); !scanner.takes("]"); scanner.space()) {
      found.push(this.value());
      scanner.space();
      if (!scanner.takes(",") && scanner.next !== "]") scanner.fail(`${scanner.shown()} stands where , or ] has to be`);
    }
    return found;
  }

  inline() {
    const { scanner } = this;
    const table = this.made(IMPLICIT);
    scanner.need("{");
    scanner.blanks();
    if (!scanner.takes("}")) {
      for (;;) {
        scanner.blanks();
        this.pair(table, BY_DOTS + 2);
        scanner.blanks();
        if (scanner.takes("}")) break;
        scanner.need(",");
      }
    }
    this.close(table);
    return table;
  }

  /** @param {Table} table */
  close(table) {
    this.kinds.set(table, CLOSED);
    for (const one of Object.values(table)) if (this.kinds.has(one) && this.kinds.get(one) !== CLOSED) this.close(one);
  }
}

export { TomlDate, TomlError };
