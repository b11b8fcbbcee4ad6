// The characters, texts and numbers of TOML 1.0. `toml_read` has the tables. Tested, not proved.

/** A date, a time, or both, as TOML has it: kept as the text that it is. */
export class TomlDate {
  /** @param {string} text */
  constructor(text) {
    this.text = text;
  }
}

/** A text that is no TOML; `line` is counted from 1. */
export class TomlError extends Error {
  /**
   * @param {string} what
   * @param {number} line
   */
  constructor(what, line) {
    super(`line ${line}: ${what}`);
    this.line = line;
  }
}

const ESCAPES = /** @type {Record<string, string>} */ ({
  b: "\b", t: "\t", n: "\n", f: "\f", r: "\r", '"': '"', "\\": "\\",
});
const INTEGER = /^[+-]?(0|[1-9](_?\d)*)$/;
const BASED = /^0(x[\da-fA-F](_?[\da-fA-F])*|o[0-7](_?[0-7])*|b[01](_?[01])*)$/;
const FLOAT = /^[+-]?(0|[1-9](_?\d)*)(\.\d(_?\d)*)?([eE][+-]?\d(_?\d)*)?$/;
const DATE = /^(\d{4})-(\d\d)-(\d\d)([Tt ](\d\d):(\d\d):(\d\d)(\.\d+)?([Zz]|[+-]\d\d:\d\d)?)?$/;
const TIME = /^(\d\d):(\d\d):(\d\d)(\.\d+)?$/;

/** Where a text is read. */
export class Scanner {
  /** @param {string} text with line ends as \n */
  constructor(text) {
    this.text = text;
    this.at = 0;
  }

  /** The line of the place that is read, from 1 on. */
  get line() {
    let line = 1;
    for (let place = this.text.indexOf("\n"); place >= 0 && place < this.at; place = this.text.indexOf("\n", place + 1)) line += 1;
    return line;
  }

  /** @param {string} what @returns {never} */
  fail(what) {
    throw new TomlError(what, this.line);
  }

  /** The character that is next, or an empty text at the end. */
  get next() {
    return this.text[this.at] ?? "";
  }

  /** @param {string} word */
  takes(word) {
    if (!this.text.startsWith(word, this.at)) return false;
    this.at += word.length;
    return true;
  }

  /** @param {string} word */
  need(word) {
    if (!this.takes(word)) this.fail(`${this.shown()} stands where ${word} has to be`);
  }

  /** What is next, for messages. */
  shown() {
    return this.next === "" ? "the end" : this.next === "\n" ? "the end of the line" : JSON.stringify(this.next);
  }

  blanks() {
    while (this.next === " " || this.next === "\t") this.at += 1;
  }

  /** Blanks, comments and ends of lines. */
  space() {
    for (;;) {
      this.blanks();
      if (this.next === "#") this.comment();
      else if (this.next === "\n") this.at += 1;
      else return;
    }
  }

  comment() {
    const end = this.text.indexOf("\n", this.at);
    const words = this.text.slice(this.at, end < 0 ? this.text.length : end);
    if (isControlled(words)) this.fail("a comment has a control character");
    this.at += words.length;
  }

  /** What may follow on a line: blanks and a comment. */
  lineEnd() {
    this.blanks();
    if (this.next === "#") this.comment();
    if (this.next !== "" && this.next !== "\n") this.fail(`${this.shown()} stands where the line has to end`);
  }

  /** A key without dots. */
  key() {
    if (this.next === '"') return this.basic(false);
    if (this.next === "'") return this.literal(false);
    const found = /^[A-Za-z0-9_-]+/.exec(this.text.slice(this.at, this.at + 400));
    if (!found) this.fail(`${this.shown()} stands where a key has to be`);
    this.at += found[0].length;
    return found[0];
  }

  /** A key with its dots. */
  keys() {
    const found = [this.key()];
    for (this.blanks(); this.takes("."); this.blanks()) {
      this.blanks();
      found.push(this.key());
    }
    return found;
  }

  /** A text in quotes. */
  string() {
    if (this.next === '"') return this.basic(true);
    return this.literal(true);
  }

  /** @param {boolean} mayBeLong whether it may have several lines */
  literal(mayBeLong) {
    const isLong = mayBeLong && this.text.startsWith("'''", this.at);
    this.at += isLong ? 3 : 1;
    if (isLong) this.takes("\n");
    let end = this.text.indexOf(isLong ? "'''" : "'", this.at);
    while (isLong && end >= 0 && this.text[end + 3] === "'" && end - this.text.indexOf("'''", this.at) < 2) end += 1;
    const found = end < 0 ? "" : this.text.slice(this.at, end);
    if (end < 0 || (!isLong && found.includes("\n"))) this.fail("a text in ' does not end");
    if (isControlled(found, isLong)) this.fail("a text has a control character");
    this.at = end + (isLong ? 3 : 1);
    return found;
  }

  /** @param {boolean} mayBeLong whether it may have several lines */
  basic(mayBeLong) {
    const isLong = mayBeLong && this.text.startsWith('"""', this.at);
    this.at += isLong ? 3 : 1;
    if (isLong) this.takes("\n");
    const pieces = [];
    for (;;) {
      if (this.next === "" || (!isLong && this.next === "\n")) this.fail('a text in " does not end');
      if (this.next === '"' && !isLong) break;
      if (isLong && this.text.startsWith('"""', this.at)) {
        while (this.text[this.at + 3] === '"' && pieces.slice(-2).join("") !== '""') pieces.push(this.text[this.at++]);
        break;
      }
      pieces.push(this.next === "\\" ? this.escape(isLong) : this.plain(isLong));
    }
    this.at += isLong ? 3 : 1;
    return pieces.join("");
  }

  /** @param {boolean} isLong */
  plain(isLong) {
    const letter = this.text[this.at++];
    if (isControlled(letter, isLong)) this.fail("a text has a control character");
    return letter;
  }

  /** @param {boolean} isLong */
  escape(isLong) {
    this.at += 1;
    const letter = this.next;
    const folded = isLong ? /^[ \t]*\n[ \t\n]*/.exec(this.text.slice(this.at)) : null;
    if (folded) {
      this.at += folded[0].length;
      return "";
    }
    this.at += 1;
    if (Object.hasOwn(ESCAPES, letter)) return ESCAPES[letter];
    const digits = letter === "u" ? 4 : letter === "U" ? 8 : 0;
    const code = this.text.slice(this.at, this.at + digits);
    if (!digits || !new RegExp(`^[\\da-fA-F]{${digits}}$`).test(code)) this.fail(`\\${letter} is no escape`);
    const number = parseInt(code, 16);
    if (number > 0x10ffff || (number >= 0xd800 && number < 0xe000)) this.fail(`\\${letter}${code} is no character`);
    this.at += digits;
    return String.fromCodePoint(number);
  }

  /** A number, a date, or true or false.
   * @returns {number | bigint | boolean | TomlDate} */
  scalar() {
    const rest = this.text.slice(this.at, this.at + 1200);
    const word = (/^\d{4}-\d\d-\d\d[Tt ]\d\d:[^\s,\]}#]*/.exec(rest) ?? /^[^\s,\]}#=]*/.exec(rest) ?? [""])[0];
    if (word === "") this.fail(`${this.shown()} stands where a value has to be`);
    const found = valueOf(word);
    if (found === undefined) this.fail(`${JSON.stringify(word.slice(0, 40))} is no value of TOML; a text stands in quotes`);
    this.at += word.length;
    return found;
  }
}

/** @param {string} word @returns {number | bigint | boolean | TomlDate | undefined} */
function valueOf(word) {
  if (word === "true" || word === "false") return word === "true";
  if (/^[+-]?(inf|nan)$/.test(word)) return word.endsWith("nan") ? NaN : word.startsWith("-") ? -Infinity : Infinity;
  const plain = word.replaceAll("_", "");
  if (INTEGER.test(word) || BASED.test(word)) {
    const whole = plain.startsWith("-") ? -BigInt(plain.slice(1)) : BigInt(plain.replace("+", ""));
    return Number.isSafeInteger(Number(whole)) ? Number(whole) : whole;
  }
  if (FLOAT.test(word)) return Number(plain);
  return isDate(word) ? new TomlDate(word) : undefined;
}

/** @param {string} word */
function isDate(word) {
  const date = DATE.exec(word);
  const time = TIME.exec(word) ?? (date && date[4] ? ["", date[5], date[6], date[7]] : null);
  if (time && (Number(time[1]) > 23 || Number(time[2]) > 59 || Number(time[3]) > 59)) return false;
  if (!date) return Boolean(time);
  const [year, month, day] = [Number(date[1]), Number(date[2]), Number(date[3])];
  return year >= 1 && month >= 1 && month <= 12 && day >= 1 && day <= new Date(Date.UTC(2000 + (year % 400), month, 0)).getUTCDate();
}

/**
 * Whether a text has a character that TOML does not let stand in it.
 * @param {string} text
 * @param {boolean} [isLong] whether ends of lines may be in it
 */
export function isControlled(text, isLong = false) {
  for (let place = 0; place < text.length; place++) {
    const code = text.charCodeAt(place);
    if ((code < 32 && code !== 9 && !(isLong && code === 10)) || code === 127) return true;
  }
  return false;
}
