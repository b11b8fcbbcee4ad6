// Elements of the page, made of text and never of markup. Tested, not proved.

const SVG = "http://www.w3.org/2000/svg";

/** @typedef {Node | string | number | null | undefined | false} Child */

/**
 * Gives an element its properties: `on..` is a listener, `class`, `text` and all else attributes; what is false, null or undefined is left out.
 * @template {Element} T
 * @param {T} element
 * @param {Record<string, any>} given
 * @returns {T}
 */
export function dressed(element, given) {
  for (const [name, value] of Object.entries(given)) {
    if (value === null || value === undefined || value === false) continue;
    if (name.startsWith("on")) element.addEventListener(name.slice(2), value);
    else if (name === "text") element.textContent = value;
    else if (name === "value") /** @type {any} */ (element).value = value;
    else element.setAttribute(name, value === true ? "" : String(value));
  }
  return element;
}

/** @param {string} tag @param {Record<string, any>} [given] @param {...(Child | Child[])} children @returns {HTMLElement} */
export function h(tag, given = {}, ...children) {
  const element = dressed(document.createElement(tag), given);
  element.append(...children.flat().filter(isShown).map(String2Node));
  return element;
}

/** @param {string} tag @param {Record<string, any>} [given] @param {...(Child | Child[])} children @returns {SVGElement} */
export function s(tag, given = {}, ...children) {
  const element = dressed(document.createElementNS(SVG, tag), given);
  element.append(...children.flat().filter(isShown).map(String2Node));
  return /** @type {SVGElement} */ (element);
}

/** @param {Child} child */
function isShown(child) {
  return child !== null && child !== undefined && child !== false;
}

/** @param {any} child */
function String2Node(child) {
  return child instanceof Node ? child : String(child);
}

/**
 * Puts new content into an element; what had the focus gets it back by its `data-key`.
 * @param {Element} element
 * @param {...(Child | Child[])} children
 */
export function refill(element, ...children) {
  const active = document.activeElement, key = active && element.contains(active) ? active.getAttribute("data-key") : null;
  element.replaceChildren(...children.flat().filter(isShown).map(String2Node));
  if (key !== null) /** @type {HTMLElement | null} */ (element.querySelector(`[data-key="${CSS.escape(key)}"]`))?.focus({ preventScroll: true });
}

/** @param {string} id @returns {any} */
export function byId(id) {
  return document.getElementById(id);
}

/** A part in percent.
 * @param {number | null} value */
export function percent(value) {
  if (value === null || Number.isNaN(value)) return "–";
  const digits = value >= 0.9995 && value < 1 ? 2 : value > 0.99 ? 1 : value > 0.1 ? 0 : 1;
  const shown = (Math.floor(value * 100 * 10 ** digits + 1e-9) / 10 ** digits).toFixed(digits);
  return `${value >= 1 ? "100" : shown} %`;
}

/** A table.
 * @param {string} caption @param {Child[]} head @param {Child[][]} rows @param {(place: number) => Record<string, any>} [given] of each row */
export function tableOf(caption, head, rows, given = () => ({})) {
  return h("div", { class: "wide" }, h("p", { class: "quiet caption" }, caption), h("table", { "aria-label": caption },
    h("thead", {}, h("tr", {}, head.map((cell) => h("th", { scope: "col" }, cell)))),
    h("tbody", {}, rows.map((row, place) => h("tr", given(place), row.map((cell) => (cell instanceof HTMLTableCellElement ? cell : h("td", {}, cell))))))));
}

/** A button.
 * @param {string} text @param {() => void} run @param {Record<string, any>} [given] */
export function button(text, run, given = {}) {
  return h("button", { type: "button", onclick: run, "data-key": text, ...given }, text);
}

/** Offers a text as a file.
 * @param {string} name @param {string} text @param {string} type */
export function offer(name, text, type) {
  const url = URL.createObjectURL(new Blob([text], { type }));
  const link = dressed(document.createElement("a"), { href: url, download: name });
  document.body.append(link);
  link.click();
  link.remove();
  setTimeout(() => URL.revokeObjectURL(url), 10_000);
}
