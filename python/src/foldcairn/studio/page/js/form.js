// Fields for the values of a plan, made of the keys that Python gives: what each means, its unit and its range. Tested, not proved.
import { h } from "./dom.js";
import { inWords, takenValue } from "./plan_values.js";
import { PlanError } from "./plan_words.js";

/** @typedef {import("./types.js").Key} Key */

/** A value as it stands in a field.
 * @param {any} value */
function shown(value) {
  if (value === null || value === undefined) return "";
  if (Array.isArray(value)) return value.some(Array.isArray) ? JSON.stringify(value) : value.join("; ");
  return typeof value === "object" ? JSON.stringify(value) : String(value);
}

/** The value of a text of a field; of an empty one the default.
 * @param {Key} key @param {string} text */
export function valueOfField(key, text) {
  const plain = text.trim();
  if (plain === "" && !key.required) return structuredClone(key.default);
  if (["walls", "capacities"].includes(key.kind)) return takenValue(key, parsed(key, plain));
  if (["box", "span"].includes(key.kind)) return takenValue(key, plain.replace(/[[\]]/g, "").split(/[;,\s]+/).map(Number));
  if (key.kind === "pair") return takenValue(key, plain.split(/\s*;\s*/));
  return takenValue(key, plain, true);
}

/** @param {Key} key @param {string} text */
function parsed(key, text) {
  try {
    return JSON.parse(text);
  } catch {
    throw new PlanError("", `\`${key.name}\` has to be ${inWords(key)}`);
  }
}

/**
 * A field of a key.
 * @param {Key} key
 * @param {any} value
 * @param {string} id unlike those of other fields
 * @param {(value: any) => void} changed
 * @param {(message: string) => void} failed
 */
export function field(key, value, id, changed, failed) {
  const about = `${key.about}: ${inWords(key)}`;
  const given = { id, "data-key": id, title: about };
  const take = (/** @type {string} */ text) => {
    try {
      changed(valueOfField(key, text));
    } catch (error) {
      if (!(error instanceof PlanError)) throw error;
      failed(error.message);
    }
  };
  const label = h("label", { for: id }, key.name, key.unit ? h("span", { class: "quiet" }, ` ${key.unit}`) : null);
  if (key.kind === "truth") {
    const box = /** @type {HTMLInputElement} */ (h("input", { ...given, type: "checkbox", onchange: () => changed(box.checked) }));
    box.checked = Boolean(value);
    return h("div", { class: "field" }, label, box);
  }
  if (key.kind === "choice") {
    const list = /** @type {HTMLSelectElement} */ (
      h("select", { ...given, onchange: () => take(list.value) }, key.choices.map((one) => h("option", { value: one }, one)))
    );
    list.value = value ?? "";
    return h("div", { class: "field" }, label, list);
  }
  const input = /** @type {HTMLInputElement} */ (h("input", {
    ...given, type: "text", autocomplete: "off", spellcheck: "false", inputmode: ["whole", "real"].includes(key.kind) ? "decimal" : null,
    onchange: () => take(input.value), placeholder: key.required ? "" : shown(key.default) || "–", value: shown(value),
  }));
  return h("div", { class: "field" }, label, input);
}
