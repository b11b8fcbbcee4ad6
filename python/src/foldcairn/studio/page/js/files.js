// Files that come in and go out: plan files, tables as CSV, the network of a seed, a report. Tested, not proved.
import { button, h, offer } from "./dom.js";
import { streamFigures, verdictsOf, nodeFigures } from "./figures.js";
import { checkPlan } from "./plan_check.js";
import { readPlan, readRows } from "./plan_file.js";
import { numbered } from "./plan_names.js";
import { writePlan } from "./plan_write.js";
import { PlanError } from "./plan_words.js";
import { writeCsv } from "./csv.js";

/** @typedef {import("./types.js").Plan} Plan */
/** @typedef {import("./types.js").Schema} Schema */

// The most that files may have together, in bytes; larger ones are refused unread.
const BYTES_MOST = 16_777_216, PICTURE_MOST = 8_388_608;

/**
 * The plan of files that were dropped or chosen: a plan file, alone or with its CSV files and picture, or tables for the plan that is there.
 * Throws `PlanError`.
 * @param {Schema} schema
 * @param {Plan} plan the one that is there
 * @param {File[]} files
 * @returns {Promise<{ plan: Plan, done: string, pictures: Record<string, string> }>}
 */
export async function planOfFiles(schema, plan, files) {
  const size = files.reduce((sum, file) => sum + file.size, 0);
  if (size > BYTES_MOST) {
    throw new PlanError("", `the files have ${size.toLocaleString("en")} bytes, and ${BYTES_MOST.toLocaleString("en")} are the most that are read`);
  }
  /** @type {Record<string, string>} */
  const texts = Object.create(null), pictures = Object.create(null);
  for (const file of files) {
    if (/\.(png|jpe?g|gif|webp)$/i.test(file.name)) pictures[file.name] = await pictureOf(file);
    else if (/\.(toml|csv|tsv|txt)$/i.test(file.name)) texts[file.name] = textOf(file.name, await file.arrayBuffer());
    else throw new PlanError(file.name, "it is no plan file (.toml), table (.csv) or picture (.png, .jpg, .webp)");
  }
  const [called] = Object.keys(texts).filter((name) => /\.toml$/i.test(name));
  if (called) {
    const found = readPlan(schema, texts[called], called, texts);
    checkPlan(found);
    return { plan: found, done: `${called} opened`, pictures };
  }
  const tables = Object.keys(texts);
  if (!tables.length && !Object.keys(pictures).length) throw new PlanError("", "there is no plan file (.toml), table (.csv) or picture among the files");
  let next = plan;
  for (const name of tables) next = withTable(schema, next, name, texts[name]);
  const [picture] = Object.keys(pictures);
  if (picture) next = { ...next, floor: { ...next.floor, picture, extent: next.floor.extent ?? [0, 0, 100, 60] } };
  checkPlan(next);
  return { plan: next, done: `${files.map((file) => file.name).join(", ")} read`, pictures };
}

/** @param {string} name @param {ArrayBuffer} bytes */
function textOf(name, bytes) {
  try {
    return new TextDecoder("utf-8", { fatal: true }).decode(bytes);
  } catch {
    throw new PlanError(name, "it is no text in UTF-8; save it as UTF-8");
  }
}

/** @param {File} file @returns {Promise<string>} */
function pictureOf(file) {
  if (file.size > PICTURE_MOST) {
    throw new PlanError(
      file.name, `the picture has ${file.size.toLocaleString("en")} bytes, and ${PICTURE_MOST.toLocaleString("en")} are the most that are read`,
    );
  }
  return new Promise((resolve, reject) => {
    const reader = new FileReader();
    reader.onload = () => resolve(String(reader.result));
    reader.onerror = () => reject(new PlanError(file.name, "it can't be read"));
    reader.readAsDataURL(file);
  });
}

/** @param {Schema} schema @param {Plan} plan @param {string} name @param {string} text */
function withTable(schema, plan, name, text) {
  const tries = ["link", "stream", "node"].map((table) => {
    try {
      return { table, rows: readRows(schema, table, text, name) };
    } catch (error) {
      if (error instanceof PlanError) return { table, error };
      throw error;
    }
  });
  // By its name where that says what it is, else by what it can be.
  const said = ["node", "link", "stream"].find((table) => name.toLowerCase().includes(table)) ?? (/survey/i.test(name) ? "link" : "");
  const found = tries.find((one) => one.rows && (!said || one.table === said)) ?? tries.find((one) => one.table === (said || "node"));
  if (!found?.rows) throw found?.error ?? new PlanError(name, "it is no table of nodes, links or streams");
  return numbered({ ...plan, [found.table]: found.rows }, name);
}

/** A table of a plan as CSV.
 * @param {Schema} schema @param {Plan} plan @param {string} table */
export function tableCsv(schema, plan, table) {
  const keys = schema.rows[table], rows = plan[/** @type {"node"} */ (table)];
  const used = keys.filter((key) => key.required || rows.some((row) => JSON.stringify(row[key.name]) !== JSON.stringify(key.default)));
  return writeCsv(used.map((key) => key.name), rows.map((row) => used.map((key) => row[key.name])));
}

/** The answers as CSV.
 * @param {import("./engine.js").Found} found */
export function answersCsv(found) {
  const streams = streamFigures(found).map((one) => ["stream", one.name, "in time", one.share, one.low, one.high, one.draws]);
  const nodes = nodeFigures(found).filter((one) => one.years !== null && Number.isFinite(one.years)).map(
    (one) => ["node", one.name, "years", one.years, one.low, one.high, ""]
  );
  const verdicts = verdictsOf(found).map((one) => ["requirement", one.requirement.name, one.verdict, one.value, one.low, one.high, one.draws]);
  return writeCsv(["of", "name", "what", "value", "low", "high", "draws"], [...verdicts, ...streams, ...nodes]);
}

/** @param {Plan} plan */
export function fileName(plan) {
  return (plan.plan.name || "plan").replace(/[^\p{L}\p{N}._-]+/gu, "-").slice(0, 60) || "plan";
}

/**
 * @param {{ schema: Schema, plan: Plan, open: (files: File[]) => void, begin: () => void, example: () => void,
 *   network: (seed: number) => Promise<string>, found: () => import("./engine.js").Found | null, failed: (message: string) => void }} means
 */
export function filesView({ schema, plan, open, begin, example, network, found, failed }) {
  const input = /** @type {HTMLInputElement} */ (
    h(
      "input",
      { type: "file", id: "open-files", multiple: true, accept: ".toml,.csv,.png,.jpg,.jpeg,.webp", onchange: () => open([...(input.files ?? [])]) },
    )
  );
  const seed = /** @type {HTMLInputElement} */ (h("input", { id: "network-seed", type: "number", min: 0, value: "1", "data-key": "network-seed" }));
  const base = fileName(plan);
  return h("section", {}, h("h2", {}, "Open"), h("p", {}, h("label", { for: "open-files" }, "A plan file with its tables, or tables for this plan: "), input),
    h("p", { class: "quiet" }, "Or drop files anywhere on the page. Nothing leaves this computer."),
    h("p", {}, button("Empty plan", begin), button("Example", example)),
    h("h2", {}, "Save"), h("p", {}, button("Plan file (TOML)", () => offer(`${base}.toml`, writePlan(schema, plan), "text/plain")),
      ["node", "link", "stream"].filter((table) => plan[/** @type {"node"} */ (table)].length).map(
        (table) => button(`${table}s.csv`, () => offer(`${table}s.csv`, tableCsv(schema, plan, table), "text/csv"))
      ),
      button("Answers (CSV)", () => {
        const now = found();
        if (now) offer(`${base}-answers.csv`, answersCsv(now), "text/csv");
      }), button("Report (print)", () => window.print())),
    h("h2", {}, "Network of a seed"), h("p", {}, h("label", { for: "network-seed" }, "seed "), seed,
      button(
        "Network text",
        () => network(Number(seed.value)).then(
          (text) => offer(`${base}-${seed.value}.network`, text, "text/plain"), (error) => failed(error.message),
        ),
      )),
    h("p", { class: "quiet" }, "foldcairn outcome, fates, sample and draw take this text."));
}
