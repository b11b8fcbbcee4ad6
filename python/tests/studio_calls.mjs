// node studio_calls.mjs FOLDER: calls functions of the page's modules in that folder. Standard input has a line of JSON for each call,
// {"module", "name", "args"}, and standard output a line for each answer, {"value"} or {"error"}. What JSON has not, is {"$": text}.
import fs from "node:fs";
import path from "node:path";
import url from "node:url";

const folder = path.resolve(process.argv[2]);
const taken = (key, value) => (value && typeof value === "object" && "$big" in value ? BigInt(value.$big) : value);
const told = (key, value) => {
  if (typeof value === "bigint") return { $: String(value) };
  if (typeof value === "number" && !Number.isFinite(value)) return { $: String(value) };
  if (value instanceof Map) return [...value];
  return value && value.constructor?.name === "TomlDate" ? { $: value.text } : value;
};
for (const line of fs.readFileSync(0, "utf8").split("\n").filter(Boolean)) {
  const { module, name, args } = JSON.parse(line, taken);
  const loaded = await import(url.pathToFileURL(path.join(folder, `${module}.js`)).href);
  let answer;
  try {
    answer = { value: loaded[name](...args) };
  } catch (error) {
    answer = { error: error.message };
  }
  console.log(JSON.stringify(answer, told));
}
