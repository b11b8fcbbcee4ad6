// node studio_draws.mjs MODULES WASM SCRIPT: what the page's worker draws of plans. Standard input has a line of JSON for each plan,
// {"schema", "event", "text", "seeds"}, and standard output a line for each answer: the draws of each case, and what is shown of them.
import fs from "node:fs";
import path from "node:path";
import url from "node:url";

const [folder, wasm, script] = process.argv.slice(2).map((one) => path.resolve(one));
const load = (file) => import(url.pathToFileURL(file).href);
const of = (name) => load(path.join(folder, `${name}.js`));
await load(script);
const module = await WebAssembly.compile(fs.readFileSync(wasm));
const [{ Workman }, { casesOf }, { readPlan }, { streamFigures, nodeFigures, verdictsOf }] = await Promise.all(["worker", "engine", "plan_file", "figures"].map(of));
const told = (key, value) => (typeof value === "number" && !Number.isFinite(value) ? { $: String(value) } : ArrayBuffer.isView(value) ? [...value] : value);
const answered = (workman, asked) => {
  const answer = workman.answer({ generation: 1, ...asked });
  if (answer?.error) throw new Error(answer.error);
  return answer;
};
const drawn = ({ schema, event, text, seeds }) => {
  const plan = readPlan(schema, text), workman = new Workman(), cases = casesOf(plan), draws = new Map();
  answered(workman, { module, capacities: schema.capacities, event, plan });
  for (const { key, failed, seconds, requirements } of cases) {
    draws.set(key, Array.from({ length: seeds }, (_, place) => answered(workman, { seed: place + 1, failed, seconds, requirements }).draw));
  }
  const { own } = answered(workman, { command: "own" });
  const done = seeds * cases.length;
  const found = { generation: 1, plan, error: "", draws, cases: new Map(cases.map((one) => [one.key, one.requirements])), done, wanted: done, own, isOwnKnown: true };
  const shown = { streams: streamFigures(found), nodes: nodeFigures(found), verdicts: verdictsOf(found).map(({ requirement, ...one }) => one) };
  return { cases: cases.map((one) => ({ ...one, draws: draws.get(one.key) })), own, shown };
};
for (const line of fs.readFileSync(0, "utf8").split("\n").filter(Boolean)) console.log(JSON.stringify(drawn(JSON.parse(line)), told));
