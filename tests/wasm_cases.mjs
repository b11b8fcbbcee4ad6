// node wasm_cases.mjs FOLDER: whether foldcairn.wasm, by the foldcairn.js beside it, writes what is due. It reads the cases of
// tests/same_bytes.py, a line of JSON each. The last line is 'N cases, M differences', and the status is 0 where M is 0.
import fs from "node:fs";
import crypto from "node:crypto";
import path from "node:path";

const folder = path.resolve(process.argv[2]);
await import(path.join(folder, "foldcairn.js"));
const pool = new Foldcairn.Pool(await Foldcairn.compile(fs.readFileSync(path.join(folder, "foldcairn.wasm"))), 2);
const cases = fs.readFileSync(0, "utf8").split("\n").filter(Boolean).map((line) => JSON.parse(line));
let differences = 0;
await Promise.all(cases.map(async ({ words, input, origin, status, sum }) => {
  const answer = await pool.run(words, Buffer.from(input, "base64")).catch((error) => ({ status: String(error), output: new Uint8Array() }));
  if (answer.status === status && crypto.createHash("sha256").update(answer.output).digest("hex") === sum) return;
  differences += 1;
  console.log(`DIFFERS: ${words.join(" ")} of ${origin || "no file"}: status ${status} and ${answer.status}, ${answer.output.length} bytes`);
}));
pool.close();
console.log(`${cases.length} cases, ${differences} differences`);
process.exit(differences === 0 ? 0 : 1);
