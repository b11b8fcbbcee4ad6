// node wasm_module.mjs FOLDER: the tests of foldcairn.js over foldcairn.wasm in that folder: a call at once, several in workers, progress,
// calls that are ended, and what is wrong.
import assert from "node:assert/strict";
import fs from "node:fs";
import path from "node:path";
import test from "node:test";
import { fileURLToPath } from "node:url";

const folder = path.resolve(process.argv[2]);
const top = path.resolve(path.dirname(fileURLToPath(import.meta.url)), "..");
await import(path.join(folder, "foldcairn.js"));
const module = await Foldcairn.compile(fs.readFileSync(path.join(folder, "foldcairn.wasm")));
const read = (name) => fs.readFileSync(path.join(top, name));
const text = (answer) => new TextDecoder().decode(answer.output);
const scenario = read("examples/packets-along-a-line.scenario");
const report = read("examples/expected/packets-along-a-line.report").toString();
const network = read("tests/worked/three-in-a-line.network").toString();
const long = `${fs.readFileSync(path.join(top, "examples/energy-of-a-night.scenario"))}`;

test("a report is that of the example, from bytes and from a string", () => {
  for (const input of [scenario, scenario.toString()]) {
    const answer = Foldcairn.run(module, ["run"], input);
    assert.equal(answer.status, 0);
    assert.equal(text(answer), report);
  }
});

test("statuses are those of the programs", () => {
  assert.equal(text(Foldcairn.run(module, ["run"], "frames 012\n")), "fault line 1: BadNumber\n");
  assert.equal(Foldcairn.run(module, ["run"], "frames 012\n").status, 1);
  assert.equal(Foldcairn.run(module, ["none"], "").status, 2);
  assert.match(text(Foldcairn.run(module, [], "")), /^usage: flood/);
  assert.match(text(Foldcairn.run(module, ["draw"], "")), /^usage: draw/);
});

test("what was opened answers again and again, with the bytes of a fresh module", () => {
  const kept = Foldcairn.open(module);
  const asked = [["outcome", "1"], ["run"], ["fates", "2"], ["none"], ["log", "3"], ["outcome", "1"], ["bounds"], ["sample", "1", "3"]];
  for (const words of [...asked, ...asked.reverse()]) {
    const input = words.join() === "run" ? scenario : network, due = Foldcairn.run(module, words, input);
    const { status, output } = kept.call(words, input);
    assert.equal(status, due.status);
    assert.equal(text({ output }), text(due));
  }
  const before = kept.memory();
  for (let seed = 1; seed <= 50; seed++) kept.call(["outcome", String(seed)], network);
  assert.equal(kept.memory(), before);
});

test("calls at once in workers, more than there are", async () => {
  const pool = new Foldcairn.Pool(module, 3);
  const answers = await Promise.all(Array.from({ length: 9 }, (_, i) => pool.run(i % 2 ? ["run"] : ["none"], scenario)));
  answers.forEach((answer, i) => assert.equal(answer.status, i % 2 ? 0 : 2));
  assert.equal(text(answers[1]), report);
  pool.close();
});

test("a sample in parts has the bytes of one call, and says how far it is", async () => {
  const pool = new Foldcairn.Pool(module, 2);
  const whole = Foldcairn.run(module, ["sample", "3", "23"], network);
  const seen = [];
  const answer = await pool.sample(network, 3, 23, { part: 5, progress: (done, all) => seen.push([done, all]) });
  assert.equal(text(answer), text(whole));
  assert.deepEqual(seen.at(-1), [23, 23]);
  assert.equal(seen.length, 5);
  const wrong = await pool.sample("frames 012\n", 1, 10, { part: 5 });
  assert.equal(text(wrong), "fault line 1: BadNumber\n");
  assert.equal(text(await pool.sample(network, 1, 0)), text(Foldcairn.run(module, ["sample", "1", "0"], network)));
  pool.close();
});

test("a call is ended while it waits and while it runs, and the others go on", async () => {
  const pool = new Foldcairn.Pool(module, 1);
  const [first, second] = [new AbortController(), new AbortController()];
  const running = pool.run(["sample", "1", "100000000"], network, { signal: first.signal });
  const waiting = pool.run(["run"], long, { signal: second.signal });
  const last = pool.run(["run"], scenario);
  second.abort(new Error("not wanted"));
  await assert.rejects(waiting, /not wanted/);
  setTimeout(() => first.abort(new Error("too long")), 200);
  await assert.rejects(running, /too long/);
  assert.equal(text(await last), report);
  await assert.rejects(pool.run(["run"], scenario, { signal: AbortSignal.abort(new Error("before")) }), /before/);
  pool.close();
});

test("a closed pool rejects what is not done, and takes no more", async () => {
  const pool = new Foldcairn.Pool(module, 1);
  const calls = [pool.run(["sample", "1", "100000000"], network), pool.run(["run"], scenario)];
  setTimeout(() => pool.close(), 100);
  for (const call of calls) await assert.rejects(call, /closed/);
  await assert.rejects(pool.run(["run"], scenario), /closed/);
});

test("a pool has at least one worker", () => {
  assert.throws(() => new Foldcairn.Pool(module, 0), RangeError);
});

test("memory that the host refuses is status 5", () => {
  // A module whose memory may not grow at all: the limits of its memory are those of its beginning.
  const bytes = fs.readFileSync(path.join(folder, "foldcairn.wasm"));
  const answer = Foldcairn.run(new WebAssembly.Module(withoutGrowth(bytes)), ["run"], scenario);
  assert.equal(answer.status, 5);
});

// The module with the greatest size of its memory set to its first: section 5 has the limits, `00 MIN` or `01 MIN MAX`.
function withoutGrowth(bytes) {
  const number = (at) => {
    let value = 0, shift = 0, byte;
    do {
      byte = bytes[at++];
      value |= (byte & 0x7f) << shift;
      shift += 7;
    } while (byte & 0x80);
    return [value, at];
  };
  for (let at = 8; at < bytes.length;) {
    const [size, start] = number(at + 1);
    if (bytes[at] === 5) {
      assert.deepEqual([bytes[start], bytes[start + 1]], [1, 0], "one memory without a greatest size");
      const limit = bytes.subarray(start + 2, start + size);
      const section = [5, 2 + 2 * limit.length, 1, 1, ...limit, ...limit];
      return Buffer.concat([bytes.subarray(0, at), Buffer.from(section), bytes.subarray(start + size)]);
    }
    at = start + size;
  }
  throw new Error("no memory");
}
