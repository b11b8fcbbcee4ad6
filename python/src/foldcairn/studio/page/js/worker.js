// What a worker does: it makes the network of a seed, runs the proved program on it, and measures what came. Tested, not proved.
import { floodsOf } from "./flood_log.js";
import { drawnOf, planIn } from "./measure.js";
import { hasOwnNetworks, networkOf, prepared } from "./network.js";
import { PlanError } from "./plan_words.js";

/** @typedef {import("./types.js").Plan} Plan */
/** @typedef {import("./types.js").Row} Row */
/**
 * What a worker is asked: first the module, then plans, then draws.
 * @typedef {{ module?: WebAssembly.Module, capacities?: Record<string, number>, event?: Row, plan?: Partial<Plan>, generation: number, seed?: number,
 *   failed?: string, seconds?: number, requirements?: number[], command?: string }} Asked
 */

/** @typedef {{ call: (words: string[], input: string) => { status: number, output: Uint8Array }, memory: () => number }} Opened */
/** @type {{ open: (module: any) => Opened }} */
const programs = /** @type {any} */ (globalThis).Foldcairn;

// Nodes times frames of the floods that are shown are at most that, so that the text of their log has a few megabytes.
const LOG_MOST = 16_384;
// A program that is kept for the next call has at most that many bytes.
const KEPT_MOST = 268_435_456;

/** What answers the messages of a page. */
export class Workman {
  constructor() {
    /** @type {Asked} */
    this.given = { generation: 0 };
    /** @type {Map<string, ReturnType<typeof prepared>>} */
    this.prepared = new Map();
    /** @type {import("./propagation.js").Links | undefined} */
    this.links = undefined;
    /** @type {Opened | null} */
    this.opened = null;
  }

  /** What a command writes; the bytes are there until the next call. The memory of the program is kept for that: a new one costs a third more.
   * @param {string[]} words @param {string} input */
  run(words, input) {
    const opened = this.opened ?? programs.open(this.given.module);
    this.opened = null;
    const { status, output } = opened.call(words, input);
    if (status !== 5 && opened.memory() <= KEPT_MOST) this.opened = opened;
    if (status !== 0) {
      const told = new TextDecoder().decode(output.subarray(0, 200)).trim();
      throw new PlanError("", status === 5 ? "the browser has too little memory for this plan" : `the program refuses the network: ${told}`);
    }
    return output;
  }

  /** @param {Asked} asked @returns {any} */
  answer(asked) {
    const { plan, module } = asked;
    if (module || plan) {
      // Of a plan come the tables that are others than before.
      this.given = { ...this.given, ...asked, plan: /** @type {Plan} */ ({ ...this.given.plan, ...plan }) };
      this.prepared.clear();
      this.links = undefined;
      return null;
    }
    try {
      return { generation: asked.generation, ...this.done(asked) };
    } catch (error) {
      return { generation: asked.generation, error: error instanceof Error ? error.message : String(error), isCommand: Boolean(asked.command) };
    }
  }

  /** The floods of a seed, in its first frames: the log of an hour would fill the memory of a browser.
   * @param {ReturnType<typeof prepared>} made @param {number} seed */
  floods(made, seed) {
    const frames = Math.min(made.frames, Math.floor(LOG_MOST / made.nodes.length));
    const network = networkOf({ ...made, frames }, seed);
    const log = new TextDecoder().decode(this.run(["log", String(seed)], network.text));
    const links = network.text.split("\n").filter((line) => line.startsWith("link ")).map((line) => line.split(" ").slice(1).map(Number));
    return { floods: floodsOf(log, made.frame), links, names: [...network.ids].map(([name, id]) => [id, name]), frames, frame: made.frame, all: made.frames };
  }

  /** The bounds of the network of a seed.
   * @param {ReturnType<typeof prepared>} made @param {number} seed @returns {import("./bounds.js").Told} */
  bounds(made, seed) {
    const network = networkOf(made, seed), text = new TextDecoder().decode(this.run(["bounds"], network.text));
    return { text, names: [...network.ids].map(([name, id]) => [id, name]), frame: made.frame };
  }

  /** @param {Asked} asked */
  done({ seed = 1, failed = "", seconds = 0, requirements = [], command }) {
    const one = { failed, seconds }, key = `${failed} ${seconds}`;
    const plan = /** @type {Plan} */ (this.given.plan);
    let made = this.prepared.get(key);
    if (!made) {
      // What fails changes no link.
      made = prepared(planIn(plan, one, this.given.event ?? {}), this.links);
      this.links = made.links;
      this.prepared.set(key, made);
    }
    const run = (/** @type {string[]} */ words, /** @type {string} */ input) => this.run(words, input);
    if (command === "log") return this.floods(made, seed);
    if (command === "network") return { text: networkOf(made, seed).text };
    if (command === "bounds") return { told: this.bounds(made, seed) };
    if (command === "own") return { own: hasOwnNetworks(made) };
    if (command) throw new PlanError("", `there is no command ${command}`);
    return { case: key, draw: drawnOf(made, seed, one, requirements.map((place) => plan.requirement[place]), run, this.given.capacities ?? {}) };
  }
}

/** Makes this worker answer. */
export function work() {
  const workman = new Workman();
  addEventListener("message", ({ data }) => {
    const answer = workman.answer(data);
    if (answer) postMessage(answer);
  });
}
